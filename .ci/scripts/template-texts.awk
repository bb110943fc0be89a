# As many bytes of texts as there may be, 4,194,304, by templates: 1,022 of 4,101 bytes each, and one of what is left.
BEGIN {
    for (text = "x"; length(text) < 1024; text = text text);
    action = " /Add-Notification:1,e,0,"
    four = action text action text action text action text
    add = "0 dirquota template add /Limit:1mb /Template:"
    for (row = 1; row <= 1023; row++) printf "%st%04d%s\n", add, row, four
    three = action text action text action text
    print add "t1023" three action substr(text, 1, 6)
    print add "t1023" three action substr(text, 1, 5)
    print add "u"
    print "0 dirquota template modify /Template:t0007" action "y"
    print "0 dirquota template modify /Template:t0007" action
    print "0 mkdir D:\\a 1"
    print "0 dirquota quota add /Path:D:\\a /SourceTemplate:t0007"
    print "0 dirquota template delete /Template:t0009"
    print "0 dirquota quota add /Path:D:\\a /SourceTemplate:t0007"
}
