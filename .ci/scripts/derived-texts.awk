# As many bytes of texts as there may be, by copies: a template of 8,193 bytes, and 510 quotas of 8,192 each. Its change
# is judged with all that it makes of them.
BEGIN {
    for (text = "x"; length(text) < 1024; text = text text);
    for (action = 0; action < 8; action++) texts = texts " /Add-Notification:50,e,60," text
    print "0 dirquota template add /Template:T /Limit:1mb" texts
    print "0 mkdir D:\\u 1"
    for (folder = 0; folder < 510; folder++) print "0 mkdir D:\\u\\d" folder " 1"
    print "0 dirquota autoquota add /Path:D:\\u /SourceTemplate:T"
    print "0 mkdir D:\\u\\d510 1"
    print "0 mkdir D:\\w 1"
    print "0 move D:\\w D:\\u\\w"
    print "0 dirquota quota add /Path:D:\\w /SourceTemplate:T"
    modify = "0 dirquota template modify /Template:T"
    print modify " /Add-Notification:60,e,60,sixteen-of-bytes /UpdateDerived:matching"
    print modify " /Add-Notification:60,e,60,sixteen-of-bytes"
    print modify " /Remove-Threshold:60"
    print modify " /Add-Notification:60,e,60,sixteen-of-byte /UpdateDerived:all"
    print modify " /Add-Notification:70,e,60,y /UpdateDerived:none"
    add = "0 dirquota template add /Limit:1mb /Template:"
    print add substr(text, 1, 255)
    print add "y" substr(text, 1, 254)
    print add substr(text, 1, 16)
    print add substr(text, 1, 15)
    print "0 dirquota autoquota add /SourceTemplate:T /Path:D:\\w /Exclude:x"
    print "0 dirquota autoquota add /SourceTemplate:T /Path:D:\\w"
    print modify " /Remove-Threshold:50 /UpdateDerived:all"
    print "0 mkdir D:\\u\\d510 1"
    print "0 move D:\\w D:\\u\\w"
    print "0 dirquota quota list /Path:D:\\u\\w"
}
