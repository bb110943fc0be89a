# The texts of 1,022 templates take 4,191,222 bytes, and those of four report jobs 2,840 more, so 242 are left.
BEGIN {
    while (bytes++ < 1024) text = text "x"
    notice = " /Add-Notification:1,e,0," text
    for (number = 1; number <= 1022; number++)
        printf "0 dirquota template add /Template:t%04d /Limit:1mb%s%s%s%s\n", number, notice, notice, notice, notice
    job = "0 storrept reports add /Report:LargeFiles /Scope:D:\\ /Task:"
    name = substr(text, 1, 251)
    pattern = " /Pattern:" substr(text, 1, 254) "?"
    schedule = " /Schedule:" substr(text, 1, 200)
    for (number = 1; number <= 4; number++) printf "%s%s%04d%s%s\n", job, name, number, pattern, schedule
    print job substr(text, 1, 243)
    print job substr(text, 1, 42) " /Schedule:x /Pattern:" substr(text, 1, 200)
    print job substr(text, 1, 242)
    print job "j"
    print "0 storrept reports run /Task:" substr(text, 1, 242)
    print "0 dirquota template delete /Template:t0001"
    print job "j"
}
