# As many templates and auto-apply quotas as there may be, 1,024 of each, and one more.
BEGIN {
    for (row = 0; row <= 1024; row++)
        print "0 dirquota template add /Template:t" row " /Limit:1kb"
    for (row = 0; row <= 1024; row++)
        print "0 mkdir D:\\d" row " 1"
    for (row = 1024; row >= 0; row--)
        print "0 dirquota autoquota add /Path:D:\\d" row " /SourceTemplate:t" row % 1024
    print "0 dirquota template add /Template:t1025 /Limit:1kb"
    print "0 dirquota template add /Template:T7 /Limit:1kb"
    print "0 dirquota template delete /Template:t7"
    print "0 remove D:\\d7"
    print "0 dirquota template delete /Template:t7"
    print "0 dirquota template add /Template:t1024 /Limit:1kb"
    print "0 dirquota autoquota add /Path:D:\\d0 /SourceTemplate:t1024"
    print "0 mkdir D:\\d0\\e 1"
    print "0 dirquota template modify /Template:t1024 /Limit:2kb /UpdateDerived:matching"
    print "0 dirquota quota list"
}
