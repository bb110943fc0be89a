# Auto-apply quotas that would give one quota too many give none: 4,097 folders of which none has one. Without one of
# them they all get theirs, and then no other folder may be made or moved there, but for one whose name is excluded and
# for files. The texts are as long as they may be then, too: a template and 4,096 copies of 1,020 bytes, 15,361 bytes of
# names and of another template, and "out".
function times(count, word,    words) {
    for (; count > 0; count--) words = words word
    return words
}
BEGIN {
    text = times(1020, "x")
    action = " /Add-Notification:50,e,60,"
    other = " /Add-Notification:60,e,60,"
    print "0 dirquota template add /Template:T /Limit:1mb" action text
    fifteen = times(8, action text) times(7, other text)
    print "0 dirquota template add /Template:U /Limit:1mb" fifteen other times(59, "y")
    print "0 mkdir D:\\u 1"
    print "0 mkdir D:\\w 1"
    for (folder = 0; folder <= 4096; folder++)
        print "0 mkdir D:\\u\\d" folder " 1"
    add = "0 dirquota autoquota add /Path:D:\\u /SourceTemplate:T"
    reset = "0 dirquota quota resetpeak /Path:D:\\u\\"
    print add
    print "0 dirquota autoquota list"
    print "0 dirquota quota list"
    print "0 move D:\\u\\d4096 D:\\d4096"
    print add " /Exclude:long"
    print add " /Exclude:out"
    print reset "d4095"
    print "0 dirquota template add /Template:V /Limit:1kb"
    print "0 mkdir D:\\u\\e 1"
    print "0 mkdir D:\\u\\OUT 1"
    print reset "out"
    print "0 create D:\\u\\f 1 1"
    print "0 move D:\\d4096 D:\\u\\e"
    print "0 move D:\\d4096 D:\\w\\e"
    print "0 move D:\\w D:\\u\\out\\w"
    print "0 move D:\\u\\d7 D:\\u\\seven"
    print reset "seven"
    print "0 dirquota quota delete /Path:D:\\u\\seven"
    print "0 mkdir D:\\u\\e 1"
    print reset "e"
    print "0 move D:\\u\\seven D:\\u\\SEVEN"
    print "0 remove D:\\u\\e"
    print "0 move D:\\u\\seven D:\\u\\SEVEN"
    print reset "seven"
    print "0 dirquota autoquota list"
}
