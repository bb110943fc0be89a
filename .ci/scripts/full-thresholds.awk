# As many thresholds as a quota may have, 16, and as many actions as a threshold may have, 8, with one more of each; and
# texts of 1,024 bytes, as long as they may be, and of more.
function times(count, word,    words) {
    for (; count > 0; count--) words = words word
    return words
}
BEGIN {
    for (percent = 1; percent <= 16; percent++) sixteen = sixteen " /Add-Threshold:" percent
    action = " /Add-Notification:2,m,60,x"
    eight = times(8, action)
    modify = "1 dirquota quota modify /Path:D:\\"
    print "1 dirquota quota add /Path:D:\\ /Limit:1mb" sixteen " /Add-Threshold:17"
    print "1 dirquota quota add /Path:D:\\ /Limit:1mb" sixteen eight action
    print "1 dirquota quota add /Path:D:\\ /Limit:1mb" sixteen " /Add-Threshold:16"
    print "1 dirquota quota add /Path:D:\\ /Limit:1mb" sixteen " /Add-Threshold:17"
    print modify " /Add-Threshold:17"
    print modify " /Add-Notification:17,e,60,x"
    print modify " /Add-Notification:16,e,60,x"
    print modify " /Add-Threshold:17 /Remove-Threshold:1"
    print modify eight action
    print modify eight
    print modify action
    print modify eight " /Remove-Threshold:2"
    print modify " /Remove-Threshold:1" action
    print "1 dirquota quota list"
    long = " /Add-Notification:17,e,60," times(1024, "x")
    print modify long "x"
    print modify long
    long = " /Add-Notification:17,e,60," times(512, "\303\251")
    print modify long "\303\251"
    print modify long
}
