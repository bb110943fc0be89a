# As many bytes of texts as there may be, 4,194,304: 4,096 quotas with a text of 1,024 bytes each. Then some
# of these bytes go to a group and to a screen, and back.
BEGIN {
    for (text = "x"; length(text) < 1024; text = text text);
    for (folder = 0; folder < 4096; folder++)
        print "0 mkdir D:\\d" folder " 1"
    for (folder = 0; folder < 4096; folder++)
        print "0 dirquota quota add /Path:D:\\d" folder " /Limit:1kb /Add-Notification:100,e,60," text
    modify = "0 dirquota quota modify /Path:D:\\d7"
    add = "0 dirquota quota add /Path:D:\\d7 /Limit:1kb"
    print modify " /Add-Notification:100,e,60,y"
    print modify " /Add-Notification:100,e,60,"
    print modify " /Remove-Threshold:100 /Add-Notification:100,m,60," text
    print modify " /Remove-Threshold:100 /Add-Notification:99,e,60," text " /Add-Notification:98,e,60,y"
    print "0 dirquota quota delete /Path:D:\\d7"
    print add " /Add-Notification:100,e,60," text " /Add-Notification:100,e,60,y"
    print add " /Add-Notification:100,e,60," text
    print modify " /Limit:2kb"
    print "0 mkdir D:\\e 1"
    print "0 dirquota quota add /Path:D:\\e /Limit:1kb /Add-Notification:100,e,60,y"
    group = "0 filescrn filegroup "
    screen = "0 filescrn screen add /Path:D:\\e /Add-Filegroup:five"
    print group "add /Filegroup:g /Members:*"
    print group "list"
    print modify " /Remove-Threshold:100 /Add-Notification:100,e,60," substr(text, 1, 1014)
    print group "add /Filegroup:five /Members:a|b|c /NonMembers:d|e|\303\251"
    print group "add /Filegroup:five /Members:a|b|c /NonMembers:d|e|f"
    print modify " /Add-Notification:100,e,60,y"
    print screen " /Add-Notification:e,60,y"
    print screen " /Add-Notification:e,60,"
    print group "modify /Filegroup:five /Members:a|b|cd"
    print group "modify /Filegroup:FIVE /Members:abc"
    print "0 mkdir D:\\f 1"
    print "0 filescrn exception add /Path:D:\\f /Add-Filegroup:five"
    print group "modify /Filegroup:five /NonMembers:"
    print "0 filescrn screen delete /Path:D:\\e"
    print screen " /Add-Notification:e,60,x /Add-Notification:e,60,\303\251y"
    print screen " /Add-Notification:e,60,x /Add-Notification:e,60,\303\251"
    print group "modify /Filegroup:five /Members:abcd"
    print "0 dirquota quota delete /Path:D:\\d7"
    long = substr(text, 1, 255)
    members = " /Members:" long "|" long "|" long "|"
    print group "modify /Filegroup:five" members substr(text, 1, 253)
    print group "modify /Filegroup:five" members substr(text, 1, 252)
    print add " /Add-Notification:100,e,60,y"
    print add " /Add-Notification:100,e,60,"
    print "0 filescrn exception delete /Path:D:\\f"
    print "0 remove D:\\e"
    print modify " /Add-Notification:100,e,60,abcd"
    print modify " /Add-Notification:100,e,60,abc"
    print group "delete /Filegroup:five"
    print modify " /Remove-Threshold:100 /Add-Notification:100,e,60," text
    print group "add /Filegroup:g /Members:*"
    print group "list"
}
