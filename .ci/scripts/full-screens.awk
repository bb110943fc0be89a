# As many screens as there may be, 4,096, and as many exceptions, the greatest folder's first, and one more of each.
BEGIN {
    screen = "0 filescrn screen "
    exception = "0 filescrn exception "
    group = " /Add-Filegroup:g"
    print "0 filescrn filegroup add /Filegroup:g /Members:*.mp3"
    for (folder = 0; folder <= 4096; folder++)
        print "0 mkdir D:\\s" folder " 1\n0 mkdir D:\\e" folder " 1"
    for (folder = 4096; folder > 0; folder--)
        print screen "add /Path:D:\\s" folder group "\n" exception "add /Path:D:\\e" folder group
    print screen "add /Path:D:\\s0" group
    print exception "add /Path:D:\\e0" group
    print screen "add /Path:D:\\s7" group
    print exception "add /Path:D:\\e7" group
    print screen "add /Path:D:\\e7" group
    print exception "add /Path:D:\\s7" group
    print screen "add /Path:D:\\s0 /Add-Filegroup:none"
    for (; actions < 9; actions++) nine = nine " /Add-Notification:e,0,x"
    print screen "add /Path:D:\\s0" group nine
    print "0 create D:\\s7\\x.mp3 1 1"
    print "0 create D:\\s0\\x.mp3 1 1"
    print screen "modify /Path:D:\\s7 /Type:passive"
    print "0 create D:\\s7\\x.mp3 1 1"
    print screen "delete /Path:D:\\s7"
    print exception "add /Path:D:\\s7" group
    print screen "add /Path:D:\\s0" group
    print screen "add /Path:D:\\s7" group
    print "0 create D:\\s0\\y.mp3 1 1"
    print "0 remove D:\\e7"
    print screen "add /Path:D:\\e0" group
    print exception "add /Path:D:\\s7" group
    print exception "add /Path:D:\\e0" group
    print "0 filescrn filegroup delete /Filegroup:g"
}
