# As many patterns as a group may have, 64, as many groups as a screen or an exception may have, 16, and as many actions as
# a screen may have, 8, with one more of each.
function times(count, word,    words) {
    for (; count > 0; count--) words = words word
    return words
}
BEGIN {
    add = "1 filescrn filegroup add /Filegroup:"
    print add "long /Members:x" times(64, "|x")
    print add "long /Members:x" times(63, "|x") " /NonMembers:y" times(64, "|y")
    print add "long /Members:x" times(63, "|x") " /NonMembers:y" times(63, "|y")
    for (group = 1; group <= 17; group++) print add group " /Members:*." group
    for (group = 1; group <= 16; group++) sixteen = sixteen " /Add-Filegroup:" group
    action = " /Add-Notification:e,0,x"
    screen = "1 filescrn screen add /Path:D:\\"
    print screen sixteen " /Add-Filegroup:17"
    print screen sixteen times(9, action)
    print screen sixteen times(8, action) " /Add-Filegroup:16"
    print "1 filescrn screen modify /Path:D:\\ /Add-Filegroup:17"
    print "1 filescrn screen modify /Path:D:\\ /Add-Filegroup:17 /Remove-Filegroup:1"
    print "1 mkdir D:\\a 1"
    print "1 filescrn exception add /Path:D:\\a" sixteen " /Add-Filegroup:17"
    print "1 filescrn exception add /Path:D:\\a" sixteen
    print "1 create D:\\f.1 1 1"
    print "1 create D:\\f.17 1 1"
    print "1 create D:\\a\\f.16 1 1"
    print "1 create D:\\a\\f.17 1 1"
}
