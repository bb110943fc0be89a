# As many groups as there may be, 1,024, and one more.
BEGIN {
    group = "0 filescrn filegroup "
    for (number = 0; number < 1024; number++)
        print group "add /Filegroup:g" number " /Members:*." number
    print group "add /Filegroup:g1024 /Members:*"
    print group "add /Filegroup:G7 /Members:*"
    print group "modify /Filegroup:G1023 /Members:*.mp3 /NonMembers:a*"
    print "0 filescrn screen add /Path:D:\\ /Add-Filegroup:g0 /Add-Filegroup:g1023"
    print "0 create D:\\b.MP3 1 1"
    print "0 create D:\\b.1023 1 1"
    print group "delete /Filegroup:g1023"
    print group "delete /Filegroup:g7"
    print "0 filescrn screen modify /Path:D:\\ /Add-Filegroup:g7"
    print group "add /Filegroup:g1024 /Members:*.txt"
    print group "add /Filegroup:g7 /Members:*"
    print "0 filescrn screen modify /Path:D:\\ /Add-Filegroup:g1024"
    print "0 create D:\\b.txt 1 1"
    print "0 create D:\\b.7 1 1"
    print "0 filescrn screen list"
}
