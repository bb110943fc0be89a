# As many blocked files as the log of audits keeps, 1,024, and one more: the oldest is gone.
BEGIN {
    print "0 filescrn filegroup add /Filegroup:g /Members:*.mp3"
    print "0 filescrn screen add /Path:D:\\ /Add-Filegroup:g"
    for (file = 1; file <= 1025; file++)
        print file " create D:\\f" file ".mp3 1 " file
    print "1025 storrept reports generate /Report:FileScreenAudit /Scope:D:\\ /Max:100000"
}
