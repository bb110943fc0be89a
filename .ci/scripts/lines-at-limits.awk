# Lines of which a value is at its limit or one past it: the line itself, a file's length and its owner, percentages,
# minutes, patterns, excluded names, thresholds.
function repeated(text, count,    all) {
    while (count-- > 0) all = all text
    return all
}
function numbered(text, first, last,    all) {
    for (; first <= last; first++) all = all text first
    return all
}
BEGIN {
    print "#" repeated("x", 65535)
    print "#" repeated("x", 65536)
    print "100 create D:\\a 17592185978880 4294967295"
    print "100 usage D:\\a"
    print "100 create D:\\b 17592185978881 1"
    print "100 create D:\\b 0 4294967296"
    print "100 create D:\\b 0 0"
    quota = "100 dirquota quota add /Path:D:\\ /Limit:1kb"
    print quota " /Add-Threshold:251"
    print quota " /Add-Notification:1,e,525601,"
    print quota numbered(" /Add-Threshold:", 1, 17)
    print quota " /Add-Notification:1,e,525600," numbered(" /Add-Threshold:", 2, 15) " /Add-Threshold:250"
    group = "100 filescrn filegroup add /Filegroup:G /Members:a"
    print group repeated("|a", 64)
    screen = "100 filescrn screen add /Path:D:\\ /Add-Filegroup:G"
    print screen
    print group repeated("|a", 63)
    print screen
    # With 33 names the line is refused as it is read; with 32 it is read, and there is no such template.
    autoquota = "100 dirquota autoquota add /Path:D:\\ /SourceTemplate:T"
    print autoquota numbered(" /Exclude:a", 1, 33)
    print autoquota numbered(" /Exclude:a", 1, 32)
    print "100 dirquota quota list"
}
