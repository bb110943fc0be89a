# 2,000 folders, each in the one before, and a file in the last one.
BEGIN {
    path = "D:"
    for (depth = 1; depth <= 2000; depth++) {
        path = path "\\d"
        print "7 mkdir " path " 1"
    }
    print "7 usage " path "\\"
    print "7 usage " path "\\\\"
    print "7 create " path "\\f 4097 1"
    print "7 usage D:\\"
}
