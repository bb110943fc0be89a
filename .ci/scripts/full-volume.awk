# As many nodes as a volume holds, 65,536 with the root, and one more.
BEGIN {
    for (file = 0; file < 65536; file++)
        print "0 create D:\\f" file " 1 1"
    print "0 mkdir D:\\d 1"
    print "0 create D:\\F7 1 1"
    print "0 usage D:\\"
    print "0 remove D:\\f7"
    print "0 mkdir D:\\d 1"
}
