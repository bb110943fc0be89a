# As many quotas as there may be, 4,096, the greatest folder's first, and one more.
BEGIN {
    for (folder = 0; folder <= 4096; folder++)
        print "0 mkdir D:\\d" folder " 1"
    for (folder = 4096; folder >= 0; folder--)
        print "0 dirquota quota add /Path:D:\\d" folder " /Limit:1kb"
    print "0 dirquota quota add /Path:D:\\d7 /Limit:1kb"
    print "0 dirquota quota delete /Path:D:\\d7"
    print "0 dirquota quota add /Path:D:\\d0 /Limit:1kb"
    print "0 dirquota quota list /Path:D:\\d0"
}
