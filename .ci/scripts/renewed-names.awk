# As many names of 255 bytes as a volume holds, 16,448. Then, 20,000 times, the oldest goes and another one comes, for
# whose bytes the others have to slide. A file has as many clusters as its number says, so the sum tells which are there
# after each second one was removed.
function name(number) {
    return number substr(padding, 1, 255 - length(number))
}
BEGIN {
    for (bytes = 0; bytes < 255; bytes++)
        padding = padding "n"
    for (file = 0; file < 16448; file++)
        print "0 create D:\\" name(file) " " 4096 * file " 1"
    for (; file < 36448; file++) {
        print "0 remove D:\\" name(file - 16448)
        print "0 create D:\\" name(file) " " 4096 * file " 1"
    }
    for (file = 20000; file < 36448; file += 2)
        print "0 remove D:\\" name(file)
    print "0 usage D:\\"
    print "0 dirquota admin list"
}
