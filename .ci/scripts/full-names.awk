# As many bytes of names as a volume holds, 4,194,304: 16,448 names of 255 bytes, and one of 64.
function name(number, bytes,    text) {
    for (text = number "_"; length(text) < bytes; text = text "n");
    return text
}
BEGIN {
    for (file = 0; file < 16448; file++)
        print "0 create D:\\" name(file, 255) " 0 1"
    print "0 create D:\\" name("last", 65) " 0 1"
    print "0 create D:\\" name("last", 64) " 0 1"
    print "0 mkdir D:\\d 1"
    print "0 create D:\\" name(7, 255) " 0 1"
    print "0 move D:\\" name("last", 64) " D:\\" name("more", 65)
    print "0 move D:\\" name("last", 64) " D:\\" name("next", 64)
    print "0 move D:\\" name("next", 64) " D:\\d"
    print "0 mkdir D:\\" name("last", 64) " 1"
    print "0 mkdir D:\\" name("last", 63) " 1"
}
