# Comments about as long as a line may be, 65,536 bytes, and some that are longer; bytes that are no text, and some that stand in no name.
function comment(bytes,    text) {
    for (text = "#"; length(text) < bytes; text = text text);
    return substr(text, 1, bytes)
}
BEGIN {
    printf "%s\r\n", comment(65536)
    printf "%s\n", comment(65537)
    printf "%s\r\n", comment(200000)
    print "0 usage D:\\"
    printf "#\377\n1 \377\n"
    printf "0 mkdir D:\\%c 1\n", 0
    printf "0 mkdir D:\\\037 1\n0 mkdir D:\\a\177 1\n"
}
