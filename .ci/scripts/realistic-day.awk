# Forty home folders on one day: each has a quota of one template, and music is kept out. Files come; then songs, which a
# screen blocks and warns of once an hour at most; then each folder is filled to its last byte, one byte more is refused,
# and the mail is read.
function each(moment, command, name, rest,    user) {
    for (user = 1; user <= 40; user++)
        printf "%d %s D:\\home\\u%02d%s%s %d\n", moment + (user - 1) * apart, command, user, name, rest, user
}
BEGIN {
    start = 1000000000
    print start " dirquota template add /Template:Home /Limit:200mb /Add-Notification:85,e,60,near"
    print start " filescrn filegroup add /Filegroup:Music /Members:*.mp3|*.wav|*.wma"
    print start " mkdir D:\\home 1"
    print start " dirquota autoquota add /Path:D:\\home /SourceTemplate:Home"
    print start " filescrn screen add /Path:D:\\home /Add-Filegroup:Music /Add-Notification:e,60,music"
    each(start, "mkdir")
    each(start, "create", "\\mail.pst", " 104857600")
    each(start, "create", "\\photos.zip", " 73400320")
    apart = 600
    each(start, "create", "\\song.mp3", " 5000000")
    apart = 0
    each(start + 30000, "create", "\\work.doc", " 31457280")
    each(start + 30000, "create", "\\more.txt", " 1")
    for (user = 1; user <= 40; user++)
        printf "%d touch D:\\home\\u%02d\\mail.pst\n", start + 30000, user
}
