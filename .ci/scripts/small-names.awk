# A volume with room for 256 bytes of names (small-names.init). Names of 255, 1 and 100 bytes are made, removed and changed,
# three times over. After each step stands how many bytes there are then, or would be if there were room.
function name(spelled,    text) {
    for (text = ""; length(text) < substr(spelled, 2) + 0; text = text substr(spelled, 1, 1));
    return "D:\\" text
}
function step(doing, from, to) {
    if (doing == "make") print "7 create " name(from) " 0 1"
    else if (doing == "folder") print "7 mkdir " name(from) " 1"
    else if (doing == "remove") print "7 remove " name(from)
    else print "7 move " name(from) " " name(to)
}
BEGIN {
    for (round = 1; round <= 3; round++) {
        step("make", "a255")            # 255
        step("folder", "b1")            # 256
        step("make", "c1")              # 257, too many
        step("folder", "a255")          # is there already
        step("move", "a255", "a100")    # 101
        step("make", "c100")            # 201
        step("folder", "d100")          # 301, too many
        step("move", "b1", "b100")      # 300, too many
        step("make", "d1")              # 202
        step("move", "d1", "e1")        # 202
        step("move", "c100", "c255")    # 357, too many
        step("remove", "a100")          # 102
        step("move", "c100", "c255")    # 257, too many
        step("remove", "b1")            # 101
        step("move", "c100", "c255")    # 256
        step("move", "e1", "d1")        # 256
        step("move", "c255", "e255")    # 256
        step("make", "a1")              # 257, too many
        step("remove", "d1")            # 255
        step("folder", "a1")            # 256
        step("remove", "e255")          # 1
        step("folder", "b255")          # 256
        step("make", "c100")            # 356, too many
        step("move", "b255", "b1")      # 2
        step("make", "c100")            # 102
        step("make", "d100")            # 202
        step("move", "a1", "a100")      # 301, too many
        step("move", "c100", "c1")      # 103
        step("move", "a1", "a100")      # 202
        step("remove", "d100")          # 102
        step("make", "d255")            # 357, too many
        step("remove", "a100")          # 2
        step("make", "d255")            # 257, too many
        step("remove", "b1")            # 1
        step("make", "d255")            # 256
        step("move", "c1", "D255")      # is there already
        step("remove", "c1")            # 255
        step("make", "c100")            # 355, too many
        if (round < 3) step("remove", "d255")
    }
    print "7 dirquota admin list"
}
