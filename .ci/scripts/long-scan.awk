# A scan of 60,026 folders that change while they are scanned.
#
# D:\t has 245 folders d0, d1, .., and each of these has 244 folders e0, e1, ..: 60,026 folders at and below it. D:\t has
# the least number, and then come those in it, and then those in d0, in d1, ..: in this order they are visited. There is
# a file of 1, 2, .. clusters in d0, d1, .., and one of one cluster in the e0 of each.
#
# Clusters at first: 1 + 2 + .. + 245 and 245 more, which is 30,135 + 245 = 30,380. Out for good went d0, d5, .., d75
# with k + 2 clusters each, 5 * (0 + 1 + .. + 15) + 16 * 2 = 632 together, and 10 folders with a file of one cluster
# each. Into it came 40 * (2 + 1) = 120. So 30,380 - 632 - 10 + 120 = 29,858 clusters are left, of 4,096 bytes.
#
# Visits: 60,026 folders at first. In steps of 1 came 1 + 80 visits; each of 16 visited folders that went out took 244
# with it, each of 16 that went below an unvisited one is visited again, and those that came in make up for those
# unvisited that went out: 60,026 - 81 - 16 * 244 + 16 = 56,057. In steps of 7 came 26 * 7 + 40 * 7 = 462 visits; 10
# folders went below an unvisited one, 10 came in again, and 10 unvisited went out: 56,057 - 462 + 10 = 55,605 are left.
#
# Lines: 2 + 245 + 245 * 244 + 245 * 2 + 1 = 60,518 make the tree and the quota, and 1 + 80 * 2 + 26 + 40 * 4 = 347 go on.
function line(command) { print "0 " command }
function t(folder) { return "D:\\t\\d" folder }
function o(name) { return "D:\\o\\" name }
function move(from, to) { line("move " from " " to) }

function tree(    d, e) {
    line("mkdir D:\\t 1")
    line("mkdir D:\\o 1")
    for (d = 0; d < 245; d++)
        line("mkdir " t(d) " 1")
    for (d = 0; d < 245; d++)
        for (e = 0; e < 244; e++)
            line("mkdir " t(d) "\\e" e " 1")
    for (d = 0; d < 245; d++) {
        line("create " t(d) "\\f " 4096 * d + 1 " 1")
        line("create " t(d) "\\e0\\g 1 1")
    }
}

# A move after the visit of a folder d, of that folder or of one at the other end, which isn't visited yet.
function move_of_outer(visited,    other) {
    other = 244 - visited
    if (visited % 5 == 0) move(t(visited), o("d" visited))                          # out of D:\t
    if (visited % 5 == 1) move(t(visited), t(other) "\\d" visited)                  # below a folder that isn't visited
    if (visited % 5 == 2) move(t(other), o("d" other))                              # the other one out of D:\t
    if (visited % 5 == 3) move(t(other), t(visited) "\\d" other)                    # the other one below a visited folder
    if (visited % 5 == 4) move(o("d" other + 2), t(visited) "\\d" other + 2)        # one that went out comes in again
}

# A move while the folders e of d1 are visited, which is D:\t\d243\d1 by then.
function move_of_inner(turn,    visited) {
    visited = t(243) "\\d1\\e" 5 * turn
    if (turn % 4 == 0) move(visited, o("e" turn))                                   # out of D:\t
    if (turn % 4 == 1) move(visited, t(200) "\\e" turn "\\e")                       # below a folder that isn't visited
    if (turn % 4 == 2) move(t(85 + turn) "\\e0", o("u" turn))                       # one that isn't visited, with its file
    if (turn % 4 == 3) move(o("e" turn - 3), t(80) "\\x" turn)                      # one that went out comes in again
}

BEGIN {
    tree()
    line("dirquota quota add /Path:D:\\t /Limit:1tb")
    line("step 1")
    for (visited = 0; visited < 80; visited++) {
        line("step 1")
        move_of_outer(visited)
    }
    # The 181 folders d that are left, and the first folder e of d1.
    for (turn = 0; turn < 26; turn++)
        line("step 7")
    for (turn = 0; turn < 40; turn++) {
        line("step 7")
        move_of_inner(turn)
        line("create " t(80 + turn) "\\n 8192 1")
        line("create " t(80 + turn) "\\e1\\n 1 1")
    }
    move("D:\\t", "D:\\o\\t")
    line("step 1000000")
    line("usage D:\\o\\t")
    line("dirquota quota list")
    line("step 1")
}
