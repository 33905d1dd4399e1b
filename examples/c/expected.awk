# From the bench program's transcript of a run (letter, name, value, stores, s, P, log length, b) to what the controller
# must have printed: after each accepted power-up, that all lines are of the persisted epoch P, and the pick count when
# P was committed.
#
# At first an epoch is 20 picks. A power-up right after a scan that answered none, with the last store refused for room, gives up
# the running epoch. After it comes an epoch of no pick, and from then on an epoch has half as many picks.
BEGIN {
    picks_an_epoch[0] = 20; epochs = 40
    call["l"] = "load"; call["s"] = "store"; call["e"] = "evict"; call["a"] = "scan"; call["p"] = "power-up"
}
$1 == "n" { print "new board: formatted" }
$1 == "s" { is_refused = $2 == "room" }
$1 == "p" { is_given_up = is_refused && before == "a none"; is_refused = 0 }
$1 == "p" && is_given_up { given_up++; print "epoch " running " needs more entries than the log has: given up" }
$2 == "cut" { cuts++; print "mains off in " call[$1] " after " $4 " of its stores" }
($1 == "n" || $1 == "p") && $2 == "ok" {
    print "awake: every line is of epoch " $6 ", pick " picks[$6] + 0
    due = now = picks_an_epoch[$6]
}
$1 == "p" && $2 == "ok" && is_given_up {
    now = int(now / 2); due = 0
    print "from now on: picks an epoch " now
}
$1 == "c" && $2 == "ok" {
    committed = $5 - 1
    picks[committed] = picks[committed - 1] + due; picks_an_epoch[committed] = now
    due = now
}
{ before = $1 " " $2; running = $5 }
END { print "wove " epochs " epochs through " cuts + 0 " cuts, gave up " given_up + 0 }
