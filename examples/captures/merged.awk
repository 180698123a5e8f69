# All calls of merge, sorted: their lines, with a line `node NODE` where the node changes, and how near the clocks have to agree.
BEGIN { FS = "\t" }
function stop(why) { print why > "/dev/stderr"; failed = 1; exit 1 }
# The seconds between two times, which are texts.
function between(early, late,    cut) {
    cut = index(early, ".")
    return substr(late, 1, cut - 1) - substr(early, 1, cut - 1) + (substr(late, cut + 1) - substr(early, cut + 1)) / 1e9
}
{
    if (form == "") form = $4
    if ($4 != form) stop("the logs have different forms of time stamps: `" form "` and `" $4 "`. Record both in one")
    if ($2 != node) { node = $2; lines[++count] = "node " node }
    if ($6 != "-" && $6 != call) {
        calls++
        if (call_node != "" && call_node != $2) {
            changes++
            gap = between(call_time, $1)
            if (gap == 0) same++
            else if (between(call_time, $5) < 0) overlaps++
            if (nearest == "" || gap < nearest) { nearest = gap; pair = call " and " $6 }
        }
        call = $6
        call_node = $2
        call_time = $1
    }
    line = $0
    sub(/^[^\t]*\t[^\t]*\t[^\t]*\t[^\t]*\t[^\t]*\t[^\t]*\t/, "", line)
    lines[++count] = line
}
END {
    if (failed) exit 1
    if (calls == 0) stop("no call of these programs is in the logs")
    for (at = 1; at <= count; at++) print lines[at]
    if (changes == 0) exit
    printf "%d calls are merged by their time stamps. %d times a call of another node comes next, and the nearest two are %s seconds apart (%s): a clock that is off by more makes another order\n", calls, changes, nearest, pair > "/dev/stderr"
    if (overlaps > 0) printf "%d times both were under way at once, and stand in the order of their answers\n", overlaps > "/dev/stderr"
    if (same > 0) printf "%d times both have the same time, and their order is a guess\n", same > "/dev/stderr"
}
