# The program of the filter sg-persist, which says what it does. A call is all that one program prints: it begins at a line of its
# own, and ends where the next one begins. What a call without -vv prints is read in agent.awk.

# Tells what is missing in the trace, and may have changed the unit: once for each kind. What stands before AFTER doesn't count.
function missing(line, what) { if (line >= after && name != "-") lose("line " line, what) }
# Tells what was done with a line, once for each kind.
function remark(what) { note("line " NR, what) }
function no_raw(options) {
    if (options ~ /(^| )-[a-zA-Z]*vv/) return "a call with -vv, and none of its bytes: standard error is not in the log. Left out. Record again with 2>&1"
    return "a call without -vv, whose bytes are not in the log. Left out. Record again with -vv, and with --hex where data comes back"
}

# The data that came back is there as a whole.
function is_whole(list,    said) {
    if (bytes(cdb, 0, 1) == "03") return list != ""
    if (bytes(cdb, 1, 1) == "02") return list != "" && length(list) == 2 * number(bytes(list, 0, 2))
    said = 8 + number(bytes(list, 4, 4))
    return length(list) >= 16 && (length(list) == 2 * said || length(list) == 2 * got)
}
# What came back: as --hex prints it, or else the dump of -vvv, or the words that are printed without --hex.
function answer() {
    if (is_whole(head in_data)) return head in_data
    return is_whole(dump) ? dump : words_as_data()
}
# Why there is no command that a trace has, or nothing.
function reason(code, data) {
    if (name == "-") return "its node has no NAME"
    if (!is_known(code)) return "operation code " code "h"
    if (began < after) return "before line " after
    if (lost) return "it ended in `a transport error`: it never reached the disk, or nobody knows"
    if (status == "") return "how it ended is not told: -vv is wanted"
    if (status == "02" && sensed == "") return "CHECK CONDITION without a sense"
    if (is_agent && status ~ /^exit/) return "it ended in " status ", and its sense is not in the log"
    if (status !~ /^[0-9]/) return "it ended in `" status "`, which a trace of version " version " does not have"
    if (code == "5f" && out_data == "") return "its parameters are not told" (is_raw ? ", since sg_raw prints none: send it by sg_persist, or put it in by hand" : ": -vv is wanted")
    if (is_read(code) && data == "") return "its data is not all there: " (is_raw ? "-b and -o are not wanted" : "--hex is wanted")
    return ""
}
# It ended GOOD, and brought data that belongs into the trace.
function is_read(code) { return status == "00" && has_data(code) }
# A command that is left out for this reason may have changed the unit: it was a PERSISTENT RESERVE OUT, or took an attention. BUSY and
# TASK SET FULL say that nothing was done.
function is_lost(code,    sensed_key) {
    if (name == "-" || began < after || status == "Busy" || status == "Task set full" || status == "18") return 0
    if (status == "02" && sensed == "") return 1
    sensed_key = status == "02" ? substr(sense(sensed, of_it()), 6, 1) : ""
    if (!is_known(code)) return sensed_key == "6"
    if (is_agent && status ~ /^exit/) return !is_refused()
    return status == "" || lost || code == "5f" && sensed_key == "" || status == "00" && code == "03"
}
function of_it() { return "the command on line " began " has " }

# The call is at its end: its command as an entry of the trace.
function ended(    code, why, data) {
    if (announced) missing(announced, no_raw(options))
    if (opened_at && !announced) missing(opened_at, "a program that opened its device, and what it sent is not in the log. Left out")
    announced = opened_at = 0
    if (cdb == "") return
    if (is_agent) status = status_of_agent()
    code = bytes(cdb, 0, 1)
    if (want > 0) stop("the command on line " began " lacks " want " bytes")
    # (sg_turs says nothing of a command that ends GOOD)
    if (status == "" && code == "00" && !told && !is_raw && !is_agent) status = "00"
    data = is_read(code) ? answer() : ""
    why = reason(code, data)
    if (why != "") { if (is_lost(code)) incomplete = 1; leave(why) }
    else if (name == "") stop("no name: a line `node NODE` is wanted, or a NAME")
    else {
        if (code == "5f" && length(out_data) != 2 * number(bytes(cdb, 5, 4))) stop("the command on line " began " has other parameters than it says")
        if (code == "03" && data != "") data = sense(data, of_it())
        entry(++place, name, cdb, code == "5f" ? out_data : "", status, status == "02" ? sense(sensed, of_it()) : "", data)
    }
    cdb = ""
}
# A command is sent. One to another disk is left out.
function begin(command) {
    cdb = command
    if (cdb == "000000000000") turs++
    began = NR
    here = "line " began
    status = mode = out_data = in_data = dump = head = sensed = ""
    want = got = told = lost = over = is_raw = is_agent = announced = opened_at = plain = 0
    forget_words()
    if (elsewhere == "") return
    if (began >= after) note(here, another_disk(elsewhere))
    if (began >= after && ENVIRON["DISK"] == "" && bytes(cdb, 0, 1) == "5f") incomplete = 1
    cdb = ""
}

# The command may be of another disk: DISK says which one is meant, or else the first that is named.
function is_other_disk_than(device) {
    if (device == "" || device == "device") return 0
    if (disks == "") disks = " " device " "
    return index(disks, " " device " ") == 0 && index(disks, " " name "=" device " ") == 0
}
function another_disk(device) { return "another disk, " device ": left out, since the disk is" disks "(DISK says which it is, by one name or more)" }

# A program opens its device.
function opened(device) {
    elsewhere = is_other_disk_than(device) ? device : ""
    opened_at = elsewhere == "" ? NR : 0
}
# The call before is at its end, if it has begun. (What `set -x` announces has not yet.)
function ended_before() { if (cdb != "" || opened_at && !announced) ended() }

# A line of bytes: a place, and 16 bytes at most from the ninth column on, or from the first one (-HHH); of a sense no place. Of some
# lists it is said how long they are.
function is_of_bytes() { return mode != "" && substr($0, of_bytes(), 49) ~ /^[0-9a-f][0-9a-f]( |$)/ }
function of_bytes() { return $0 ~ /^[0-9a-f][0-9a-f] [0-9a-f][0-9a-f]( |$)/ ? 1 : 9 }
function read_bytes(    found) {
    found = substr($0, of_bytes(), 49)
    sub(/    .*$/, "", found)
    gsub(/ /, "", found)
    if (found !~ /^[0-9a-f]*$/ || length(found) % 2 == 1) stop("not a line of bytes")
    if (want > 0 && length(found) > 2 * want) stop("more bytes than were said")
    if (mode == "out") out_data = out_data found
    else if (mode == "in") in_data = in_data found
    else if (mode == "dump") dump = dump found
    else sensed = sensed found
    if (want > 0) { want -= length(found) / 2; if (want == 0) mode = "" }
}
function number_behind(word,    found) {
    found = substr($0, index($0, word) + length(word))
    sub(/[^0-9a-f].*$/, "", found)
    return found
}
# A status in the words of these programs.
function status_of(words) {
    words = tolower(words)
    if (words == "good") return "00"
    if (words == "check condition") return "02"
    if (words == "reservation conflict") return "18"
    if (version == 2 && words == "busy") return "08"
    if (version == 2 && words == "task set full") return "28"
    return toupper(substr(words, 1, 1)) substr(words, 2)
}
# Words of sg_turs and sg_raw beside the lines that are read: then their silence is none.
function is_of_failure() { return cdb != "" && (/^test unit ready:/ || /^ *>>>/ || /rror/ || /not ready/ || /[Aa]bort/ || /[Ss]tatus/ || /[Ss]ense/) }
# A line of `set -x` that calls one of these programs, by whatever way.
function is_announced(    at) {
    if (!/^\++ /) return 0
    for (at = 2; at <= NF; at++) {
        if ($at ~ /^([^ ]*\/)?sg_(persist|turs|requests|raw)$/) return 1
        if ($at ~ /^(echo|printf|logger|test|\[+|local|export|declare|readonly|command|which|case|for)$/ || $at ~ /^'/) return 0
    }
    return 0
}
# What a script keeps in a variable is printed by `set -x`, too: + NAME='FIRST LINE .. LAST LINE'.
function unquoted(text) {
    if (sub(/^\++ [A-Za-z_][A-Za-z0-9_]*='/, "", text)) quoted = 1
    if (quoted && sub(/'$/, "", text)) quoted = 0
    return text
}
# A line that says how a call ended is one of this call, and not of one without -vv behind it.
function is_its_own(    code) {
    code = bytes(cdb, 0, 1)
    return cdb != "" && !over && ($0 !~ /^PR out/ || code == "5f") && ($0 !~ /^PR in/ || code == "5e")
}
# What a call without -vv prints. It may have changed the unit, but where it read something.
function plain_answer(has_read,    line) {
    line = announced ? announced : opened_at ? opened_at : NR
    announced = opened_at = 0
    plain = 1
    ended()
    if (has_read && line >= after) note("line " line, no_raw(""))
    else missing(line, no_raw(""))
}
# A part of a call, and its command is not in the log.
function orphan() {
    if (plain) return
    ended()
    missing(NR, "a part of a call, whose command is not in the log. Left out")
    plain = 1
}
# A line of bytes where none is wanted. (Of other commands that sg_raw sends, none are.)
function is_of_other_bytes() {
    return mode == "" && (cdb == "" || is_known(bytes(cdb, 0, 1)) && cdb !~ /^[28]/) && substr($0, 1, 8) ~ /^ *[0-9a-f]* *$/ && substr($0, 9, 49) ~ /^[0-9a-f][0-9a-f] [0-9a-f][0-9a-f]( |$)/
}
# A call that prints nothing leaves the line of its node alone.
function silent_before() {
    if (node_at) missing(node_at, "a line `node` without a call: one without -vv prints nothing where it ends GOOD. Record again with -vv")
    node_at = 0
}
# The line of `set -x` names a device of another disk.
function is_to_another(    at) {
    for (at = 2; at <= NF; at++) if ($at ~ /^\/dev\// && is_other_disk_than($at)) return 1
    return 0
}

BEGIN {
    name = read_table(names, "NAME or NAME=NODE", ".", 1)
    disks = ENVIRON["DISK"] == "" ? "" : " " ENVIRON["DISK"] " "
}
{
    if (sub(/\r$/, "")) remark("a carriage return at the end of a line is left out")
    before = $0
    $0 = unstamped($0)
    if ($0 != before) remark("a time stamp, or what a journal puts before a line, is left out")
    $0 = unquoted($0)
}
$1 == "node" && NF == 2 {
    ended()
    silent_before()
    elsewhere = ""
    if (has_table && !($2 in named)) stop("no NAME for the node " $2)
    name = has_table ? named[$2] : $2
    node_at = NR
    plain = 0
    if (name != "-" && !is_name(name)) stop("a node that can not be a name: a table NAME=" $2 " is wanted")
    next
}
NF > 0 { node_at = 0 }
is_announced() { ended(); elsewhere = ""; plain = 0; announced = is_to_another() ? 0 : NR; options = $0; next }
/^\++ / { ended(); in_quotes = gsub(/'/, "'") % 2; next }
in_quotes { in_quotes = !/'/; next }
is_of_agent() { ended(); execute(); next }
is_result() { agent_status = result() }
is_agent && /#012/ { read_escaped(); next }
/^(DEBUG|INFO|WARNING|ERROR|CRITICAL): / { ended(); elsewhere = ""; next }
# (each program opens its device first)
/^open .* with flags=/ {
    ended_before()
    plain = turs = failed_turs = 0
    sub(/^open /, "")
    sub(/ with flags=.*$/, "")
    opened($0)
    next
}
/cdb: / || /^ *cdb to send: / {
    if (cdb != "") ended()
    if ($0 !~ /\[[0-9a-f][0-9a-f]( [0-9a-f][0-9a-f])*\]$/) stop("no command can be read here")
    found = $0
    sub(/^.*\[/, "", found)
    sub(/\]$/, "", found)
    gsub(/ /, "", found)
    if (length(found) != 2 * length_of(number(bytes(found, 0, 1)))) stop("a command of " length(found) / 2 " bytes")
    begin(found)
    is_raw = /cdb to send: /
    next
}
elsewhere != "" { next }
is_of_bytes() { read_bytes(); next }
want > 0 { stop("not a line of bytes: " want " of them are wanted here") }
/[Ee]rror opening file|^[Oo]pen error/ { announced = opened_at = 0; remark("a call that could not open its device, and sent nothing"); next }
# What is lost on its way has no answer, whatever the program says behind it.
/: transport: / || /^>>> (transport|os) error/ || /pass-through (os error|timeout)/ || /^do_scsi_pt: / {
    if (cdb == "" || over) plain_answer(0)
    else { lost = 1; mode = "" }
    next
}
/^Completed [0-9]+ Test Unit Ready commands with [0-9]+ errors/ {
    if ($2 != turs) missing(NR, "sg_turs -n, of whose commands some are not in the log. Left out")
    if ($8 != failed_turs) stop("of " $2 " commands of sg_turs -n " $8 " failed, and which is not told: call it once for each")
    next
}
is_of_other_bytes() { orphan(); next }
/parameters:$/ && (bytes(cdb, 0, 1) != "5f" || out_data != "") { orphan(); next }
/Raw sense data/ && (cdb == "" || sensed != "" || status != "" && status != "02") { orphan(); next }
/pass-through requested .* \(data-in\), got/ && (cdb == "" || status != "") { orphan(); next }
/^SCSI Status: / && (!is_raw || cdb == "" || status != "") { orphan(); next }
/parameters:$/ { mode = "out"; want = number(bytes(cdb, 5, 4)); next }
/Raw sense data/ {
    mode = "sense"
    status = "02"
    failed_turs++
    if (/sb_len=[0-9]/) want = number_behind("sb_len=") + 0
    next
}
/pass-through requested .* \(data-in\), got/ {
    mode = "in"
    status = "00"
    if (match($0, /got [0-9]+ bytes/)) got = substr($0, RSTART + 4, RLENGTH - 10) + 0
    next
}
# (-vvv, and -vvvv)
/: response(, first 256 bytes)?:$/ && cdb != "" { mode = "dump"; next }
/PR generation=0x[0-9a-f]+/ {
    if (bytes(cdb, 0, 1) != "5e" || head != "" || in_data != "" || word_told != "") { plain_answer(1); next }
    mode = ""
    if (!/Additional length/) { read_words(); next }
    want = $0
    sub(/^.*length( too large)?=/, "", want)
    want += 0
    head = padded(number_behind("generation=0x"), 8) sprintf("%08x", want)
    # (where it got all that it asked for, it does not tell how many bytes these are)
    if (got == 0 && want + 8 >= number(bytes(cdb, 7, 2))) { got = number(bytes(cdb, 7, 2)); status = "00" }
    if (got > 8 && want > got - 8) want = got - 8
    mode = want > 0 ? "in" : ""
    next
}
word_told != "" && is_of_words() { read_words(); next }
is_agent && /^ *Additional sense: / { read_sense(); next }
# (sg_raw)
/^SCSI Status: / { sub(/^SCSI Status: /, ""); sub(/ *$/, ""); status = status_of($0); mode = ""; next }
/^Received [0-9]+ bytes of data:$/ && has_data(bytes(cdb, 0, 1)) { mode = "in"; want = got = $2 + 0; next }
/, type: (SCSI status|sense key)$/ {
    if (!is_its_own()) { plain_answer(0); next }
    over = 1
    told = 1
    if (!/sense key$/) {
        sub(/, type: SCSI status$/, "")
        sub(/^.*: /, "")
        status = status_of($0)
    }
    mode = ""
    next
}
/^PR out: command .* successful/ {
    if (!is_its_own()) { plain_answer(0); next }
    over = 1
    status = "00"
    mode = ""
    next
}
/^(PR out|PR in) \(/ { if (!is_its_own()) plain_answer(0); over = 1; next }
is_of_failure() { told = 1; next }
NF > 0 && !plain && !is_agent && (cdb == "" || status == "" && bytes(cdb, 0, 1) == "00") && !/^found sg_bsg_major/ { remark("not a line of these programs: passed over") }
END {
    ended()
    silent_before()
    finish()
}
