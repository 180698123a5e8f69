# The program of the filter iscsi, which says what it does.

# The text of a byte list.
function text(list,    at, all) {
    for (at = 0; 2 * at < length(list); at++) {
        if (bytes(list, at, 1) == "00") all = all "\n"
        else all = all sprintf("%c", byte(list, at))
    }
    return all
}
# What a text of a login says of this word.
function said_of(found, word) {
    if (!match("\n" found, "\n" word "=[^\n]*")) return ""
    return substr(found, RSTART + length(word) + 1, RLENGTH - length(word) - 2)
}

# An answer came: the command with its data, as an entry of the trace.
function answered(key, status, sensed,    cdb, code, data, name) {
    cdb = cdb_of[key]
    code = bytes(cdb, 0, 1)
    cdb = bytes(cdb, 0, length_of(number(code)))
    name = name_of[stream]
    data = has_data(code) && status == "00" ? in_of[key] : ""
    if (is_ours(key) && sent_of[key] > last_sent[name]) last_sent[name] = sent_of[key]
    if (name == "-") leave_many("its initiator has no NAME")
    else if (stream in other_target) leave_many("target " other_target[stream] ": TARGET chooses another than the first")
    else if (lun_of[key] != lun) leave_many("logical unit " lun_of[key] ": LUN chooses it")
    else if (status == "02" && sensed == "" && is_known(code)) stop("CHECK CONDITION without a sense")
    else if (!is_known(code)) leave_code(code, name, frame < after ? "" : status, sensed == "" ? "" : sense(sensed))
    else if (frame < after) leave_many("before frame " after)
    else if (status == "") { leave("the target answered without a status"); lose_out(key) }
    else if (!is_traced(status)) { leave("status " status "h, which a trace of version " version " does not have"); if (status == "40") lose_out(key) }
    else if (code == "5f" && status == "00" && length(out_of[key]) < 2 * number(bytes(cdb, 5, 4))) { leave("a PERSISTENT RESERVE OUT whose parameters are not all there"); lose_out(key) }
    else {
        if (code == "03" && data != "") data = sense(data)
        entry(place, name, cdb, out_of[key], status, status == "02" ? sense(sensed) : "", data, sent_of[key])
    }
    forget(key)
}
function lose_out(key) { if (is_out[key]) lose("frame " frame_of[key], "how a PERSISTENT RESERVE OUT ended is not told: it may have been done") }
function is_ours(key) { return lun_of[key] == lun && !(stream_of[key] in other_target) && name_of[stream_of[key]] != "-" }
# No answer came. A PERSISTENT RESERVE OUT may have been done. Any other changes nothing; but an attention may have been told to it, and
# that matters where a later command of its initiator was answered.
function unanswered(key) {
    left_out("frame " frame_of[key], "not answered")
    if (is_ours(key) && frame_of[key] >= after) {
        if (is_out[key]) lose_out(key)
        else if (is_known(bytes(cdb_of[key], 0, 1)) && last_sent[name_of[stream_of[key]]] > sent_of[key]) lose("frame " frame_of[key], "no answer, though a later command has one: an attention may have been told to it")
    }
    forget(key)
}
function forget(key) {
    delete sent_key[sent_of[key]]
    delete cdb_of[key]
    delete sent_of[key]
    delete out_of[key]
    delete in_of[key]
}

function login(head, data,    found, initiator, port_name, is_first) {
    if (bytes(head, 24, 4) != "00000000") expected[stream] = number(bytes(head, 24, 4))
    found = text(data)
    initiator = said_of(found, "InitiatorName")
    if (initiator == "") return
    if (!(initiator in named)) stop("no NAME for the initiator " initiator)
    is_first = !(stream in name_of)
    name_of[stream] = named[initiator]
    if (said_of(found, "SessionType") == "Discovery") return
    if (target == "") target = said_of(found, "TargetName")
    if (said_of(found, "TargetName") != target) { other_target[stream] = said_of(found, "TargetName"); return }
    port_name = bytes(head, 8, 6)
    if (initiator in port_of && port_of[initiator] != port_name) note(here, "the initiator " initiator " logs in by another ISID, which is a nexus of its own: one NAME stands for both")
    else if (initiator in port_of && is_first && frame >= after && named[initiator] != "-") note(here, named[initiator] " logs in again: what it is told and holds behind that may be new")
    port_of[initiator] = port_name
}
# Commands are numbered (CmdSN), so it can be seen that some are missing.
function numbered(head,    cmdsn) {
    if (!(stream in expected)) return
    cmdsn = number(bytes(head, 24, 4))
    if (cmdsn > expected[stream] && cmdsn - expected[stream] < 65536) lose_here("a command is missing in the capture", cmdsn - expected[stream])
    if (cmdsn < expected[stream] && expected[stream] - cmdsn < 65536) return
    # (what is sent at once, by its first byte, has the number of the command behind it)
    expected[stream] = cmdsn + (byte(head, 0) < 64)
}
function lose_here(what, times) { if (frame >= after && !(stream in other_target) && !(stream in name_of && name_of[stream] == "-")) lose(here, what, times) }

# A command is known as soon as its header is there: blocks that are written are not waited for.
function command(head, key) {
    place++
    # (the session began before the capture)
    if (!(stream in name_of)) stop("a command of a session whose login was not captured: begin the capture before the initiators log in")
    numbered(head)
    if (key in cdb_of) unanswered(key)
    cdb_of[key] = bytes(head, 32, 16)
    lun_of[key] = byte(head, 8) % 64 * 256 + byte(head, 9)
    frame_of[key] = frame
    sent_of[key] = place
    sent_key[place] = key
    stream_of[key] = stream
    is_out[key] = bytes(head, 32, 1) == "5f"
    out_of[key] = in_of[key] = ""
}
function key_of_unit(head) { return stream " " bytes(head, 16, 4) }
# One whole unit of the protocol: 48 bytes of header, and its data.
function unit(head, data,    code, key) {
    place++
    code = byte(head, 0) % 64
    key = key_of_unit(head)
    if (code == 1) { if (key in cdb_of && is_out[key]) out_of[key] = data }
    else if (code == 3) login(head, data)
    else if (code == 35) { if (text(data) ~ /Digest=CRC32C/) stop("a session with digests, which this filter does not read: let the initiators log in with HeaderDigest=None and DataDigest=None, and record again") }
    else if (code == 2) {
        numbered(head)
        leave("task management function " byte(head, 1) % 128 (byte(head, 1) % 128 >= 5 ? ", a reset" : ""))
        if (byte(head, 1) % 128 >= 5) lose_here("a reset is missing in the trace")
    } else if (code == 50) leave("an asynchronous message of the target")
    else if (code == 5 && key in cdb_of) { if (is_out[key]) out_of[key] = out_of[key] data }
    else if (code == 37 && key in cdb_of) {
        if (has_data(bytes(cdb_of[key], 0, 1))) in_of[key] = in_of[key] data
        if (byte(head, 1) % 2 == 1) answered(key, bytes(head, 3, 1), "")
    } else if (code == 33 && key in cdb_of) answered(key, byte(head, 2) == 0 ? bytes(head, 3, 1) : "", bytes(data, 2, length(data)))
    else if ((code == 33 || code == 37) && !(stream in name_of)) stop("an answer of a session whose login was not captured: begin the capture before the initiators log in")
    else if (code == 33 || (code == 37 && byte(head, 1) % 2 == 1)) lose_here("an answer to a command that is missing in the capture")
    else if (code == 0 || code == 4 || code == 6) numbered(head)
}

# How many bytes the unit has that begins here.
function size_of(head) { return 65536 * byte(head, 5) + 256 * byte(head, 6) + byte(head, 7) }
function whole_of(head) { return 48 + 4 * byte(head, 4) + 4 * int((size_of(head) + 3) / 4) }
function is_unit(head, side) { return index(known[side], " " byte(head, 0) % 64 " ") > 0 }
# Behind missing bytes: a unit of this session begins here, by its tag or its number.
function is_next(head, side,    code) {
    code = byte(head, 0) % 64
    if (length(head) < 96 || !is_unit(head, side) || byte(head, 4) > 0) return 0
    if (key_of_unit(head) in cdb_of) return code != 1
    return code == 1 && byte(head, 0) < 64 && byte(head, 1) >= 128 && number(bytes(head, 24, 4)) >= expected[stream] && number(bytes(head, 24, 4)) - expected[stream] < 65536
}
# The next bytes of one way of a stream.
function feed(way, side, list,    head, data, whole) {
    if (way in astray) {
        if (!is_next(bytes(list, 0, 48), side)) return
        delete astray[way]
    }
    held[way] = held[way] list
    while (length(held[way]) >= 96) {
        head = bytes(held[way], 0, 48)
        if (!is_unit(head, side)) stop("no unit of iSCSI: operation code " byte(head, 0) % 64 " " side " the target")
        if (!(way in is_begun) && byte(head, 0) % 64 == 1) command(head, key_of_unit(head))
        is_begun[way] = 1
        whole = whole_of(head)
        if (length(held[way]) < 2 * whole) break
        delete is_begun[way]
        data = bytes(held[way], 48 + 4 * byte(head, 4), size_of(head))
        held[way] = substr(held[way], 2 * whole + 1)
        unit(head, data)
    }
}
function zeros(count,    list) {
    list = "00"
    while (length(list) < 2 * count) list = list list
    return substr(list, 1, 2 * count)
}
# So many bytes are missing, all of them in blocks that are read or written, which are no part of a trace.
function is_blocks(way, count,    head, code, key) {
    if (length(held[way]) < 96) return 0
    head = bytes(held[way], 0, 48)
    code = byte(head, 0) % 64
    key = key_of_unit(head)
    if (code != 1 && code != 5 && code != 37) return 0
    if (code == 1 ? bytes(head, 32, 1) == "5f" : !(key in cdb_of) || is_out[key] || has_data(bytes(cdb_of[key], 0, 1))) return 0
    return length(held[way]) / 2 + count <= whole_of(head)
}
# The byte that is next comes in one of the lines that are read already.
function is_coming(way,    it, list) {
    while (first_late <= last_late && late_line[first_late] <= line) first_late++
    for (it = first_late; it <= last_late; it++) if (late_way[it] == way && late_first[it] <= next_byte[way] && next_byte[way] < late_first[it] + late_size[it]) return 1
    return 0
}
# The first of what came early on this way, as its number; nothing if there is none.
function first_early(way,    it, list, first) {
    first = ""
    for (it in early) {
        split(it, list, SUBSEP)
        if (list[1] == way && (first == "" || list[2] + 0 < first)) first = list[2] + 0
    }
    return first
}
# What is missing before this byte is not in the capture.
function skip(way, side, first,    count) {
    count = first - next_byte[way]
    if (is_blocks(way, count)) {
        note(here, "bytes of blocks that were read or written are missing in the capture, and no command")
        feed(way, side, zeros(count))
    } else {
        lose_here("bytes are missing in the capture: look at what dumpcap says of dropped packets, and record again with -B 64")
        held[way] = ""
        delete is_begun[way]
        astray[way] = 1
    }
    next_byte[way] = first
}
# Feeds what came early as far as it is next now, or nothing will come before it.
function catch_up(way, side,    first, list) {
    while (waiting[way] > 0) {
        first = first_early(way)
        if (first > next_byte[way] && is_coming(way)) return
        if (first > next_byte[way]) skip(way, side, first)
        list = early[way, digits_of(first)]
        delete early[way, digits_of(first)]
        waiting[way]--
        take(way, side, first, list)
    }
}
# Bytes of which the next one is one, or which were all seen before.
function take(way, side, first, list) {
    list = bytes(list, next_byte[way] - first, length(list))
    if (list == "") return
    next_byte[way] += length(list) / 2
    feed(way, side, list)
}
# (a number above 2,147,483,647 is no good index as it is: mawk would round it)
function digits_of(first) { return sprintf("%.0f", first) }
# A segment: its first byte has this number.
function segment(way, side, first, list,    it) {
    if (!(way in next_byte)) next_byte[way] = lowest[way]
    if (first > next_byte[way]) {
        it = way SUBSEP digits_of(first)
        if (!(it in early)) waiting[way]++
        if (!(it in early) || length(early[it]) < length(list)) early[it] = list
    } else take(way, side, first, list)
    catch_up(way, side)
}
# A line is read some time before it is looked at, so that it can be seen what comes late. The numbers of bytes begin anew behind
# 4,294,967,295, and go on here.
function side_of(its_port) { return its_port == port ? "to" : "from" }
function keep_line(    way, first, size) {
    line_of[NR] = $1 " " $2 " " $3 " " $NF
    if (NF == 4) return
    way = $2 " " side_of($3)
    first = $4 + 4294967296 * turns[way]
    if (way in end_of && end_of[way] - first > 2147483648) { turns[way]++; first += 4294967296 }
    else if (way in end_of && first - end_of[way] > 2147483648) first -= 4294967296
    size = length($NF) / 2
    first_of_line[NR] = first
    if (!(way in lowest) || first < lowest[way]) lowest[way] = first
    if (way in end_of && first < end_of[way]) { late_line[++last_late] = NR; late_way[last_late] = way; late_first[last_late] = first; late_size[last_late] = size }
    if (!(way in end_of) || first + size > end_of[way]) end_of[way] = first + size
}
function look_at(    field, side, way) {
    split(line_of[line], field, " ")
    frame = field[1] + 0
    here = "frame " frame
    stream = field[2]
    side = side_of(field[3])
    way = stream " " side
    if (!(way in is_seen)) { way_of_number[++ways] = way; is_seen[way] = 1 }
    if (fields == 4) feed(way, side, field[4])
    else segment(way, side, first_of_line[line], field[4])
    delete line_of[line]
    delete first_of_line[line]
}

BEGIN {
    read_table(names, "NAME=INITIATOR", ".")
    target = ENVIRON["TARGET"]
    first_late = 1
    # The operation codes of units: those that the initiator sends, and those of the target.
    known["to"] = " 0 1 2 3 4 5 6 16 "
    known["from"] = " 32 33 34 35 36 37 38 49 50 63 "
}
NR == 1 { fields = NF }
NF != fields || (NF != 4 && NF != 5) { line = NR; stop("not a frame, a stream, a port, the number of a byte and a payload") }
# (some versions of tshark print colons between the bytes)
{ gsub(/:/, "", $NF) }
$NF !~ /^[0-9a-f]*$/ || length($NF) % 2 == 1 || (NF == 5 && $4 !~ /^[0-9]+$/) { line = NR; stop("not a frame, a stream, a port, the number of a byte and a payload") }
{ keep_line() }
NR > 1000 { line = NR - 1000; look_at() }
END {
    if (fields == 4) tell("the field tcp.seq is not here: packets that are missing can not be seen")
    for (line = NR > 1000 ? NR - 999 : 1; line <= NR; line++) look_at()
    for (at = 1; at <= ways; at++) if (held[way_of_number[at]] != "") tell("stream " way_of_number[at] " the target: cut off within a unit")
    for (at = 1; at <= place; at++) if (at in sent_key) unanswered(sent_key[at])
    arrange()
    finish()
}
