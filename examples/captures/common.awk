# What the filters of this folder share: bytes in hexadecimal, what is told on standard error, and the trace itself. Each filter runs
# awk with this file before its own, and sets `here`, the frame or line that is read. Of the environment: VERSION is that of the trace
# (1; 2 has BUSY, TASK SET FULL, resets and more keys). BLOCKS=fold takes block numbers modulo 1,048,576, and writes READ (16) and WRITE
# (16) as READ (10) and WRITE (10). APTPL=drop clears this flag. RESET=1 lets the trace begin with a reset.

function nibble(digit) { return index("0123456789abcdef", digit) - 1 }
function number(list,    at, sum) {
    for (at = 1; at <= length(list); at++) sum = 16 * sum + nibble(substr(list, at, 1))
    return sum + 0
}
# Count bytes of a list from this place on.
function bytes(list, first, count) { return substr(list, 2 * first + 1, 2 * count) }
function byte(list, at) { return number(bytes(list, at, 1)) }
# A number in hexadecimal, filled with zeros to so many digits.
function padded(list, count) { while (length(list) < count) list = "0" list; return list }
function or_dash(list) { return list == "" ? "-" : list }
function is_name(word) { return word ~ /^[a-z][a-z0-9-]*$/ && length(word) <= 16 }

function tell(what) { print what > "/dev/stderr" }
function ends(status) { failed = status; exit status }
# The input can't be read from here on. (A filter that reads ahead says which line it is at.)
function stop(why) { tell("line " (line > 0 ? line : NR) ": " why); ends(1) }
# The filter was called wrongly.
function refuse(form, word) { tell(form " is wanted, and not " word); ends(2) }
function left_out(where, why) { tell(where ": left out: " why); left++ }
function leave(why) { left_out(here, why) }
# Tells something once when all is read: where it came first, and how often it came again.
function note(where, what, times) {
    if (!(what in noted)) { note_of[++notes] = what; first_of[what] = where }
    noted[what] += times == "" ? 1 : times
}
# Leaves out what may come thousands of times.
function leave_many(why) { note(here, "left out: " why); left++ }
# Notes what may have changed the unit, or what was told to somebody, and is missing in the trace: the filter will end with status 1.
function lose(where, what, times) { note(where, what, times); is_loss[what] = 1; incomplete = 1 }
function tell_notes(losses_too,    at, what, others) {
    for (at = 1; at <= notes; at++) {
        what = note_of[at]
        others = noted[what] - 1
        if ((what in is_loss) == losses_too) tell(first_of[what] (others > 1 ? " and " others " others" : others == 1 ? " and one other" : "") ": " what)
    }
}
# Leaves out a command that a trace does not have. It may have changed the unit all the same, or been told an attention.
function leave_code(code, name, status, sensed) {
    leave_many("operation code " code "h" (name == "" ? "" : " of " name) (code == "88" || code == "8a" ? ": BLOCKS=fold takes it in" : ""))
    if (status == "02" && is_attention(sensed)) lose(here, "an attention was told to a command that a trace does not have")
    if (status == "00" && index(" 16 17 56 57 ", " " code " ") > 0) lose(here, "a RESERVE or RELEASE of SPC-2 is missing in the trace")
}

# How many bytes a command descriptor block with this operation code has.
function length_of(code) { return code < 32 ? 6 : code < 96 ? 10 : code < 160 ? 16 : code < 192 ? 12 : 16 }
function is_known(code) { return code == "00" || code == "03" || code == "28" || code == "2a" || code == "5e" || code == "5f" || is_long(code) }
function is_traced(status) { return status == "00" || status == "02" || status == "18" || (version == 2 && (status == "08" || status == "28")) }
# The operation code has data that comes back and belongs into a trace.
function has_data(code) { return code == "5e" || code == "03" }
# READ (16) and WRITE (16), where they are wanted.
function is_long(code) { return blocks == "fold" && (code == "88" || code == "8a") }
# The sense in 18 bytes, of a list in fixed or in descriptor format. Whose: what is told before a fault.
function sense(list, whose,    code, key, rest) {
    code = bytes(list, 0, 1)
    if (code == "70" || code == "71") { key = bytes(list, 2, 1); rest = bytes(list, 12, 2) }
    else if (code == "72" || code == "73") { key = bytes(list, 1, 1); rest = bytes(list, 2, 2) }
    else stop(whose "a sense of format " code "h")
    if (length(rest) != 4) stop(whose "a sense of " length(list) / 2 " bytes")
    return sense_of(substr(key, 2, 1), rest)
}
# The sense with this key, one digit, and this code with its qualifier, four digits.
function sense_of(key, rest) { return "70000" key "000000000a00000000" rest "00000000" }
# A sense in 18 bytes that says: the command is at fault; an attention.
function is_fault(sensed) { return substr(sensed, 6, 1) == "5" }
function is_attention(sensed) { return substr(sensed, 6, 1) == "6" }

# A READ or WRITE as our disk takes it: BLOCKS=fold. Nothing where it has too many blocks.
function folded(cdb, sensed,    code, block, count, short) {
    code = bytes(cdb, 0, 1)
    if (is_long(code)) { block = bytes(cdb, 2, 8); count = bytes(cdb, 10, 4); short = bytes(cdb, 14, 2) }
    else { block = bytes(cdb, 2, 4); count = bytes(cdb, 7, 2); short = bytes(cdb, 6, 1) bytes(cdb, 9, 1) }
    if (number(count) > 65535) return ""
    block = block_of(block, number(count), sensed)
    if (is_long(code)) note(here, "a READ (16) or WRITE (16) is written as READ (10) or WRITE (10) (BLOCKS=fold)")
    code = code == "88" ? "28" : code == "8a" ? "2a" : code
    return code bytes(cdb, 1, 1) block bytes(short, 0, 1) substr(padded(count, 4), length(padded(count, 4)) - 3) bytes(short, 1, 1)
}
# The block number, so that it and those behind it are blocks of our disk. One that the disk refused (5/21/00) stays beyond its end.
function block_of(block, count, sensed,    at) {
    if (sensed == sense_of("5", "2100")) return block ~ /^0*[0-9a-f]?[0-9a-f]?[0-9a-f]?[0-9a-f]?[0-9a-f]?[0-9a-f]?[0-9a-f]?[0-9a-f]$/ ? substr(block, length(block) - 7) : "ffffffff"
    at = number(substr(block, length(block) - 4))
    if (at + count > 1048576) at = 1048576 - count
    if (at != number(block)) note(here, "a block number is taken modulo 1,048,576 (BLOCKS=fold)")
    return sprintf("%08x", at)
}
# The parameters of a PERSISTENT RESERVE OUT as our disk takes them: the first 24 bytes, and with APTPL=drop without this flag, unless
# the disk refused the command.
function shortened(params, sensed,    flags) {
    if (length(params) > 48) { tell(here ": of " length(params) / 2 " bytes of parameters a trace takes 24"); params = substr(params, 1, 48) }
    flags = byte(params, 20)
    if (aptpl == "drop" && flags % 2 == 1 && !is_fault(sensed)) {
        note(here, "APTPL is cleared (APTPL=drop)")
        params = bytes(params, 0, 20) sprintf("%02x", flags - 1) bytes(params, 21, 3)
    }
    return params
}
# REPORT CAPABILITIES ended GOOD and says something else than our disk does. It changes nothing, so nothing is lost without it.
function is_other_disk(cdb, data) { return bytes(cdb, 0, 1) == "5e" && byte(cdb, 1) % 32 == 2 && data != "" && data != bytes("00080080ea010000", 0, length(data) / 2) }

# Keeps a command with its answer as the entry at this place of the trace, or leaves it out. A list that is empty is "". Where the
# sending has a place of its own, it is told for order.awk.
function entry(place, name, cdb, params, status, sensed, data, sent,    code) {
    code = bytes(cdb, 0, 1)
    if (length(data) > (version == 2 ? 272 : 144)) { leave("data of " length(data) / 2 " bytes, and a trace of version " version " takes " (version == 2 ? 136 : 72)); return }
    if (is_other_disk(cdb, data)) { leave("REPORT CAPABILITIES says something else than our disk, as many disks do"); return }
    if (blocks != "fold" && (code == "28" || code == "2a") && number(bytes(cdb, 2, 4)) + number(bytes(cdb, 7, 2)) > 1048576 && sensed != sense_of("5", "2100"))
        note(here, "a READ or WRITE has blocks that our disk does not have: BLOCKS=fold takes them modulo its 1,048,576")
    if (blocks == "fold" && (code == "28" || code == "2a" || is_long(code))) {
        cdb = folded(cdb, sensed)
        if (cdb == "") { leave("operation code " code "h of " name " with more than 65,535 blocks"); return }
    }
    if (code == "5f") params = shortened(params, sensed)
    line_at[place] = name " " cdb " " or_dash(params) " " status " " or_dash(sensed) " " or_dash(data)
    name_at[place] = name; cdb_at[place] = cdb; params_at[place] = params; status_at[place] = status; sensed_at[place] = sensed
    data_at[place] = data; sent_at[place] = sent; where_at[place] = here
    if (place > last_place) last_place = place
    kept++
}
# Writes the trace, when all is read. One without an entry would say nothing of the disk, so none is written then.
function finish(    at, count, lines, it, many) {
    tell_notes(0)
    if (left > 0) tell("left out in all: " left)
    if (reset && kept > 0) tell("the trace begins with a reset (RESET=1): its scenario needs `fence 2` and `resets 1`")
    tell_notes(1)
    if (kept == 0) { tell("no command is here that a trace has: no trace is written"); ends(1) }
    if (kept + reset > (version == 2 ? 66536 : 32768)) tell("the trace has " kept + reset " items, and an audit reads " (version == 2 ? 66536 : 32768) ": cut it, since a beginning can be audited too")
    print "fence-trace " version
    if (reset) print ++count, "reset"
    for (at = 1; at <= last_place; at++) {
        many = split(line_at[at], lines, "\n")
        for (it = 1; it <= many; it++) print ++count, lines[it]
    }
    if (incomplete) { tell("the trace is not whole, so an audit of it may find the disk at fault that is not"); ends(1) }
}

# Reads the table of the command line: each NAME=WORD, where the word has this shape, says who the WORD of the recording is in the
# scenario. A NAME alone is given back, where that is allowed.
function read_table(names, form, shape, alone,    wanted, pairs, at, cut, name, lone) {
    wanted = split(names, pairs, " ")
    for (at = 1; at <= wanted; at++) {
        cut = index(pairs[at], "=")
        name = cut > 0 ? substr(pairs[at], 1, cut - 1) : pairs[at]
        if (!is_name(name) && !(name == "-" && cut > 0)) refuse(form, pairs[at])
        if (cut == 0 && !alone) refuse(form, pairs[at])
        if (cut > 0 && substr(pairs[at], cut + 1) !~ shape) refuse(form, pairs[at])
        if (cut > 0) { named[substr(pairs[at], cut + 1)] = name; has_table = 1 }
        else lone = name
    }
    return lone
}
# What a variable of the environment says, if it is one of these words; else what holds without it.
function setting(name, allowed, otherwise) {
    if (ENVIRON[name] == "") return otherwise
    if (index(" " allowed " ", " " ENVIRON[name] " ") == 0) refuse(name " as one of: " allowed, ENVIRON[name])
    return ENVIRON[name]
}
BEGIN {
    version = setting("VERSION", "1 2", 1)
    blocks = setting("BLOCKS", "fold", "")
    aptpl = setting("APTPL", "drop", "")
    reset = setting("RESET", "1", "")
    after = ENVIRON["AFTER"] + 0
    if (reset && version != 2) refuse("VERSION=2 with RESET=1", "VERSION=" version)
}
END { if (failed) exit failed }
