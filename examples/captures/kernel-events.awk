# The program of the filter kernel-events, which says what it does.

# What stands behind this word and its sign, up to the next blank or bracket.
function value(word,    rest) {
    rest = $0
    if (!sub("^.*[( ]" word "=", "", rest)) return ""
    sub(/[ )].*$/, "", rest)
    return rest
}
# A number of the form 0x2a, or one of one digit, in two hexadecimal digits.
function pair(found) {
    sub(/^0x/, "", found)
    if (found !~ /^[0-9a-f][0-9a-f]?$/) stop("a sense that can not be read")
    return length(found) == 1 ? "0" found : found
}
# The event of this line; perf writes the group before it.
function event_here(    found) {
    found = $0
    if (!sub(/^.* [0-9]+(\.[0-9]+)?: +/, "", found) && !sub(/^[0-9]+(\.[0-9]+)?: +/, "", found)) return ""
    if (found !~ /^([a-z0-9_]+:)?[a-z0-9_]+: /) return ""
    sub(/: .*$/, "", found)
    sub(/^.*:/, "", found)
    return found
}
function device_here() { return value("host_no") ":" value("channel") ":" value("id") ":" value("lun") }
function command_here(    found) {
    found = $0
    if (!sub(/^.*raw=/, "", found) || !sub(/\).*$/, "", found)) stop("an event without raw=")
    gsub(/ /, "", found)
    if (found !~ /^[0-9a-f]+$/ || length(found) % 2 == 1) stop("a command that can not be read")
    if (is_read(bytes(found, 0, 1)) && length(found) != 2 * length_of(byte(found, 0))) stop("a command that can not be read")
    return found
}
function is_read(code) { return is_known(code) || code == "88" || code == "8a" }

# The sendings that wait for their answer, as queues: by device, tags and bytes.
function queue_here() { return device ";" value("driver_tag") ";" value("scheduler_tag") ";" cdb }
function sets_off(queue,    at) {
    at = NR
    queued[queue, ++queue_end[queue]] = at
    waits[at] = queue
    start_count = at
    cdb_of[at] = cdb
    device_of[at] = device
}
# Where the command of this event was sent, and it is not waited for any longer; 0 if that was not recorded.
function set_off(queue,    at) {
    if (queue_end[queue] + 0 == queue_begin[queue] + 0) return 0
    at = queued[queue, ++queue_begin[queue]]
    delete queued[queue, queue_begin[queue]]
    delete waits[at]
    return at
}
# No answer came. An attention may have been told to it, which matters where a later command of the device was answered.
function unanswered(at,    code) {
    code = bytes(cdb_of[at], 0, 1)
    left_out("line " at, "not answered")
    if (code == "5f") lose("line " at, "how a PERSISTENT RESERVE OUT ended is not told: it may have been done")
    else if (is_read(code) && last_sent[device_of[at]] > at) lose("line " at, "no answer, though a later command has one: an attention may have been told to it")
}

# The sense of this event in 18 bytes; nothing where the kernel had none.
function sense_here(    key) {
    key = value("key")
    if (key == "") return ""
    if (!/ sense=\(key=[0-9a-fx]+ asc=[0-9a-fx]+ ascq=[0-9a-fx]+\)/) stop("a sense that can not be read")
    if (pair(key) == "00") return ""
    return sense_of(substr(pair(key), 2, 1), pair(value("asc")) pair(value("ascq")))
}
# The command of this event ended so, and has bytes beside it that an event lacks. Some can be done without.
function leave_bare(code, status, sensed) {
    leave("operation code " code "h: the event lacks the bytes beside the command")
    if (code == "5f" && (status == "00" || is_attention(sensed))) lose(here, "a PERSISTENT RESERVE OUT is missing in the trace: put it in from a log of its node")
    if (code == "03" && status == "00") lose(here, "a REQUEST SENSE is missing in the trace, and an attention may have been told by it")
}
function is_conflict(host, status) { return status == "SAM_STAT_RESERVATION_CONFLICT" && (host == "DID_ERROR" || host == "DID_NEXUS_FAILURE") }
function not_sent(host) { return host == "DID_NO_CONNECT" || host == "DID_IMM_RETRY" || host == "DID_REQUEUE" }
# A command ended.
function ended(sent,    code, status, host, sensed, word) {
    code = bytes(cdb, 0, 1)
    word = value("status")
    host = value("host")
    if (host == "" || word !~ /^SAM_STAT_[A-Z_]*$/ || !/ status=[A-Z_]*\)/) stop("an event without a result")
    if (host != "DID_OK" && !is_conflict(host, word)) {
        leave(host ": the unit did not answer")
        if (is_read(code) && !not_sent(host)) lose(here, "no answer came from the unit: the command may have been done, or told an attention")
        return
    }
    if (!(word in code_of)) {
        if (word !~ /^SAM_STAT_(BUSY|TASK_SET_FULL|TASK_ABORTED|ACA_ACTIVE|CONDITION_MET|INTERMEDIATE|INTERMEDIATE_CONDITION_MET|COMMAND_TERMINATED)$/) stop("the status " word)
        leave(word ", which a trace of version " version " does not have")
        if (code == "5f" && word == "SAM_STAT_TASK_ABORTED") lose(here, "how a PERSISTENT RESERVE OUT ended is not told: it may have been done")
        return
    }
    status = code_of[word]
    sensed = status == "02" ? sense_here() : ""
    if (status == "02" && sensed == "") {
        leave("CHECK CONDITION without a sense")
        if (is_read(code)) lose(here, "a CHECK CONDITION without a sense: an attention may have been told by it")
    } else if (!is_known(code)) leave_code(code, named[device], status, sensed)
    else if (code == "5f" || (has_data(code) && status == "00")) leave_bare(code, status, sensed)
    else entry(NR, named[device], cdb, "", status, sensed, "", sent)
}

BEGIN {
    read_table(names, "NAME=HOST:CHANNEL:ID:LUN", "^[0-9]+:[0-9]+:[0-9]+:[0-9]+$")
    code_of["SAM_STAT_GOOD"] = "00"
    code_of["SAM_STAT_CHECK_CONDITION"] = "02"
    code_of["SAM_STAT_RESERVATION_CONFLICT"] = "18"
    if (version == 2) code_of["SAM_STAT_BUSY"] = "08"
    if (version == 2) code_of["SAM_STAT_TASK_SET_FULL"] = "28"
}
{ here = "line " NR }
# (a comment, and what trace-cmd prints of itself)
/^#/ || /^(cpus|version) ?=/ || /^CPU [0-9]+ is empty/ || NF == 0 { next }
/\[LOST [0-9]+ EVENTS\]|\[EVENTS DROPPED\]/ {
    found = $0
    lost_events = sub(/^.*\[LOST /, "", found) ? found + 0 : 1
    lose(here, "an event was lost: record with greater buffers (trace-cmd record -b 65536)", lost_events)
    next
}
/\[FAILED TO PARSE\]/ { stop("trace-cmd printed the fields of an event and not its text: let trace-cmd report find its plugin plugin_scsi.so, or read the file trace of tracefs") }
{
    event = event_here()
    if (event == "") stop("not an event")
    device = device_here()
    if (event ~ /^scsi_dispatch_cmd_/ && device !~ /^[0-9]+:[0-9]+:[0-9]+:[0-9]+$/) stop("an event without a device")
    if (event ~ /^scsi_dispatch_cmd_/ && (!(device in named) || named[device] == "-")) {
        if (event != "scsi_dispatch_cmd_start") leave_many("device " device " has no NAME")
        next
    }
    if (event !~ /^scsi_dispatch_cmd_(start|done|error|timeout)$/) {
        leave("the event " event)
        if (event == "scsi_eh_wakeup") lose(here, "the error handler of the kernel ran: its commands have no events, and it may reset the disk")
        next
    }
    cdb = command_here()
    queue = queue_here()
    if (event == "scsi_dispatch_cmd_start") { if (NR >= after) sets_off(queue); next }
    sent = set_off(queue)
    if (NR < after) { leave_many("before line " after); next }
    # (an event of an error says that the driver did not take the command)
    if (event != "scsi_dispatch_cmd_done") leave("the event " event)
    if (event == "scsi_dispatch_cmd_timeout") sets_off(queue)
    if (event != "scsi_dispatch_cmd_done") next
    if (sent == 0) sent = NR
    if (sent > last_sent[device]) last_sent[device] = sent
    ended(sent)
}
END {
    for (at = 1; at <= start_count; at++) if (at in waits) unanswered(at)
    arrange()
    finish()
}
