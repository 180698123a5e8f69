# What sg_persist and its kin print without -vv, as the filter sg-persist reads it: their data in words, and the calls that the agent
# fence_scsi writes into its debug log, `Executing: COMMAND` and then `STATUS OUTPUT`.
BEGIN {
    types = split("Write Exclusive;Exclusive Access;Write Exclusive, registrants only;Exclusive Access, registrants only;Write Exclusive, all registrants;Exclusive Access, all registrants", type_words, ";")
    split("1 3 5 6 7 8", type_numbers, " ")
    sense_words["Power on, reset, or bus device reset occurred"] = "2900"
    sense_words["Reservations preempted"] = "2a03"
    sense_words["Reservations released"] = "2a04"
    sense_words["Registrations preempted"] = "2a05"
    actions["-I"] = "06"; actions["-G"] = "00"; actions["-R"] = "01"; actions["-L"] = "02"; actions["-C"] = "03"; actions["-P"] = "04"; actions["-A"] = "05"
}
function forget_words() { word_keys = word_generation = word_type = word_told = "" }
# A line of the list of keys, or of the reservation.
function is_of_words() { return /^ *0x[0-9a-f]+$/ || /^ *Key=0x[0-9a-f]+$/ || /^ *scope: / }
function read_words(    at) {
    if (/PR generation=0x/) {
        word_generation = padded(number_behind("generation=0x"), 8)
        word_told = match($0, /, [0-9]+ registered/) ? substr($0, RSTART + 2) + 0 : /Reservation follows/ ? 1 : 0
    } else if (/^ *scope: /) {
        sub(/^.*type: /, "")
        for (at = 1; at <= types; at++) if ($0 == type_words[at]) word_type = "0" type_numbers[at]
    } else word_keys = word_keys padded(number_behind("0x"), 16)
}
# The data that these words stand for, or nothing where they are not all there.
function words_as_data() {
    if (word_generation == "" || length(word_keys) != 16 * word_told) return ""
    if (bytes(cdb, 1, 1) == "00") return word_generation sprintf("%08x", length(word_keys) / 2) word_keys
    if (bytes(cdb, 1, 1) != "01") return ""
    if (word_told == 0) return word_generation "00000000"
    return word_type == "" ? "" : word_generation "00000010" word_keys "0000000000" word_type "0000"
}

# The agent runs a program.
function is_of_agent() { return /^(INFO: |DEBUG: )?Executing: / }
function key_of(word) { word = tolower(word); sub(/^0x/, "", word); return padded(word, 16) }
function execute(    at, program, flags, action, type, keys, device) {
    sub(/^.*Executing: /, "")
    sub(/(#012)+$/, "")
    program = $1
    sub(/^.*\//, "", program)
    type = "00"
    keys["K"] = keys["S"] = padded("", 16)
    for (at = 2; at <= NF; at++) {
        if ($at in actions) action = "5f" actions[$at]
        else if ($at == "-k" || $at == "-r") action = "5e0" ($at == "-r")
        else if ($at == "-T") type = "0" $(++at)
        else if ($at == "-K") keys["K"] = key_of($(++at))
        else if ($at == "-S") keys["S"] = key_of($(++at))
        else if ($at == "-Z") flags = 1
        else if ($at == "-d" || at == NF && $at !~ /^-/) device = $(at == NF ? at : ++at)
        else if ($at !~ /^-[nioy]$/) program = ""
    }
    elsewhere = is_other_disk_than(device) ? device : ""
    if (program == "sg_turs" && device != "" && action == "") begin("000000000000")
    else if (program == "sg_persist" && action ~ /^5f/) begin(action type "00000000001800")
    else if (program == "sg_persist" && action ~ /^5e/) begin(action "0000000000200000")
    else { elsewhere = "-"; if ($1 ~ /sg_(persist|turs|requests|raw)$/ && !/ -V$/) missing(NR, "the agent calls a program in a way that is not known here. Left out"); return }
    is_agent = 1
    agent_status = sense_code = ""
    out_data = action ~ /^5f/ ? keys["K"] keys["S"] "00000000" (flags ? "01" : "00") "000000" : ""
}
# The agent says how it ended: the exit status, and then what was printed.
function is_result() { return is_agent && cdb != "" && agent_status == "" && /^(DEBUG: )?[0-9]+ / }
function result(    found) {
    sub(/^DEBUG: /, "")
    found = $1
    sub(/^[0-9]+ /, "")
    return found
}
function read_sense() { sub(/^ *Additional sense: /, ""); sense_code = $0 in sense_words ? sense_words[$0] : "" }
# What syslog writes of more lines: one, with #012 in place of each end of a line.
function read_escaped(    parts, count, at) {
    count = split($0, parts, "#012")
    for (at = 1; at <= count; at++) {
        $0 = parts[at]
        if (/: transport: /) lost = 1
        else if (/PR generation=0x/ || word_told != "" && is_of_words()) read_words()
        else if (/^ *Additional sense: /) read_sense()
    }
}
function status_of_agent() {
    if (lost || agent_status == "") return status
    if (agent_status == 0) return "00"
    if (agent_status == 24) return "18"
    if (agent_status == 26) return status_of("busy")
    if (agent_status == 27) return status_of("task set full")
    if (agent_status == 6 && sense_code != "") { sensed = sense_of("6", sense_code); return "02" }
    return "exit status " agent_status
}
# An exit status that says that the disk refused the command, though not by which sense.
function is_refused() { return status ~ /^exit status (2|5|7|9|22)$/ }
