# The program of `scenario`, which says what it does. Items are known by their number, and the account of order.awk is kept of them.

function key_word(key) { sub(/^0+/, "", key); return key == "" ? "0" : key }
function add_name(name) { if (!(name in number_of_name)) { number_of_name[name] = ++names_count; name_of_number[names_count] = name } }
function is_reservation_type(type) { return index(" 1 3 5 6 7 8 ", " " type " ") > 0 }
# This says of our disk that it is raised by the command.
function raises(at, name,    action) {
    action = action_at(at)
    if (action == 0 || action == 6) return key_at(at) != no_key || name in key_of
    return action >= 3 && action <= 5
}
# (only a whole list of keys says who has none)
function is_list(at) { return is_done_at(at, "5e") && action_at(at) == 0 && length(data_at[at]) >= 16 && length(data_at[at]) == 16 + 2 * number(bytes(data_at[at], 4, 4)) }
function keys_in(at, keys,    it, many) {
    many = (length(data_at[at]) - 16) / 16
    for (it = 1; it <= many; it++) keys[it] = bytes(data_at[at], 8 * it, 8)
    return many
}
function owner_of(key,    name, found) {
    found = ""
    for (name in key_of) if (key_of[name] == key) { if (found != "") return "*"; found = name }
    return found
}

# Only who is registered is told 6/2a/xx. So who was told it before it registered was registered at the start.
function read_told(    at, name) {
    for (at = 1; at <= items; at++) if (is_report(at) && !(name_at[at] in registered_at && registered_at[name_at[at]] < at)) was_told[name_at[at]] = 1
}
function told_alone(    it, name, found) {
    found = ""
    for (it = 1; it <= names_count; it++) {
        name = name_of_number[it]
        if (!(name in was_told) || name in start_of || name in claim) continue
        if (found != "") return ""
        found = name
    }
    return found
}
# What each name first says of its key.
function read_claims(    at, name, action) {
    for (at = 1; at <= items; at++) {
        name = name_at[at]
        if (name == "" || code_at(at) != "5f" || length(params_at[at]) < 48) continue
        action = action_at(at)
        if (!(name in claim) && own_key_at(at) != no_key && action != 6 && !(name in registered_at)) {
            claim[name] = own_key_at(at)
            if (status_at[at] == "00") start_of[name] = own_key_at(at)
        }
        if (status_at[at] == "00" && (action == 0 || action == 6) && !(name in registered_at)) registered_at[name] = at
    }
}
function is_preempt(at) { return action_at(at) == 4 || action_at(at) == 5 }
# Nobody has this key by what is known so far. (Each key gets one owner at most.)
function is_missing(key) { return key != no_key && !has_key(key) && !(key in has_owner) }
# Who registers this key behind this item, and had none before: it may have had the same key already.
function registers_later(at, key) {
    for (at++; at <= items; at++) if (is_done_at(at, "5f") && action_at(at) == 6 && key_at(at) == key) return name_at[at] in start_of || registered_at[name_at[at]] < at ? "" : name_at[at]
    return ""
}
# Somebody had this key when the trace began: who claims it, or another guest.
function add_owner(at, key,    it, name, why) {
    has_owner[key] = 1
    for (it = 1; it <= names_count; it++) {
        name = name_of_number[it]
        if (!(name in start_of) && name in claim && claim[name] == key) { start_of[name] = key; return }
    }
    name = registers_later(at, key)
    why = "which registers it later"
    if (name == "") { name = told_alone(); why = "which is told of a registration without one of its own" }
    if (name != "") {
        tell("item " at ": the key " key_word(key) " is taken for that of " name ", " why)
        start_of[name] = key
        return
    }
    name = "other-" (++others)
    while (name in number_of_name) name = "other-" (++others)
    add_name(name)
    start_of[name] = key
    tell("item " at ": the key " key_word(key) " belongs to nobody in the trace: the guest " name " stands for who has it")
}
# Follows the registrations from the start. It ends early, with 1, where a key is found whose owner was not known.
function follow(    at, name, keys, many, it, is_first) {
    copy(start_of, key_of); split("", told)
    kind = start_kind; holder = start_holder
    is_first = 1
    for (at = 1; at <= items; at++) {
        name = name_at[at]
        if (is_done_at(at, "5f")) {
            if (is_preempt(at) && is_missing(key_at(at))) { add_owner(at, key_at(at)); return 1 }
            act(name, action_at(at), type_at(at), key_at(at))
        } else if (is_list(at)) {
            many = keys_in(at, keys)
            for (it = 1; it <= many && is_first; it++) if (is_missing(keys[it])) { add_owner(at, keys[it]); return 1 }
            is_first = 0
            add_order(at, keys, many)
        }
    }
    return 0
}
# Of two names whose keys stand side by side the first has the lower number.
function add_order(at, keys, many,    it, name, last) {
    last = ""
    for (it = 1; it <= many; it++) {
        name = owner_of(keys[it])
        if (name == "" || name == "*") continue
        if (last != "" && !((last, name) in before)) { before[last, name] = 1; pair_first[++pairs] = last; pair_second[pairs] = name }
        last = name
    }
}
# The guests, each behind those whose keys are listed before its own.
function lay_out(    it, pair, name, is_free, chosen) {
    while (guests < names_count) {
        chosen = ""
        for (it = 1; it <= names_count && chosen == ""; it++) {
            name = name_of_number[it]
            is_free = !(name in guest_number)
            for (pair = 1; pair <= pairs; pair++) if (pair_second[pair] == name && !(pair_first[pair] in guest_number)) is_free = 0
            if (is_free) chosen = name
        }
        for (it = 1; it <= names_count && chosen == ""; it++) if (!(name_of_number[it] in guest_number)) {
            chosen = name_of_number[it]
            tell("no order of guests is that of each READ KEYS: an audit will find one of them at fault")
        }
        guest_number[chosen] = ++guests
        guest[guests] = chosen
    }
}
# The generation and the reservation of the start, from the first reading of each.
function read_start(    at, name, raised, is_changed, is_reserved, has_generation, has_reservation, is_told, key) {
    copy(start_of, key_of)
    for (at = 1; at <= items; at++) {
        name = name_at[at]
        if (status_at[at] == "18" && (code_at(at) != "5f" || action_at(at) == 1) && !is_reserved && !has_reservation && !is_told) {
            is_told = 1
            tell("item " at ": a conflict, though nothing before tells of a reservation: write a line `reservation` if one was held when the trace began")
        }
        if (is_done_at(at, "5f") && action_at(at) == 1) is_reserved = 1
        if (is_done_at(at, "5e") && action_at(at) <= 1 && length(data_at[at]) >= 16) {
            if (!has_generation) generation = number(bytes(data_at[at], 0, 4)) - raised
            has_generation = 1
            if (action_at(at) == 1 && !has_reservation && !is_changed) {
                has_reservation = 1
                if (length(data_at[at]) >= 44) { start_kind = byte(data_at[at], 21) % 16; key = bytes(data_at[at], 8, 8) }
                if (start_kind > 0 && start_kind < 7) {
                    if (is_missing(key)) { add_owner(at, key); copy(start_of, key_of) }
                    start_holder = owner_of(key)
                    if (start_holder == "*") { tell("item " at ": the key " key_word(key) " has more than one owner, so who holds the reservation is not known"); start_kind = 0 }
                }
            }
        } else if (is_done_at(at, "5f")) {
            if (raises(at, name)) raised++
            if ((action_at(at) != 0 && action_at(at) != 6) || key_at(at) == no_key) is_changed = 1
            act(name, action_at(at), type_at(at), key_at(at))
        }
    }
    if (generation < 0) generation += 4294967296
}
# The keys that the lines of the scenario name, by its guests.
function add_key(word) { if (!(word in is_declared)) { is_declared[word] = 1; declared = declared " " word; declared_count++ } }
function add_keys(    it, at, words) {
    for (it = 1; it <= guests; it++) {
        if (guest[it] in start_of) add_key(key_word(start_of[guest[it]]))
        for (at = 1; (guest[it], at) in clause_of; at++) {
            split(clause_of[guest[it], at], words, " ")
            if (words[1] == "register" || (words[1] == "preempt" && words[2] != "0")) add_key(words[2])
        }
    }
}
function add_clause(at, name, clause) {
    if ((name, clause) in has_clause) return
    has_clause[name, clause] = 1
    if (++clauses[name] > 32) { lose("item " at, "a role has 32 clauses at most, and there is no room for `" clause "` of " name); return }
    clause_of[name, clauses[name]] = clause
}
# The clause that permits a command which ended GOOD, if it needs one.
function permit(at,    name, code, action, type) {
    name = name_at[at]
    code = code_at(at)
    if (code == "28") add_clause(at, name, "read")
    if (code == "2a") add_clause(at, name, "write")
    if (code != "5f") return
    action = action_at(at)
    type = byte(cdb_at[at], 2)
    if (action == 0 || action == 6) {
        if (key_at(at) == no_key) { add_clause(at, name, "unregister"); return }
        add_clause(at, name, "register " key_word(key_at(at)))
    } else if (action == 1) add_clause(at, name, "reserve " type)
    else if (action == 2) add_clause(at, name, "release")
    else if (action == 3) add_clause(at, name, "clear")
    else if (action <= 5 && is_reservation_type(type)) add_clause(at, name, "preempt " key_word(key_at(at)) " " type)
    else lose("item " at, "no clause permits this PERSISTENT RESERVE OUT (" (action <= 5 ? "a PREEMPT without one of the six types" : "service action " action) ")")
}
function room(count, most, what) { if (count > most) lose("in all", count " " what ", and a scenario has " most " at most") }
# Writes the scenario.
function write_all(    it, at, name) {
    for (at = 1; at <= items; at++) if (status_at[at] == "00") permit(at)
    add_keys()
    if (version == 1 && guests > 8) lose("in all", guests " guests need a trace of version 2: VERSION=2 of the filter")
    room(guests, 16, "guests")
    room(declared_count, 12, "keys")
    print "# The scenario for an audit of a trace, as `scenario` wrote it: each role permits what ended GOOD."
    print "fence " version
    if (declared_count > 0) print "keys" declared
    for (it = 1; it <= guests; it++) print "guest " guest[it]
    for (it = 1; it <= guests; it++) if (guest[it] in start_of) print "start " guest[it] " " key_word(start_of[guest[it]])
    if (start_kind > 0) print "reservation " start_kind (start_kind < 7 ? ":" start_holder : "")
    if (generation > 0) print "generation " sprintf("%x", generation)
    if (resets > 0) { room(resets, 1000, "resets"); print "resets " resets }
    for (it = 1; it <= guests; it++) {
        name = guest[it]
        if (busy[name] > 0) { room(busy[name], 1000, "times BUSY for " name); print "busy " name " " busy[name] }
        if (full[name] > 0) { room(full[name], 1000, "times TASK SET FULL for " name); print "full " name " " full[name] }
    }
    for (it = 1; it <= guests; it++) for (at = 1; at <= clauses[guest[it]] && at <= 32; at++) print "role " guest[it] " " clause_of[guest[it], at]
}

NR == 1 {
    if ($0 !~ /^fence-trace [123]$/) stop("the first line of a trace is `fence-trace 1`, `fence-trace 2` or `fence-trace 3`")
    version = $2
    next
}
/^(unit|host|guest)/ { is_end = 1 }
is_end { next }
{
    if ($1 != items + 1 || !((NF == 2 && $2 == "reset" && version >= 2) || (NF == 7 && is_name($2)))) stop("not item " items + 1 " of a trace")
    items++
    if (NF == 2) { resets++; next }
    name_at[items] = $2
    add_name($2)
    cdb_at[items] = tolower($3)
    params_at[items] = $4 == "-" ? "" : tolower($4)
    status_at[items] = $5
    sensed_at[items] = $6
    data_at[items] = $7 == "-" ? "" : tolower($7)
    if ($5 == "08") busy[$2]++
    if ($5 == "28") full[$2]++
}
END {
    no_key = "0000000000000000"
    start_kind = generation = 0
    if (NR == 0) { tell("no trace is here"); ends(1) }
    if (names_count == 0) { tell("the trace has no commands: there is nothing to audit"); ends(1) }
    read_claims()
    read_told()
    while (follow()) { split("", before); pairs = 0 }
    read_start()
    split("", before); pairs = 0
    while (follow()) { split("", before); pairs = 0 }
    lay_out()
    write_all()
    tell_notes(1)
    if (incomplete) ends(1)
}
