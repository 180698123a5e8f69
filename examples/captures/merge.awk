# One log of merge: before each line the time at which its call ends, the node, the number of its first line, the form of the times, the
# time at which it begins, and its place.
# The days from the first of March of the year 0 on.
function days(year, month, day) {
    if (month < 3) { year--; month += 12 }
    return 365 * year + int(year / 4) - int(year / 100) + int(year / 400) + int((153 * (month - 3) + 2) / 5) + day
}
function month_of(word) { return (index("JanFebMarAprMayJunJulAugSepOctNovDec", word) + 2) / 3 }
function clock(text) { return substr(text, 1, 2) * 3600 + substr(text, 4, 2) * 60 + substr(text, 7, 2) }
# The seconds that a time stamp says, and behind them its fraction: as a text, since many numbers of awk have no microseconds here.
function time_of(text,    fraction, seconds, zone) {
    if (form == "seconds") gsub(/[][ ]/, "", text)
    fraction = match(text, /[.,][0-9]+/) ? substr(text, RSTART + 1, RLENGTH - 1) : ""
    if (form == "date") {
        seconds = days(substr(text, 1, 4), substr(text, 6, 2), substr(text, 9, 2)) * 86400 + clock(substr(text, 12))
        if (match(text, /[-+][0-2][0-9]:?[0-5][0-9]$/)) {
            zone = substr(text, RSTART)
            seconds -= (substr(zone, 1, 1) "1") * (substr(zone, 2, 2) * 3600 + substr(zone, length(zone) - 1) * 60)
            form = "date with zone"
        } else if (text ~ /Z$/) form = "date with zone"
    } else if (form == "month") seconds = days(2000, month_of(substr(text, 1, 3)), substr(text, 5, 2)) * 86400 + clock(substr(text, 8))
    else seconds = form == "clock" ? clock(text) : int(text)
    return sprintf("%012.0f.%s", seconds, substr(fraction "000000000", 1, 9))
}
function stop(why) { print file ", line " NR ": " why > "/dev/stderr"; failed = 1; exit 1 }
# A call, or what stands before the first one, is known as a whole.
function put(    at) {
    for (at = 1; at <= held; at++) printf "%s\t%s\t%d\t%s\t%s\t%s\t%s\n", time, node, first, form_of_log, start, is_call ? file ":" first : "-", lines[at]
    held = is_call = 0
}
# The first line of a call: of `set -x`, of the agent, or where the program opens its device. (sg_raw -v has none of these.)
function begins(text) { return text ~ /^\++ / && text !~ /^\++ [A-Za-z_][A-Za-z0-9_]*=./ || text ~ /Executing: / || text ~ /^open .* with flags=/ && !is_announced || text ~ /cdb: |cdb to send: / && !is_open }
# What a program prints, and not what a script says behind it.
function is_printed(text) { return text ~ /^ / || text ~ /:( |$)/ || text ~ /successful$/ || begins(text) }
{
    text = unstamped($0)
    if (begins(text)) { put(); first = NR; is_open = is_announced = 0 }
    if (text ~ /^\++ .*sg_/) is_announced = 1
    if (text ~ /^open .* with flags=/) { is_open = 1; is_announced = 0 }
    if (text ~ /cdb: |cdb to send: |Executing: /) is_call = 1
    if (text ~ /cdb: |cdb to send: /) is_open = 0
    mark = stamp($0)
    if (mark != "") {
        now = time_of(mark)
        if (form_of_log == "") form_of_log = form
        if (form != form_of_log) stop("another form of time stamps than before")
        if (now < before) stop("the time goes back, as at the end of summer time or of a year, or where somebody set the clock")
        before = now
        if (held == 0) start = now
        if (held == 0 || is_printed(text)) time = now
    } else if (time == "") stop("no time stamp that is known here")
    lines[++held] = $0
}
END {
    if (failed) exit 1
    put()
}
