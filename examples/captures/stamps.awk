# Time stamps, and what a journal or syslog puts before a line. The filter sg-persist leaves them out, and merge goes by them.

# How long the time stamp is that the text begins with, its blank with it: 0 where it has none.
function stamp_length(text) {
    if (match(text, /^[0-9][0-9][0-9][0-9]-[01][0-9]-[0-3][0-9][T ][0-2][0-9]:[0-5][0-9]:[0-6][0-9]([.,][0-9]+)?(Z|[-+][0-2][0-9]:?[0-5][0-9])?( |$)/)) form = "date"
    else if (match(text, /^(Jan|Feb|Mar|Apr|May|Jun|Jul|Aug|Sep|Oct|Nov|Dec) [ 0-3][0-9] [0-2][0-9]:[0-5][0-9]:[0-6][0-9]([.,][0-9]+)?( |$)/)) form = "month"
    else if (match(text, /^[0-2][0-9]:[0-5][0-9]:[0-6][0-9]([.,][0-9]+)?( |$)/)) form = "clock"
    else if (match(text, /^\[? *[0-9]+\.[0-9]+\]?( |$)/)) form = "seconds"
    else return 0
    return RLENGTH
}
# The pluses with which a shell begins a line of `set -x`. (A stamp stands behind them where PS4 has one.)
function pluses(text) { return match(text, /^\++ ?/) ? substr(text, 1, RLENGTH) : "" }
# The time stamp of a line, without the blank behind it.
function stamp(text,    length_of_it) {
    text = substr(text, length(pluses(text)) + 1)
    length_of_it = stamp_length(text)
    text = substr(text, 1, length_of_it)
    sub(/ $/, "", text)
    return text
}
# The line without its time stamp, and without the `HOST PROGRAM[NUMBER]: ` behind that. A program without a number is known by the
# first line of it at which a call begins.
function unstamped(text,    plus, length_of_it) {
    plus = pluses(text)
    length_of_it = stamp_length(substr(text, length(plus) + 1))
    if (length_of_it == 0) return text
    text = substr(text, length(plus) + length_of_it + 1)
    if (match(text, /^[^ ]+ [^ ]+\[[0-9]+\]:( |$)/)) return plus substr(text, RLENGTH + 1)
    if (match(text, /^[^ ]+ [^ :]+: (open .* with flags=|node |\+|Executing: )/)) tag = substr(text, 1, index(text, ": ") + 1)
    if (tag != "" && index(text " ", tag) == 1) return plus substr(text, length(tag) + 1)
    return plus text
}
