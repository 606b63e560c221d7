# Prints the lines of files that TimedLines takes; with -v numbers=1 those whose part FieldInt takes behind KeyField.
# Every other line is named on standard error, and each file's are counted; the status is then 1.
# A byte order mark at the start of a file and a CR before a line's end are taken off.
function is_at_most(digits, most) {
    sub(/^0+/, "", digits)
    return length(digits) < length(most) || (length(digits) == length(most) && digits "" <= most "")
}
function is_time(text) {
    sub(/^-/, "", text)
    return text ~ /^[0-9]+$/ && length(text) <= 16 && is_at_most(text, "9223372036854775")
}
function is_number(text,    most) {
    most = text ~ /^-/ ? "9223372036854775808" : "9223372036854775807"
    sub(/^-/, "", text)
    return text ~ /^[0-9]+$/ && length(text) <= 19 && is_at_most(text, most)
}
# What is wrong with a line, or nothing.
function fault(line,    tab, rest) {
    if (line ~ /^!/) return is_time(substr(line, 2)) ? "" : "no time behind !"
    tab = index(line, "\t")
    if (!tab) return "no TAB"
    if (!is_time(substr(line, 1, tab - 1))) return "no time"
    if (!numbers) return ""
    rest = substr(line, tab + 1)
    tab = index(rest, "\t")
    if (!tab) return "no part"
    return is_number(substr(rest, tab + 1)) ? "" : "no number"
}
function count() { if (bad) printf "%s: %d line%s left out\n", name, bad, bad == 1 ? "" : "s" > "/dev/stderr" }
FNR == 1 { count(); bad = 0; name = FILENAME; sub(/^\357\273\277/, "") }
{
    sub(/\r$/, "")
    why = fault($0)
    if (why == "") print
    else { printf "%s:%d: %s: %s\n", FILENAME, FNR, why, $0 > "/dev/stderr"; bad++; status = 1 }
}
END { count(); exit status }
