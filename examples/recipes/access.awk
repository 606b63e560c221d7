# An access log in the common or combined form: milliseconds, path, bytes. A request of one word, as "-", is its own path.
# With -v key=status, method or host that stands in place of the path; the method of a request of one word is "-".
# With several of them, as -v key=status,path, the key has | between them.
# A line of another form, or with a time that there isn't, is named on standard error and counted, and the status is then 1.
BEGIN {
    if (key == "") key = "path"
    keys = split(key, named, ",")
    for (i = 1; i <= keys; i++) if (named[i] !~ /^(path|status|method|host)$/) {
        print "key is path, status, method or host, or several with commas between" > "/dev/stderr"
        exit unknown = 2
    }
}
BEGIN { for (i = 1; i <= 12; i++) month[substr("JanFebMarAprMayJunJulAugSepOctNovDec", 3 * i - 2, 3)] = i }
# days from 1970-01-01 to a date of the Gregorian calendar
function days(y, m, d) {
    if (m <= 2) { y--; m += 12 }
    return 365 * y + int(y / 4) - int(y / 100) + int(y / 400) + int((153 * (m - 3) + 2) / 5) + d - 719469
}
# whether there is such a day, such an hour and such a zone
function is_time(y, m, d, h, min, s, zone) {
    return d >= 1 && days(y, m, d) < days(y, m + 1, 1) && h < 24 && min < 60 && s < 60 &&
        substr(zone, 2, 2) + 0 < 24 && substr(zone, 4) + 0 < 60
}
{ line = $0; sub(/\r$/, "", line) }
match(line, /\[[0-9][0-9]\/[A-Z][a-z][a-z]\/[0-9][0-9][0-9][0-9]:[0-9][0-9]:[0-9][0-9]:[0-9][0-9] [-+][0-9][0-9][0-9][0-9]\] "/) {
    split(substr(line, RSTART + 1, RLENGTH - 4), t, /[\/: ]/)
    rest = substr(line, RSTART + RLENGTH)
    # the request ends with the first quote that has no backslash of its own before it
    match(rest, /^([^"\\]|\\.)*" /)
    n = split(substr(rest, 1, RLENGTH - 2), request, " ")
    split(substr(rest, RLENGTH + 1), answer, " ")
    if (RLENGTH > 0 && (t[2] in month) && is_time(t[3], month[t[2]], t[1], t[4], t[5], t[6], t[7]) && answer[1] ~ /^[0-9]+$/ && answer[2] ~ /^([0-9]+|-)$/) {
        zone = (substr(t[7], 2, 2) * 60 + substr(t[7], 4, 2)) * (substr(t[7], 1, 1) == "-" ? -1 : 1)
        at = ((days(t[3], month[t[2]], t[1]) * 24 + t[4]) * 60 + t[5] - zone) * 60 + t[6]
        split(line, host, " ")
        field["path"] = n > 1 ? request[2] : request[1]
        field["method"] = n > 1 ? request[1] : "-"
        field["status"] = answer[1]
        field["host"] = host[1]
        together = field[named[1]]
        for (i = 2; i <= keys; i++) together = together "|" field[named[i]]
        printf("%.0f\t%s\t%s\n", at * 1000, together, answer[2] == "-" ? 0 : answer[2])
        next
    }
}
{ printf "%s:%d: no line of an access log: %s\n", FILENAME, FNR, line > "/dev/stderr"; bad++ }
END {
    if (unknown) exit unknown
    if (bad) printf "%s: %d line%s left out\n", FILENAME, bad, bad == 1 ? "" : "s" > "/dev/stderr"
    exit bad > 0
}
