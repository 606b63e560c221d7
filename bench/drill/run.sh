#!/usr/bin/env bash
# Times `./beam_run drill COUNT NUMBER` beside `./beam_run panes FILE 60000` over the same lines, which `make` writes into a file, and beside
# `awk | sort` on that file; checks that all three find as many panes and values and the same sum; and prints seconds, thousands of lines a
# second and peak memory of each. Counts are the words, 100000 and 1000000 where there are none; `--number N` (0) and `--workers N` (4)
# stand before them. PROGRAM names another program than `./beam_run`.
# Of RUNS runs each (3), taken in alternation, the fastest counts. Needs awk, sort and GNU time (Debian's `time`).
set -euo pipefail
export LC_ALL=C
root="$(cd "$(dirname "$0")/../.." && pwd)"
program="$(readlink -f "${PROGRAM:-$root/beam_run}")"
runs="${RUNS:-3}"
number=0
workers=4
while [ $# -gt 0 ]; do
    case $1 in
        --number) number="${2:?--number N}"; shift 2 ;;
        --workers) workers="${2:?--workers N}"; shift 2 ;;
        *) break ;;
    esac
done
work="$(mktemp -d)"
trap 'rm -rf "$work"' EXIT

# The parts of each minute and key, in the order of sort.
with_awk() {
    awk -F'\t' '{ printf "%.0f\t%s\t%s\n", $1 - $1 % 60000, $2, $3 }' "$1" | sort \
        | awk -F'\t' '{ cell = $1 FS $2; if (cell == last) printf ",%s", $3; else printf "%s%s\t%s", (NR > 1 ? "\n" : ""), cell, $3; last = cell } END { if (NR) print "" }'
}
export -f with_awk

# What a drill prints, of the text of `panes` and of that of awk.
summary_of_panes() { sed -E 's/^.*",\["(.*)"\]\)$/\1/; s/","/,/g' "$1" | summary_of_parts; }
summary_of_awk() { cut -f 3 "$1" | summary_of_parts; }
summary_of_parts() {
    awk -F, '{ for (i = 1; i <= NF; i++) sum += $i; values += NF } END { printf "lines %.0f\npanes %.0f\nvalues %.0f\nsum %.0f\n", values, NR, values, sum }'
}

# Seconds and KB of one run, to the file named first.
timed() { local out="$1"; shift; command time -f '%e %M' -o "$work/time" "$@" >"$out"; cat "$work/time"; }

best() { awk '{ if (NR == 1 || $1 < seconds) seconds = $1; if ($2 > memory) memory = $2 } END { print seconds, memory }'; }

"$program" help >/dev/null
printf '%8s  %9s %8s %9s  %9s %8s %9s  %9s %9s  %6s\n' lines drill 'k/s' 'peak MB' panes 'k/s' 'peak MB' 'awk|sort' 'peak MB' ratio
for count in ${*:-100000 1000000}; do
    "$program" make "$count" "$number" >"$work/lines.tsv"
    : >"$work/drills"; : >"$work/beside"; : >"$work/theirs"
    for _ in $(seq "$runs"); do
        timed "$work/drill" "$program" drill "$count" "$number" --workers "$workers" >>"$work/drills"
        timed "$work/panes" "$program" panes "$work/lines.tsv" 60000 --workers "$workers" >>"$work/beside"
        timed "$work/awk" bash -c "with_awk '$work/lines.tsv'" >>"$work/theirs"
    done
    if ! cmp -s "$work/drill" <(summary_of_panes "$work/panes") || ! cmp -s "$work/drill" <(summary_of_awk "$work/awk"); then
        echo "the three do not agree on $count lines after $number" >&2
        exit 1
    fi
    read -r drill drill_memory < <(best <"$work/drills")
    read -r panes panes_memory < <(best <"$work/beside")
    read -r theirs theirs_memory < <(best <"$work/theirs")
    awk -v n="$count" -v d="$drill" -v dm="$drill_memory" -v p="$panes" -v pm="$panes_memory" -v t="$theirs" -v tm="$theirs_memory" '
        function some(seconds) { return seconds > 0 ? seconds : 0.01 }
        BEGIN {
            printf "%8d  %8.2fs %8.0f %9.0f  %8.2fs %8.0f %9.0f  %8.2fs %9.0f  %6.2f\n",
                n, d, n / 1000 / some(d), dm / 1024, p, n / 1000 / some(p), pm / 1024, t, tm / 1024, d / some(p)
        }'
done
