#!/usr/bin/env bash
# Times `./beam_run run` of running totals (TimedLines, KeyField, FieldInt, RunningSum, Write) and `./beam_run panes FILE 60000` on the
# same generated files, beside `awk | sort`, checks that the totals agree, and prints seconds, MB/s and peak memory of each. Sizes in MB are
# the words, 1 and 10 where there are none; `--workers N` before them is handed on to `beam_run`, which has 1 worker else. Each part is 1: so
# several workers give the same totals too, at other times. PROGRAM names another program than `./beam_run`.
# Of RUNS runs each (3), taken in alternation, the fastest counts. Needs awk, sort and GNU time (Debian's `time`).
set -euo pipefail
export LC_ALL=C
root="$(cd "$(dirname "$0")/../.." && pwd)"
program="${PROGRAM:-$root/beam_run}"
runs="${RUNS:-3}"
workers=1
if [ "${1-}" = --workers ]; then
    workers="${2:?--workers N}"
    shift 2
fi
work="$(mktemp -d)"
trap 'rm -rf "$work"' EXIT

# Lines 10 ms apart and up to 4 s out of order, with so many keys, about so many MB.
generate() {
    awk -v bytes="$(($1 * 1000000))" -v keys="$2" 'BEGIN {
        srand(7); OFS = "\t"; time = 1700000000000
        while (written < bytes) {
            time += 10
            line = sprintf("%.0f\tkey%d\t1", time - int(4000 * rand()), int(keys * rand()))
            print line
            written += length(line) + 1
        }
    }'
}

plan() {
    printf '{"beam":1,"nodes":[{"name":"in","kind":"source","work":"TimedLines","files":["%s"]},' "$1"
    printf '{"name":"key","kind":"pardo","work":"KeyField","input":["in"]},{"name":"number","kind":"pardo","work":"FieldInt","input":["key"]},'
    printf '{"name":"total","kind":"stateful","work":"RunningSum","input":["number"]},{"name":"out","kind":"write","input":["total"]}]}\n'
}

# The total of each line's key so far, by the times of the lines.
with_awk() { awk -F'\t' '{ total[$2] += $3; printf "%s\t%s\t%d\n", $1, $2, total[$2] }' "$1" | sort -n -s -k1,1; }

# Both as lines of key and total, sorted.
totals_of_awk() { cut -f2- "$1" | sort; }
totals_of_run() { sed -E 's/^.*\("([^"]*)",([0-9]+)\)$/\1\t\2/' "$1" | sort; }

# Seconds and KB of one run, to the file named first.
timed() { local out="$1"; shift; command time -f '%e %M' -o "$work/time" "$@" >"$out"; cat "$work/time"; }
export -f with_awk

best() { awk '{ if (NR == 1 || $1 < seconds) seconds = $1; if ($2 > memory) memory = $2 } END { print seconds, memory }'; }

"$program" help >/dev/null
printf '%6s %7s  %9s %8s %9s  %9s %8s %9s  %9s %9s  %6s\n' MB keys totals MB/s 'peak MB' panes MB/s 'peak MB' 'awk|sort' 'peak MB' ratio
for size in "${@:-1 10}"; do for megabytes in $size; do for keys in 10 1000 100000; do
    file="$work/lines.tsv"
    generate "$megabytes" "$keys" >"$file"
    plan "$file" >"$work/plan.json"
    : >"$work/ours"; : >"$work/beside"; : >"$work/theirs"
    for _ in $(seq "$runs"); do
        timed "$work/totals" "$program" run "$work/plan.json" --workers "$workers" >>"$work/ours"
        timed /dev/null "$program" panes "$file" 60000 --workers "$workers" >>"$work/beside"
        timed "$work/awk" bash -c "with_awk '$file'" >>"$work/theirs"
    done
    if ! cmp -s <(totals_of_run "$work/totals") <(totals_of_awk "$work/awk"); then
        echo "the two do not agree on $megabytes MB with $keys keys" >&2
        exit 1
    fi
    read -r ours ours_memory < <(best <"$work/ours")
    read -r panes panes_memory < <(best <"$work/beside")
    read -r theirs theirs_memory < <(best <"$work/theirs")
    awk -v mb="$megabytes" -v keys="$keys" -v a="$ours" -v am="$ours_memory" -v p="$panes" -v pm="$panes_memory" -v b="$theirs" -v bm="$theirs_memory" '
        function some(seconds) { return seconds > 0 ? seconds : 0.01 }
        BEGIN {
            printf "%6d %7d  %8.2fs %8.1f %9.0f  %8.2fs %8.1f %9.0f  %8.2fs %9.0f  %6.2f\n",
                mb, keys, a, mb / some(a), am / 1024, p, mb / some(p), pm / 1024, b, bm / 1024, a / some(b)
        }'
    rm -f "$file"
done; done; done
