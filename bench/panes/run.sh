#!/usr/bin/env bash
# Times `./beam_run panes FILE 60000` beside `awk | sort` on the same generated files, checks that both group alike,
# and prints seconds, MB/s, peak memory and the ratio. Sizes in MB are the words, 1 and 10 where there are none; `--workers N` before them
# is handed on to `beam_run`, which has 4 workers else.
# Of RUNS runs each (3), taken in alternation, the fastest counts. Needs awk, sort and GNU time (Debian's `time`).
set -euo pipefail
export LC_ALL=C
root="$(cd "$(dirname "$0")/../.." && pwd)"
runs="${RUNS:-3}"
workers=4
if [ "${1-}" = --workers ]; then
    workers="${2:?--workers N}"
    shift 2
fi
work="$(mktemp -d)"
trap 'rm -rf "$work"' EXIT

# Lines 10 ms apart and up to 4 s out of order, with so many keys, about so many MB.
generate() {
    awk -v bytes="$(($1 * 1000000))" -v keys="$2" 'BEGIN {
        srand(7); OFS = "\t"; time = 1700000000000
        while (written < bytes) {
            time += 10
            line = sprintf("%.0f\tkey%d\tvalue%d", time - int(4000 * rand()), int(keys * rand()), int(1000 * rand()))
            print line
            written += length(line) + 1
        }
    }'
}

# What awk and sort print: the parts of each window and key, in the order of sort.
with_awk() {
    awk -F'\t' '{ start = $1 - $1 % 60000; printf "%.0f\t%.0f\t%s\t%s\n", start, start + 60000, $2, $3 }' "$1" | sort \
        | awk -F'\t' '{ cell = $1 FS $2 FS $3; if (cell == last) printf ",%s", $4; else printf "%s%s\t%s", (NR > 1 ? "\n" : ""), cell, $4; last = cell } END { print "" }'
}

# Both as lines of window, key and part, sorted.
parts_of_awk() { awk -F'\t' '{ n = split($4, parts, ","); for (i = 1; i <= n; i++) print $1 FS $2 FS $3 FS parts[i] }' "$1" | sort; }
parts_of_panes() {
    sed -E 's/\tON_TIME\t0\t\("/\t/; s/",\["/\t/; s/"\]\)$//; s/","/,/g' "$1" \
        | awk -F'\t' '{ n = split($4, parts, ","); for (i = 1; i <= n; i++) print $1 FS $2 FS $3 FS parts[i] }' | sort
}

# Seconds and KB of one run, to the file named first.
timed() { local out="$1"; shift; command time -f '%e %M' -o "$work/time" "$@" >"$out"; cat "$work/time"; }
export -f with_awk

best() { awk '{ if (NR == 1 || $1 < seconds) seconds = $1; if ($2 > memory) memory = $2 } END { print seconds, memory }'; }

"$root/beam_run" panes "$root/examples/visits.tsv" 60000 >/dev/null
printf '%6s %6s  %9s %8s %9s  %9s %9s  %6s\n' MB keys 'beam_run' MB/s 'peak MB' 'awk|sort' 'peak MB' ratio
for size in "${@:-1 10}"; do for megabytes in $size; do for keys in 16 1000; do
    file="$work/$megabytes-$keys.tsv"
    generate "$megabytes" "$keys" >"$file"
    : >"$work/ours"; : >"$work/theirs"
    for _ in $(seq "$runs"); do
        timed "$work/panes" "$root/beam_run" panes "$file" 60000 --workers "$workers" >>"$work/ours"
        timed "$work/awk" bash -c "with_awk '$file'" >>"$work/theirs"
    done
    if ! cmp -s <(parts_of_panes "$work/panes") <(parts_of_awk "$work/awk"); then
        echo "the two do not agree on $megabytes MB with $keys keys" >&2
        exit 1
    fi
    read -r ours ours_memory < <(best <"$work/ours")
    read -r theirs theirs_memory < <(best <"$work/theirs")
    awk -v mb="$megabytes" -v keys="$keys" -v a="$ours" -v am="$ours_memory" -v b="$theirs" -v bm="$theirs_memory" 'BEGIN {
        printf "%6d %6d  %8.2fs %8.1f %9.0f  %8.2fs %9.0f  %6.2f\n", mb, keys, a, mb / (a > 0 ? a : 0.01), am / 1024, b, bm / 1024, a / (b > 0 ? b : 0.01)
    }'
    rm -f "$file"
done; done; done
