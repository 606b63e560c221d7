#!/usr/bin/env bash
# Times a job whose work lies outside the lock, by several workers: of a hundred lines that are read and taken apart one is kept, and
# goes into a pane. Prints seconds, MB/s, peak memory and how many times as fast as the first it was, for each number of workers.
#     bench/workers/run.sh [--workers "N .."] [MB ..]
# The numbers are 1, 2, 4 and 16 where none are given, and the sizes 10 and 50 MB. Of RUNS runs each (3), taken in alternation, the fastest
# counts. PROGRAM is the built program, ./beam_run where it isn't given. Each text has to be the same, with as many parts as lines were kept.
# Needs awk and GNU time (Debian's `time`).
set -euo pipefail
export LC_ALL=C
root="$(cd "$(dirname "$0")/../.." && pwd)"
program="$(readlink -f "${PROGRAM:-$root/beam_run}")"
runs="${RUNS:-3}"
workers="1 2 4 16"
if [ "${1-}" = --workers ]; then
    workers="${2:?--workers \"N ..\"}"
    shift 2
fi
work="$(mktemp -d)"
trap 'rm -rf "$work"' EXIT

# Lines 10 ms apart and up to 4 s out of order, about so many MB. The key of one in a hundred begins with `keep`.
generate() {
    awk -v bytes="$(($1 * 1000000))" 'BEGIN {
        srand(7); OFS = "\t"; time = 1700000000000
        while (written < bytes) {
            time += 10; count++
            line = sprintf("%.0f\t%s%d\tvalue%d", time - int(4000 * rand()), count % 100 ? "drop" : "keep", int(16 * rand()), int(1000 * rand()))
            print line
            written += length(line) + 1
        }
    }'
}

cat >"$work/plan.json" <<'END'
{"beam": 1, "nodes": [
  {"name": "in", "kind": "source", "work": "TimedLines", "files": ["lines.tsv"]},
  {"name": "kept", "kind": "pardo", "work": "KeepPrefix", "text": "keep", "input": ["in"]},
  {"name": "key", "kind": "pardo", "work": "KeyField", "input": ["kept"]},
  {"name": "minute", "kind": "window", "windows": {"fixed": 60000}, "input": ["key"]},
  {"name": "group", "kind": "group", "input": ["minute"]},
  {"name": "out", "kind": "write", "input": ["group"]}
]}
END

# Seconds and KB of one run with so many workers.
timed() {
    (cd "$work" && command time -f '%e %M' -o time "$program" run plan.json --workers "$1" >"text-$1")
    cat "$work/time"
}

best() { awk '{ if (NR == 1 || $1 < seconds) seconds = $1; if ($2 > memory) memory = $2 } END { print seconds, memory }'; }

# The text of so many workers is that of the first, and has the parts that were kept.
check() {
    local parts kept
    parts="$(grep -o '"value[0-9]*"' "$work/text-$1" | wc -l)"
    kept="$(grep -c $'\tkeep' "$work/lines.tsv")"
    if [ "$parts" != "$kept" ] || ! cmp -s "$work/text-$1" "$work/text-${workers%% *}"; then
        echo "the text of $1 workers is not what it should be" >&2
        exit 1
    fi
}

"$program" help >/dev/null
printf '%6s %8s  %9s %8s %9s  %6s\n' MB workers seconds MB/s 'peak MB' times
for megabytes in ${*:-10 50}; do
    generate "$megabytes" >"$work/lines.tsv"
    rm -f "$work"/best-*
    for _ in $(seq "$runs"); do
        for count in $workers; do
            timed "$count" >>"$work/best-$count"
        done
    done
    first=
    for count in $workers; do
        check "$count"
        read -r seconds memory < <(best <"$work/best-$count")
        first="${first:-$seconds}"
        awk -v mb="$megabytes" -v n="$count" -v s="$seconds" -v m="$memory" -v f="$first" 'BEGIN {
            if (s <= 0) s = 0.01
            printf "%6d %8d  %8.2fs %8.1f %9.0f  %6.2f\n", mb, n, s, mb / s, m / 1024, f / s
        }'
    done
done
