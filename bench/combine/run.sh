#!/usr/bin/env bash
# Times `combine` beside `run` on the same plans and files, and prints seconds, processor seconds and peak memory of each, and how many times as fast
# `combine` was.
#     bench/combine/run.sh [--workers "N .."] [MB ..]
# The jobs are sums of each key and minute (`sums`), a count of each word (`words`), and a count of all lines (`lines`). The numbers of workers are 1 and 4
# where none are given, and the size 10 MB. Of RUNS runs each (3), taken in alternation, the fastest counts. PROGRAM is the built program, ./beam_run where it
# isn't given. Both have to print the same. Needs awk and GNU time (Debian's `time`).
set -euo pipefail
export LC_ALL=C
root="$(cd "$(dirname "$0")/../.." && pwd)"
program="$(readlink -f "${PROGRAM:-$root/beam_run}")"
runs="${RUNS:-3}"
workers="1 4"
if [ "${1-}" = --workers ]; then
    workers="${2:?--workers \"N ..\"}"
    shift 2
fi
work="$(mktemp -d)"
trap 'rm -rf "$work"' EXIT

# Lines 10 ms apart and up to 4 s out of order, of 200 keys with a number each, about so many MB.
generate_numbers() {
    awk -v bytes="$(($1 * 1000000))" 'BEGIN {
        srand(7); OFS = "\t"; time = 1700000000000
        while (written < bytes) {
            time += 10
            line = sprintf("%.0f\tkey%d\t%d", time - int(4000 * rand()), int(200 * rand()), int(100000 * rand()))
            print line
            written += length(line) + 1
        }
    }'
}

# Lines of ten words, of 50000 words of which the first ones come more often.
generate_words() {
    awk -v bytes="$(($1 * 1000000))" 'BEGIN {
        srand(7)
        while (written < bytes) {
            line = ""
            for (i = 0; i < 10; i++) line = line (i ? " " : "") "w" int(50000 * rand() * rand() * rand())
            print line
            written += length(line) + 1
        }
    }'
}

# A plan that ends in a Group, a function and a Write, behind the nodes that are told: its source, and what takes from it.
plan() {
    printf '{"beam": 1, "nodes": [%s,\n  {"name": "group", "kind": "group", "input": ["last"]},\n' "$1"
    printf '  {"name": "fold", "kind": "pardo", "work": "%s", "input": ["group"]},\n  {"name": "out", "kind": "write", "input": ["fold"]}\n]}\n' "$2"
}
plan '{"name": "in", "kind": "source", "work": "TimedLines", "files": ["numbers"]},
  {"name": "key", "kind": "pardo", "work": "KeyField", "input": ["in"]},
  {"name": "number", "kind": "pardo", "work": "FieldInt", "input": ["key"]},
  {"name": "last", "kind": "window", "windows": {"fixed": 60000}, "input": ["number"]}' SumSeq >"$work/sums.json"
plan '{"name": "in", "kind": "source", "work": "Lines", "files": ["text"]},
  {"name": "words", "kind": "pardo", "work": "Words", "input": ["in"]},
  {"name": "last", "kind": "pardo", "work": "KeyField", "input": ["words"]}' CountSeq >"$work/words.json"
plan '{"name": "last", "kind": "source", "work": "Lines", "files": ["text"]}' CountSeq >"$work/lines.json"

# Seconds, processor seconds and KB of one run: COMMAND JOB WORKERS
timed() {
    (cd "$work" && command time -f '%e %U %S %M' -o time "$program" "$1" "$2.json" --workers "$3" >"$1.txt")
    awk '{ print $1, $2 + $3, $4 }' "$work/time"
}

best() {
    awk '{ if (NR == 1 || $1 < s) s = $1; if (NR == 1 || $2 < p) p = $2; if ($3 > m) m = $3 } END { printf "%.2f %.2f %.0f\n", s, p, m / 1024 }'
}

"$program" help >/dev/null
printf '%6s %6s %8s  %9s %10s %8s  %9s %10s %8s  %6s\n' MB job workers combine processor MB run processor MB times
for megabytes in ${*:-10}; do
    generate_numbers "$megabytes" >"$work/numbers"
    generate_words "$megabytes" >"$work/text"
    for job in sums words lines; do for count in $workers; do
        : >"$work/ours"; : >"$work/beside"
        for _ in $(seq "$runs"); do
            timed combine "$job" "$count" >>"$work/ours"
            timed run "$job" "$count" >>"$work/beside"
            cmp -s "$work/combine.txt" "$work/run.txt" || { echo "combine and run print different texts of $job" >&2; exit 1; }
        done
        read -r seconds processor memory < <(best <"$work/ours")
        read -r run_seconds run_processor run_memory < <(best <"$work/beside")
        awk -v mb="$megabytes" -v j="$job" -v n="$count" -v s="$seconds" -v p="$processor" -v m="$memory" \
            -v rs="$run_seconds" -v rp="$run_processor" -v rm="$run_memory" 'BEGIN {
            printf "%6d %6s %8d  %8.2fs %9.2fs %8d  %8.2fs %9.2fs %8d  %6.2f\n", mb, j, n, s, p, m, rs, rp, rm, rs / (s > 0 ? s : 0.01)
        }'
    done; done
done
