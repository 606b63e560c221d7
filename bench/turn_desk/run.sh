#!/usr/bin/env bash
# Prints the microseconds of a turn at the desk and at a plain ticket lock in Rust, side by side.
# Both count in turns, by 1, 2, 4 and 16 threads. Of RUNS runs each (3), taken in alternation, the fastest counts.
# Needs the kit's rt and rustc. TURNS is the number of turns in all (2000000).
set -euo pipefail
here="$(cd "$(dirname "$0")" && pwd)"
root="$(cd "$here/../.." && pwd)"
turns="${TURNS:-2000000}"
runs="${RUNS:-3}"
built="$(mktemp -d)"
trap 'rm -rf "$built"' EXIT
rustc -O -o "$built/ticket_lock" "$here/ticket_lock.rs"
(cd "$root/crates/turn_desk_bench" && rt run >/dev/null)
desk="$root/crates/turn_desk_bench/out/turn_desk_bench"

# The nanoseconds of a turn in one run.
nanoseconds() {
    "$1" "$2" "$((turns / $2))" times | sed -n 's/ ns a turn$//p'
}

printf '%8s %12s %12s %8s\n' threads desk lock ratio
for threads in 1 2 4 16; do
    best_desk=0
    best_lock=0
    for _ in $(seq "$runs"); do
        now="$(nanoseconds "$desk" "$threads")"
        if [ "$best_desk" = 0 ] || [ "$now" -lt "$best_desk" ]; then best_desk="$now"; fi
        now="$(nanoseconds "$built/ticket_lock" "$threads")"
        if [ "$best_lock" = 0 ] || [ "$now" -lt "$best_lock" ]; then best_lock="$now"; fi
    done
    awk -v n="$threads" -v d="$best_desk" -v l="$best_lock" \
        'BEGIN { printf "%8d %12.3f %12.3f %8.2f\n", n, d / 1000, l / 1000, d / l }'
done
