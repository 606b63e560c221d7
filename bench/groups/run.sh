#!/usr/bin/env bash
# Prints what an arrival costs the cells of Groups, and a pane of the commit at which all cells fire, beside
# plain Rust with the standard library's ordered maps, over ever more cells. Bundles of 64 come at one Group.
# Of RUNS runs each (3), taken in alternation, the fastest counts. ARRIVALS is their number (1000000).
# Needs the kit's rt and rustc.
set -euo pipefail
here="$(cd "$(dirname "$0")" && pwd)"
root="$(cd "$here/../.." && pwd)"
arrivals="${ARRIVALS:-1000000}"
runs="${RUNS:-3}"
built="$(mktemp -d)"
trap 'rm -rf "$built"' EXIT
rustc -O -o "$built/plain_groups" "$here/plain_groups.rs"
(cd "$root/crates/groups_bench" && rt run >/dev/null)
groups="$root/crates/groups_bench/out/groups_bench"

# The nanoseconds of an arrival and of a pane in one run.
nanoseconds() {
    "$@" 2>/dev/null | sed -n 's/ ns an* [a-z]*$//p' | paste -sd' '
}

# The lesser, of which 0 is none yet.
lesser() {
    if [ "$1" = 0 ] || [ "$2" -lt "$1" ]; then echo "$2"; else echo "$1"; fi
}

printf '%9s %12s %12s %8s %12s %12s %8s\n' cells 'arrival us' rust ratio 'pane us' rust ratio
for cells in 1000 100000 1000000; do
    own_arrival=0 own_pane=0 rust_arrival=0 rust_pane=0
    for _ in $(seq "$runs"); do
        read -r arrival pane <<<"$(nanoseconds "$groups" "$cells" "$arrivals" times)"
        own_arrival="$(lesser "$own_arrival" "$arrival")"
        own_pane="$(lesser "$own_pane" "$pane")"
        read -r arrival pane <<<"$(nanoseconds "$built/plain_groups" "$cells" "$arrivals")"
        rust_arrival="$(lesser "$rust_arrival" "$arrival")"
        rust_pane="$(lesser "$rust_pane" "$pane")"
    done
    awk -v n="$cells" -v a="$own_arrival" -v b="$rust_arrival" -v c="$own_pane" -v d="$rust_pane" 'BEGIN {
        printf "%9d %12.3f %12.3f %8.2f %12.3f %12.3f %8.2f\n", n, a / 1000, b / 1000, a / b, c / 1000, d / 1000, c / d
    }'
done
