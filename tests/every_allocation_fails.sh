#!/usr/bin/env bash
# Runs the four lines of the program's tests with each allocation failing in turn: every run has to end
# with the whole text or with want of memory. The words are the first number and the last, 1 and 140 where
# there are none. Needs rt, the command of the toolchain; takes some 20 seconds a number.
set -u
cd "$(dirname "$0")/../crates/beam_run" || exit 1
name=four_lines_give_their_panes_or_no_memory
first=${1:-1}
last=${2:-140}
for n in $(seq "$first" "$last"); do
    if ! rt try --test --fail-alloc "$n" 2>&1 | grep -q "test tests::$name ... ok"; then
        echo "allocation $n: neither the text nor want of memory"
        exit 1
    fi
done
echo "the allocations from $first to $last failed in turn, and each run ended with the text or with want of memory"
