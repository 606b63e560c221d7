#!/usr/bin/env bash
# Runs the plans of a folder and compares what they print: tests/plans.sh FOLDER..
# For each plan.json at or below a folder, output.txt beside it has what the plan prints. Each line of the file options,
# where there is one, has the options of a run of its own, and all print the same. Where there is a file combine beside it, combine has to
# print the same as well. Where there is a file schedule beside it, the plan is run under that schedule. Plans run in the folder that this
# is called from. What differs is shown as a diff, - what was wanted and + what came; the status is then 1, and 2 where there is no plan.
# The program is beam_run beside the folder tests/, or what BEAM_RUN names.
set -u
program=${BEAM_RUN:-$(dirname "$(readlink -f "${BASH_SOURCE[0]}")")/../beam_run}
[ $# -gt 0 ] || { echo "usage: tests/plans.sh FOLDER.." >&2; exit 2; }
for folder in "$@"; do
    [ -d "$folder" ] || { echo "plans: there is no folder $folder" >&2; exit 2; }
done
# The launcher may have to build the program first, and says so.
"$program" help >/dev/null || { echo "plans: $program doesn't run" >&2; exit 2; }
work=$(mktemp -d) || exit 2
trap 'rm -rf "$work"' EXIT
good=0 bad=0

# The runs of a plan with these options: what it is to print is the second word.
run() {
    local folder=${1%plan.json}
    if [ -f "${folder}schedule" ]; then
        compare "$2" "$3" replay "$1" "${folder}schedule"
    else
        compare "$2" "$3" run "$1"
        [ ! -f "${folder}combine" ] || compare "$2" "$3" combine "$1"
    fi
}

# One run: what it is to print, its options, and its words, of which the second is the plan.
compare() {
    local wanted=$1 given=$2 command=$3 plan=$4 status options=()
    read -ra options <<<"$given"
    shift 2
    "$program" "$@" "${options[@]}" >"$work/got" 2>"$work/note" </dev/null
    status=$?
    if [ "$status" -eq 0 ] && cmp -s "$wanted" "$work/got"; then
        good=$((good + 1))
        return
    fi
    bad=$((bad + 1))
    [ "$command" != combine ] || plan="combine $plan"
    echo "$plan${given:+ $given}"
    if [ "$status" -eq 0 ]; then
        diff -u --label wanted --label got "$wanted" "$work/got"
    else
        echo "status $status: $(cat "$work/note")"
    fi
}

while IFS= read -r -d '' plan; do
    folder=${plan%plan.json}
    if [ ! -f "${folder}output.txt" ]; then
        echo "$plan: there is no output.txt beside it"
        bad=$((bad + 1))
    elif [ -s "${folder}options" ]; then
        while IFS= read -r options || [ -n "$options" ]; do
            run "$plan" "${folder}output.txt" "$options"
        done <"${folder}options"
    else
        run "$plan" "${folder}output.txt" ''
    fi
done < <(find -H "$@" -name plan.json -print0 | sort -z)

echo "plans: $good as wanted, $bad not"
[ "$bad" -eq 0 ] || exit 1
[ "$good" -gt 0 ] || exit 2
