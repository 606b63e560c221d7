#!/usr/bin/env bash
# Checks the documents against the repository, and prints each failure as FILE:LINE: WHAT; the status is then 1.
# Needs no network, and takes a few seconds. It looks for
# - links, files and names that are nowhere, and names that aren't in the file that is told with them;
# - lines of more than 160 characters, but in blocks of cases;
# - a block headed ```case FILE```, which stands word for word in FILE, of data/ in one of the programs of cases;
# - a line `$ ./beam_run ..` in a block with its output below, which is a case of commands.cases over the same files
#   (a last line `..` leaves the rest of the output out), and so are the outputs of examples/ but those of examples/scores.
#   Pages whose commands are for people's own files are only run;
# - the options of an example, which are those that examples/README.md shows.
# With `--run PROGRAM [DRAWING PROGRAM]` it also runs each command that is shown, by sessions.py, and the plans of examples/, by plans.sh.
set -u
cd "$(dirname "$0")/.." || exit 1
export LC_ALL=C

# Paths and names in the documents that are nowhere else in a checkout, and why. What ends with / stands for all in it.
read -r -d '' exceptions <<'END'
out/    what rt makes in a crate, and the program
END

# Documents whose commands no case of commands.cases has to have.
only_run=' docs/using/DEAD_LETTERS.md docs/using/ERRORS.md docs/using/PLAN.md docs/using/RECIPES.md docs/using/REPLAY.md docs/using/SCORES.md docs/using/TESTING.md '

programs=()
case "${1-}" in
    '') ;;
    --run) shift; for name in "${@:?docs.sh --run PROGRAM}"; do programs+=("$(readlink -f "$name")"); done ;;
    *) echo "usage: tests/docs.sh [--run PROGRAM [DRAWING PROGRAM]]" >&2; exit 2 ;;
esac

work=$(mktemp -d) || exit 2
trap 'rm -rf "$work"' EXIT
commands=crates/command_cases/data/commands.cases
mkdir "$work/shown" "$work/cases"
: >"$work/failures"

find . \( -name .git -o -name out \) -prune -o -print | sed 's|^\./||' | sort >"$work/files"
grep '\.md$' "$work/files" >"$work/docs"
mapfile -t documents <"$work/docs"
printf '%s\n' "$exceptions" | awk '{ print $1 }' >"$work/exceptions"

# The names that stand in each crate, and in the rest of the repository but its documents.
for folder in crates/*/ bench/ tests/ examples/; do
    name=${folder#crates/}
    grep -rhoE '[A-Za-z_][A-Za-z0-9_]*' --exclude-dir=out --exclude='*.md' --exclude=docs.sh "$folder" | sort -u | sed "s|^|${name%/} |"
done >"$work/names"
{
    grep -hoE '[A-Za-z_][A-Za-z0-9_]*' crates.txt beam_run .ci/run docs/*.json | sort -u
    cat "$work/exceptions"
    ls crates
} | sed 's|^|- |' >>"$work/names"

# What the documents say: a line each of `link`, `file` or `name`, with its place. Blocks of cases and of commands
# go into files of their own.
read_documents() {
    awk -v work="$work" '
    function say(kind, what) { printf "%s\t%s:%d\t%s\n", kind, FILENAME, FNR, what }
    # Paths below a folder of the repository, wherever they stand.
    function say_paths(text,    path, before) {
        while (match(text, /(crates|docs|tests|bench|examples)\/[A-Za-z0-9_.\/-]*/)) {
            before = substr(text, RSTART - 1, 1); path = substr(text, RSTART, RLENGTH); text = substr(text, RSTART + RLENGTH)
            sub(/[.]+$/, "", path)
            if (before !~ /[A-Za-z0-9_.\/-]/ && text !~ /^[*{]/ && path !~ /NAME/) say("file", path)
        }
    }
    # A word in code style: a path, or names with :: between them.
    function say_word(word) {
        if (word ~ /[*{<>"=\\]/ || word ~ /NAME|CRATE|FILE|\.\./) return
        if (word ~ /^[A-Za-z0-9_.\/-]+\/$/ || word ~ /^[A-Za-z0-9_.\/-]*[A-Za-z0-9_-]+\.(md|rt|antt|rs|sh|py|json|jsonl|txt|tsv|csv|cases|awk|jq|edit|log)$/) { say("file", word); return }
        sub(/\(.*\)$/, "", word)
        if (word ~ /^[A-Za-z_][A-Za-z0-9_]*(::[A-Za-z_][A-Za-z0-9_]*)*$/) say("name", word)
    }
    function say_code(code,    words, n, i) {
        n = split(code, words, /[ ,;]+/)
        if (n == 1) say_word(words[1])
        else for (i = 1; i <= n; i++) if (words[i] ~ /_|::/) say_word(words[i])
    }
    # `NAME` in `PATH`, `NAME` (`PATH`), and names before that with "and" between them.
    function say_within(parts, n,    i, j, waiting) {
        waiting = 0
        for (i = 2; i <= n; i += 2) {
            if (waiting && parts[i - 1] ~ /^( in | \()$/ && parts[i] ~ /\//) {
                for (j = 1; j <= waiting; j++) say("within", names_before[j] " " parts[i])
                waiting = 0
            } else if (parts[i] ~ /^[A-Za-z_][A-Za-z0-9_]*(::[A-Za-z_][A-Za-z0-9_]*)*$/) {
                if (parts[i - 1] != " and ") waiting = 0
                names_before[++waiting] = parts[i]
                sub(/.*::/, "", names_before[waiting])
            } else waiting = 0
        }
    }
    function end_shown() { if (shown) close(work "/shown/" shown ".out"); shown = 0 }
    function in_block(line) {
        say_paths(line)
        if (line ~ /^\$ /) {
            end_shown()
            if (line ~ /^\$ \.\/beam_run /) {
                shown = ++count
                printf "%d\t%s:%d\t%s\n", shown, FILENAME, FNR, substr(line, 14) >(work "/commands")
                printf "" >(work "/shown/" shown ".out")
            }
        } else if (shown) print line >(work "/shown/" shown ".out")
    }
    function start(file) { code = 0; fence = 0; cases = 0; block = 0; blank = 1; end_shown() }
    FNR == 1 { if (code) printf "say\t%s: a code span is not closed\n", last; start() ; text = "" }
    { last = FILENAME ":" FNR }
    length > 160 && !cases { printf "say\t%s: a line of %d characters, more than 160\n", last, length }
    # Fences.
    /^ *```/ {
        if (fence) { fence = 0; cases = 0; end_shown() }
        else {
            fence = 1
            if ($1 == "```case") { cases = 1; printf "%s:%d\t%s\t%d\n", FILENAME, FNR, $2, ++blocks >(work "/blocks") }
        }
        blank = 0; block = 0; next
    }
    fence { if (cases) print >(work "/block." blocks); else in_block($0); next }
    /^[ \t]*$/ { end_shown(); if (code) { printf "say\t%s:%d: a code span is not closed\n", FILENAME, FNR; code = 0 } blank = 1; next }
    /^    / && (blank || block) { block = 1; blank = 0; sub(/^    /, ""); in_block($0); next }
    {
        block = 0; blank = 0; end_shown()
        say_paths($0)
        line = $0
        while (match(line, /\]\([^)]*\)/)) {
            target = substr(line, RSTART + 2, RLENGTH - 3); line = substr(line, RSTART + RLENGTH)
            if (target !~ /^[a-z]+:/) say("link", target)
        }
        n = split($0, parts, "`")
        for (i = 1; i <= n; i++) {
            if (code) text = text (i == 1 ? " " : "") parts[i]
            if (i < n) { if (code) { say_code(text); code = 0 } else { code = 1; text = "" } }
        }
        say_within(parts, n)
    }' "${documents[@]}" >"$work/said"
}

# Looks up what was said.
look_up() {
    awk -F'\t' -v files="$work/files" -v names="$work/names" -v exceptions="$work/exceptions" '
    function is_excepted(path,    name) {
        for (name in within_folder) if (index("/" path, "/" name)) return 1
        return 0
    }
    function folder(path) { return path ~ /\// ? substr(path, 1, match(path, /\/[^\/]*$/) - 1) : "" }
    # The path without ".." and "."
    function plain(path,    parts, kept, n, i, m) {
        n = split(path, parts, "/"); m = 0; kept = ""
        for (i = 1; i <= n; i++) {
            if (parts[i] == "" || parts[i] == ".") continue
            if (parts[i] == "..") { if (m > 0) m--; continue }
            stack[++m] = parts[i]
        }
        for (i = 1; i <= m; i++) kept = kept (i > 1 ? "/" : "") stack[i]
        return kept
    }
    BEGIN {
        while ((getline line <files) > 0) {
            there[line] = 1
            end = line
            while (1) { ends[end] = 1; full[end] = line; at = index(end, "/"); if (!at) break; end = substr(end, at + 1) }
        }
        while ((getline line <exceptions) > 0) if (line ~ /\/$/) within_folder[line] = 1; else ends[line] = 1
        while ((getline line <names) > 0) { split(line, pair, " "); known[pair[2]] = 1; within[pair[1], pair[2]] = 1; crate[pair[1]] = 1 }
    }
    $1 == "say" { print $2; next }
    { place = $2; doc = place; sub(/:[0-9]*$/, "", doc) }
    $1 == "link" {
        target = $3; anchor = ""
        if ((at = index(target, "#")) > 0) { anchor = substr(target, at + 1); target = substr(target, 1, at - 1) }
        path = target == "" ? doc : plain(folder(doc) "/" target)
        if (!(path in there)) print place ": the link " $3 " leads nowhere"
        else if (anchor != "") print "anchor\t" place "\t" path "\t" anchor
    }
    $1 == "file" {
        path = $3
        if (path in ends || is_excepted(path)) next
        sub(/\/$/, "", path)
        if (!(path in ends) && !(plain(folder(doc) "/" path) in there)) print place ": there is no file " $3
    }
    $1 == "within" {
        split($3, pair, " ")
        path = pair[2]; sub(/\/$/, "", path)
        if (path in there) at = path; else if (("crates/" path) in there) at = "crates/" path; else at = (path in full) ? full[path] : ""
        if (at != "") print "within\t" place "\t" pair[1] "\t" at
    }
    $1 == "name" {
        n = split($3, parts, "::")
        for (i = 1; i <= n; i++) {
            word = parts[i]
            if (n == 1 && word !~ /_/ && word !~ /^[A-Z]/) continue
            if (n > 1 && i > 1 && (parts[1] in crate)) { if (!((parts[1], word) in within)) print place ": the crate " parts[1] " has no name " word }
            else if (!(word in known)) print place ": nothing in the repository has the name " word
        }
    }' "$work/said" >"$work/looked_up"
    grep -vE '^(anchor|within)' "$work/looked_up"
    grep '^within' "$work/looked_up" | while IFS=$'\t' read -r _ place name path; do
        grep -rqw -- "$name" "$path" || echo "$place: $path has no name $name"
    done
    grep '^anchor' "$work/looked_up" | while IFS=$'\t' read -r _ place path anchor; do
        sed -n 's/^##* *//p' "$path" | tr 'A-Z ' 'a-z-' | tr -cd 'a-z0-9_\n-' | grep -qxF -- "$anchor" ||
            echo "$place: $path has no heading $anchor"
    done
} >>"$work/failures"

# Whether the lines of a file stand one after another in another.
stands_in() {
    awk 'NR == FNR { wanted[n++] = $0; next } { have[m++] = $0 }
        END { for (i = 0; i + n <= m; i++) { for (j = 0; j < n && have[i + j] == wanted[j]; j++); if (j == n) exit 0 } exit 1 }' "$1" "$2"
}

check_blocks() {
    [ -f "$work/blocks" ] || return
    while IFS=$'\t' read -r place file number; do
        data=$(find crates/*_cases/data -name "$file")
        if [ ! -f "$data" ]; then
            echo "$place: no program of cases has the file $file"
        elif [ ! -s "$work/block.$number" ] || ! stands_in "$work/block.$number" "$data"; then
            echo "$place: this is no case of $data"
        fi
    done <"$work/blocks"
} >>"$work/failures"

# Each case of the command: its words, its files, and what it writes.
read_cases() {
    local line number=0
    while IFS= read -r line; do
        case $line in
            command|command\ *) number=$((number + 1)); printf '%s\n' "${line#command}" | sed 's/^ //' >"$work/cases/$number.words"; : >"$work/cases/$number.out" ;;
            out\ *) printf '%b' "${line#out }" >>"$work/cases/$number.out" ;;
            note\ *) printf '%b' "${line#note }" >>"$work/cases/$number.out" ;;
            file\ *) printf '%s\n' "${line#file }" >>"$work/cases/$number.files" ;;
        esac
    done <"$commands"
    count=$number
}

# Whether a file begins with the lines that are shown, or is them. The last line `..` leaves the rest out.
is_as_shown() {
    if [ "$(tail -n 1 "$1")" = .. ]; then
        sed '$d' "$1" >"$work/front"
        cmp -s "$work/front" <(head -n "$(wc -l <"$work/front")" "$2")
    else
        cmp -s "$1" "$2"
    fi
}

# The files of a case that are in the repository are those. Spaces between the words of a plan don't count.
has_its_files() {
    [ -f "$work/cases/$1.files" ] || return 0
    local line name
    while IFS= read -r line; do
        name=${line%%\" \"*}
        name=${name#\"}
        [ -f "$name" ] || continue
        line=${line#*\" \"}
        printf '%b' "$(sed 's/\\\\/\\x5c/g; s/\\"/\\x22/g' <<<"${line%\"}")" >"$work/told"
        case $name in
            *.json) cmp -s <(tr -d ' \n' <"$work/told") <(tr -d ' \n' <"$name") ;;
            *) cmp -s "$work/told" "$name" ;;
        esac || { echo "$name"; return 1; }
    done <"$work/cases/$1.files"
}

check_command() {
    local number=$1 place=$2 words=$3 found='' other at
    [ -s "$work/shown/$number.out" ] || return
    for ((at = 1; at <= count; at++)); do
        [ "$(cat "$work/cases/$at.words")" = "$words" ] || continue
        found=$at
        if is_as_shown "$work/shown/$number.out" "$work/cases/$at.out"; then
            other=$(has_its_files "$at") || echo "$place: the case of ./beam_run $words has another $other"
            return
        fi
    done
    if [ -z "$found" ]; then
        echo "$place: no case of $commands is ./beam_run $words"
    else
        echo "$place: ./beam_run $words has another output in $commands"
    fi
}

check_commands() {
    [ -f "$work/commands" ] || return
    while IFS=$'\t' read -r number place words; do
        [[ $only_run == *" ${place%:*} "* ]] || check_command "$number" "$place" "$words"
    done <"$work/commands"
} >>"$work/failures"

# Each command that is shown, and the plans of the examples.
run_all() {
    [ "${#programs[@]}" -gt 0 ] || return 0
    python3 tests/sessions.py "${programs[@]}" >"$work/ran"
    sed -n '$p; /^sessions: not run/p' "$work/ran" | sort -u >&3
    sed '$d; /^sessions: not run/d' "$work/ran"
    BEAM_RUN=${programs[0]} tests/plans.sh examples >"$work/ran" || cat "$work/ran"
} >"$work/failures.ran"

# What an example of examples/ is said to print is what some case says of its plan, and each case that says so has
# the example's files.
check_example() {
    local at other found=''
    for ((at = 1; at <= count; at++)); do
        if [[ " $(cat "$work/cases/$at.words") " == *" $2 "* ]] && cmp -s "$1" "$work/cases/$at.out"; then
            found=$at
            other=$(has_its_files "$at") || { echo "$1:1: a case of $2 that writes this has another $other"; return; }
        fi
    done
    [ -n "$found" ] || echo "$1:1: no case of $commands with $2 writes this"
}

check_examples() {
    local output
    for output in examples/*/output.txt examples/state/*/output.txt examples/replay/*/output.txt; do
        check_example "$output" "${output%output.txt}plan.json"
    done
    check_example examples/visits.panes.txt examples/visits.tsv
    check_example examples/lag/short.txt examples/lag/short.json
    for output in examples/*/options examples/state/*/options; do
        [ "$(wc -l <"$output")" -gt 1 ] || grep -qF "run ${output%options}plan.json $(cat "$output")\`" examples/README.md ||
            echo "$output:1: examples/README.md doesn't show these options"
    done
} >>"$work/failures"

read_documents
look_up
check_blocks
read_cases
check_commands
check_examples
run_all 3>&1

if [ -s "$work/failures" ] || [ -s "$work/failures.ran" ]; then
    sort -t: -k1,1 -k2,2n "$work/failures" | uniq
    cat "$work/failures.ran"
    exit 1
fi
lines() { cat "$@" 2>/dev/null | wc -l; }
echo "docs: ${#documents[@]} documents, $(lines "$work/said") links, files and names, $(lines "$work/blocks") blocks of cases, $(lines "$work/commands") commands"
