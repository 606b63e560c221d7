#!/usr/bin/env bash
# The jobs of run.py with an awk and sort: awk.sh AWK JOB FILE. Times are positive and below 10000000000000, lengths below 10000.
set -euo pipefail
export LC_ALL=C
awk=$1 job=$2 file=$3

# Window, key's length, key, part's length, part: so that the order of whole lines is the one that is wanted.
keys='{ printf "%013.0f\t%04d\t%s\t%04d\t%s\n", $1 - $1 % 60000, length($2), $2, length($3), $3 }'
join='
    $1 != start || $3 != key {
        if (NR > 1) printf "\"])\n"
        start = $1; key = $3
        printf "%.0f\t%.0f\tON_TIME\t0\t(\"%s\",[\"%s", start, start + 60000, key, $5
        next
    }
    { printf "\",\"%s", $5 }
    END { if (NR) printf "\"])\n" }'

case $job in
    panes) "$awk" -F'\t' "$keys" "$file" | sort | "$awk" -F'\t' "$join" ;;
    keep) "$awk" -F'\t' "\$2 ~ /^keep/ $keys" "$file" | sort | "$awk" -F'\t' "$join" ;;
    sums)
        "$awk" -F'\t' '
            { sum[sprintf("%013.0f\t%04d\t%s", $1 - $1 % 60000, length($2), $2)] += $3 }
            END { for (cell in sum) printf "%s\t%.0f\n", cell, sum[cell] }' "$file" | sort |
            "$awk" -F'\t' '{ printf "%.0f\t%.0f\tON_TIME\t0\t(\"%s\",%s)\n", $1, $1 + 60000, $3, $4 }' ;;
    sessions)
        sort -t "$(printf '\t')" -k 2,2 -k 1,1 "$file" | "$awk" -F'\t' '
            function show() { if (count) printf "%013.0f\t%013.0f\t%04d\t%s\t%d\n", first, last + 10000, length(key), key, count }
            $2 != key || $1 >= last + 10000 { show(); key = $2; first = $1; count = 0 }
            { last = $1; count++ }
            END { show() }' | sort | "$awk" -F'\t' '{ printf "%.0f\t%.0f\tON_TIME\t0\t(\"%s\",%s)\n", $1, $2, $4, $5 }' ;;
    words)
        "$awk" 'BEGIN { RS = "[^A-Za-z0-9]+" }
            $0 != "" { count[$0]++ }
            END { for (word in count) printf "%04d\t%s\t%d\n", length(word), word, count[word] }' "$file" | sort |
            "$awk" -F'\t' '{ printf "-9223372036854775\t9223372036854776\tON_TIME\t0\t(\"%s\",%s)\n", $2, $3 }' ;;
esac
