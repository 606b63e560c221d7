#!/usr/bin/env bash
# The jobs of run.py with Miller: miller.sh JOB FILE
set -euo pipefail
job=$1 file=$2
in=(mlr --inidx --ifs tab --onidx --ofs tab)
minutes='$w = $1 - $1 % 60000; $a = strlen($2); $b = strlen($3)'
join=(then sort -nf w,a -f 2 -nf b -f 3 then cut -x -f 1,a,b then nest --implode --values --across-records -f 3 --nested-fs '","'
    then put '$e = $w + 60000; $o = "ON_TIME"; $z = 0; $p = "(\"" . $2 . "\",[\"" . $3 . "\"])"' then cut -o -f w,e,o,z,p)

case $job in
    panes) "${in[@]}" put "$minutes" "${join[@]}" "$file" ;;
    keep) "${in[@]}" filter '$2 =~ "^keep"' then put "$minutes" "${join[@]}" "$file" ;;
    sums)
        "${in[@]}" put '$w = $1 - $1 % 60000' then stats1 -a sum -f 3 -g w,2 \
            then put '$a = strlen($2); $e = $w + 60000; $o = "ON_TIME"; $z = 0; $p = "(\"" . $2 . "\"," . ${3_sum} . ")"' \
            then sort -nf w,a -f 2 then cut -o -f w,e,o,z,p "$file" ;;
    sessions)
        "${in[@]}" sort -f 2 -nf 1 then put -q '
            subr show() {
                if (is_present(@key)) {
                    map pane = {"w": @first, "e": @last + 10000, "o": "ON_TIME", "z": 0, "p": "(\"" . @key . "\"," . @count . ")"};
                    pane["a"] = strlen(@key);
                    pane["k"] = @key;
                    emit pane;
                }
            }
            if (is_absent(@key) || $2 != @key || $1 >= @last + 10000) { call show(); @key = $2; @first = $1; @count = 0 }
            @last = $1; @count += 1;
            end { call show() }' \
            then sort -nf w,e,a -f k then cut -o -f w,e,o,z,p "$file" ;;
    words)
        mlr --inidx --ifs newline --onidx --ofs tab put -q '
            for (word in splitax(gsub($1, "[^A-Za-z0-9]+", " "), " ")) { if (word != "") { @count[word] += 1 } }
            end { emit @count, "word" }' \
            then put '$a = strlen($word); $w = "-9223372036854775"; $e = "9223372036854776"; $o = "ON_TIME"; $z = 0;
                $p = "(\"" . $word . "\"," . $count . ")"' \
            then sort -nf a -f word then cut -o -f w,e,o,z,p "$file" ;;
esac
