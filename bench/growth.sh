#!/bin/sh
# How the time of a compile grows with the sheet: ratios of one four times as long, in several shapes.
# Usage: growth.sh PROGRAM
set -eu
program=$1
folder=$(mktemp -d)
trap 'rm -rf "$folder"' EXIT

# The sheet of a shape, of so many parts.
sheet() {
    case $1 in
    'rules in many lines') awk -v n="$2" 'BEGIN { for (i = 0; i < n; i++) printf "a%d { b: c; }\n", i }' ;;
    'rules in one line') awk -v n="$2" 'BEGIN { for (i = 0; i < n; i++) printf "a%d { b: c; } ", i }' ;;
    'variables in a block')
        awk -v n="$2" 'BEGIN { print "a {"; for (i = 0; i < n; i++) printf "$v%d: %d;\n", i, i; print "b: $v0; }" }' ;;
    'names of @each')
        awk -v n="$2" 'BEGIN { printf "@each $v0"; for (i = 1; i < n; i++) printf ", $v%d", i
            printf " in ((0"; for (i = 1; i < n; i++) printf ", %d", i; print "),) { a { b: $v0; } }" }' ;;
    ':not(&) under parents')
        awk -v n="$2" 'BEGIN { printf ".a0"; for (i = 1; i < n; i++) printf ", .a%d", i; print " { :not(&) { b: c; } }" }' ;;
    'names of modules as *')
        awk -v n="$2" 'BEGIN { for (i = 0; i < n; i++) printf "@use \"m%d\" as *;\n", i
            print "a {"; for (i = 0; i < n; i++) printf "b: $v%d;\n", i; print "}" }' ;;
    'a list that grows')
        printf '$l: (); @for $i from 1 through %d { $l: append($l, $i); } a { b: length($l); }' "$2" ;;
    'a map that grows')
        printf '$m: (); @for $i from 1 through %d { $m: map-merge($m, ($i: $i)); } a { b: length($m); }' "$2" ;;
    'a text that grows')
        printf '$t: ""; @for $i from 1 through %d { $t: $t + "x"; } a { b: str-length($t); }' "$2" ;;
    esac
}

# The modules that it uses: each has a variable.
modules() {
    case $1 in
    'names of modules as *')
        awk -v n="$2" 'BEGIN { for (i = 0; i < n; i++) {
            text = sprintf("$v%d: %d;", i, i); printf "put m%d.scss %d\n%s\n", i, length(text), text } }' ;;
    esac
}

# A session over one such sheet.
script() {
    sheet "$1" "$2" > "$folder/sheet"
    size=$(wc -c < "$folder/sheet")
    {
        modules "$1" "$2"
        printf 'put a.scss %d\n' "$size"; cat "$folder/sheet"; printf '\ncompile a.scss\nend\n'
    } > "$folder/script"
}

# Milliseconds of the fastest of five runs.
timed() {
    best=
    for _ in 1 2 3 4 5; do
        from=$(date +%s%N)
        "$program" session < "$folder/script" > /dev/null
        took=$(( ($(date +%s%N) - from) / 1000 ))
        if [ -z "$best" ] || [ "$took" -lt "$best" ]; then best=$took; fi
    done
    echo "$best"
}

compared() {
    script "$1" "$2"; short=$(timed)
    script "$1" "$3"; long=$(timed)
    awk -v shape="$1" -v n="$2" -v m="$3" -v a="$short" -v b="$long" \
        'BEGIN { printf "%s: %d %.1f ms, %d %.1f ms, ratio %.2f\n", shape, n, a / 1000, m, b / 1000, b / a }'
}

compared 'rules in many lines' 15000 60000
compared 'rules in one line' 15000 60000
compared 'variables in a block' 10000 40000
compared 'names of @each' 10000 40000
compared ':not(&) under parents' 2500 10000
compared 'names of modules as *' 1000 4000
compared 'a list that grows' 1000 4000
compared 'a map that grows' 500 2000
compared 'a text that grows' 4000 16000
