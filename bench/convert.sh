#!/bin/sh
# What a conversion takes beside reading the same sheet, and how it grows with a sheet four times as long; and whether sheets that are
# handed in come back: the lines of a sheet, written with braces and in lines again, are the same, and so is the CSS of both but for
# white space.
# Usage: convert.sh PROGRAM [SHEET..], each SHEET with the end .scss or .sass
set -eu
program=$1
shift
folder=$(mktemp -d)
trap 'rm -rf "$folder"' EXIT

rules() {
    case $1 in
    scss) awk -v n="$2" 'BEGIN { for (i = 0; i < n; i++) printf "a%d { b: c; }\n", i }' ;;
    sass) awk -v n="$2" 'BEGIN { for (i = 0; i < n; i++) printf "a%d\n  b: c\n", i }' ;;
    esac
}

# Microseconds of the fastest of five conversions of a file.
timed() {
    best=
    for _ in 1 2 3 4 5; do
        from=$(date +%s%N)
        "$program" convert "$1" "$2" < "$3" > /dev/null || true
        took=$(( ($(date +%s%N) - from) / 1000 ))
        if [ -z "$best" ] || [ "$took" -lt "$best" ]; then best=$took; fi
    done
    echo "$best"
}

# A sheet with a fault at its end is read and not written.
compared() {
    rules "$1" 15000 > "$folder/short"
    rules "$1" 60000 > "$folder/long"
    { cat "$folder/long"; if [ "$1" = scss ]; then echo '}'; else echo '$'; fi; } > "$folder/faulty"
    short=$(timed "$1" "$2" "$folder/short")
    long=$(timed "$1" "$2" "$folder/long")
    read=$(timed "$1" "$2" "$folder/faulty")
    awk -v from="$1" -v to="$2" -v a="$short" -v b="$long" -v c="$read" \
        'BEGIN { printf "%s to %s: 15000 rules %.1f ms, 60000 %.1f ms, ratio %.2f; read %.1f ms, ratio %.2f\n", from, to, a / 1000, b / 1000, b / a, c / 1000, b / c }'
}

# The CSS of a sheet by itself, with one space for each run of white space.
css() {
    rm -rf "$folder/sheets"
    mkdir "$folder/sheets"
    cp "$1" "$folder/sheets/main.$2"
    "$program" once "$folder/sheets" "main.$2" 2> /dev/null | tr -s '[:space:]' ' '
}

returned() {
    syntax=${1##*.}
    if ! "$program" convert "$syntax" sass < "$1" > "$folder/lines.sass"; then
        echo "$1: $(head -n 1 "$folder/lines.sass")"
        return
    fi
    "$program" convert sass scss < "$folder/lines.sass" > "$folder/braces.scss"
    "$program" convert scss sass < "$folder/braces.scss" > "$folder/again.sass"
    css "$1" "$syntax" > "$folder/css"
    css "$folder/lines.sass" sass > "$folder/css-of-lines"
    css "$folder/braces.scss" scss > "$folder/css-of-braces"
    if ! cmp -s "$folder/lines.sass" "$folder/again.sass"; then echo "$1: other lines come back"
    elif ! cmp -s "$folder/css" "$folder/css-of-lines"; then echo "$1: its lines give other CSS"
    elif ! cmp -s "$folder/css" "$folder/css-of-braces"; then echo "$1: other CSS comes back"
    else echo "$1: comes back, $(wc -c < "$folder/css") bytes of CSS"
    fi
}

compared scss sass
compared scss scss
compared sass scss
for sheet in "$@"; do returned "$sheet"; done
