#!/bin/sh
# How the time of a compile grows with a sheet in lines: ratios of a sheet four times as long, in each of some shapes.
# Usage: lines.sh PROGRAM
set -eu
program=$1
folder=$(mktemp -d)
trap 'rm -rf "$folder"' EXIT

# A sheet of a shape, with so many of what it is made of.
sheet() {
    awk -v shape="$1" -v count="$2" 'BEGIN {
        if (shape == "lines of a comment") print "/*"
        if (shape == "blank lines in a comment") print "/*"
        if (shape == "lines in brackets") print "$a: (b,"
        for (i = 0; i < count; i++) {
            if (shape == "rules") printf "a%d\n  b: c\n", i
            if (shape == "blocks") printf "a\n b\n  c\n   d: e\n  f: g\n"
            if (shape == "comments") print "/* a */"
            if (shape == "comments without an end") print "/* a\n  b\n\n"
            if (shape == "silent comments") print "// a\n  b\n"
            if (shape == "comments in statements") print "$a: b /* c\n  d */ e"
            if (shape == "lines of a comment") print "  a"
            if (shape == "blank lines in a comment") print ""
            if (shape == "lines of a selector") print "a,"
            if (shape == "lines in brackets") print "b,"
            if (shape == "strings") print "$a: \"b#{c}d\""
        }
        if (shape == "blank lines in a comment") print "  a"
        if (shape == "lines of a selector") print "b\n  c: d"
        if (shape == "lines in brackets") print "c)"
    }' > "$folder/sheet"
    size=$(wc -c < "$folder/sheet")
    { printf 'put a.sass %d\n' "$size"; cat "$folder/sheet"; printf '\ncompile a.sass\nend\n'; } > "$folder/script"
}

# Microseconds of the fastest of five runs.
timed() {
    best=
    for _ in 1 2 3 4 5; do
        from=$(date +%s%N)
        "$program" session < "$folder/script" > /dev/null
        took=$(( ($(date +%s%N) - from) / 1000 ))
        if [ -z "$best" ] || [ "$took" -lt "$best" ]; then best=$took; fi
    done
    echo "$best"
}

for shape in rules blocks comments 'comments without an end' 'silent comments' 'comments in statements' \
    'lines of a comment' 'blank lines in a comment' 'lines of a selector' 'lines in brackets' strings; do
    sheet "$shape" 10000; short=$(timed)
    sheet "$shape" 40000; long=$(timed)
    awk -v a="$short" -v b="$long" -v shape="$shape" 'BEGIN { printf "%s: 10,000 %.1f ms, 40,000 %.1f ms, ratio %.2f\n", shape, a / 1000, b / 1000, b / a }'
done
