#!/bin/sh
# How the time of a compile grows with the turns of a loop: ratios of four times as many turns, in 256 MiB of memory.
# Usage: loops.sh PROGRAM
set -eu
program=$1
folder=$(mktemp -d)
trap 'rm -rf "$folder"' EXIT

# A session over the sheet on standard input.
script() {
    cat > "$folder/sheet"
    size=$(wc -c < "$folder/sheet")
    { printf 'put a.scss %d\n' "$size"; cat "$folder/sheet"; printf '\ncompile a.scss\nend\n'; } > "$folder/script"
}

# Milliseconds of the fastest of three runs.
timed() {
    best=
    for _ in 1 2 3; do
        from=$(date +%s%N)
        (ulimit -v 262144; "$program" session < "$folder/script" > "$folder/reply")
        took=$(( ($(date +%s%N) - from) / 1000 ))
        grep -q '^css ' "$folder/reply" || { echo "loops.sh: no CSS" >&2; cat "$folder/reply" >&2; exit 1; }
        if [ -z "$best" ] || [ "$took" -lt "$best" ]; then best=$took; fi
    done
    echo "$best"
}

sum() {
    echo "\$i: 0; \$sum: 0; @while \$i < $1 { \$sum: \$sum + \$i; \$i: \$i + 1; } a { b: \$sum; }"
}

calls() {
    echo "@function next(\$x) { @return \$x + 1; } \$i: 0; @while \$i < $1 { \$i: next(\$i); } a { b: \$i; }"
}

items() {
    awk -v items="$1" 'BEGIN { printf "$sum: 0; @each $x in 1"; for (i = 2; i <= items; i++) printf ", %d", i % 10; print " { $sum: $sum + $x; } a { b: $sum; }" }'
}

told() {
    "$1" "$2" | script; short=$(timed)
    "$1" "$3" | script; long=$(timed)
    awk -v a="$short" -v b="$long" -v what="$4" -v m="$2" -v n="$3" 'BEGIN { printf "%s: %d turns %.1f ms, %d turns %.1f ms, ratio %.2f\n", what, m, a / 1000, n, b / 1000, b / a }'
}

told sum 249000 996000 "@while with a sum"
told calls 120000 480000 "@while with a call"
told items 25000 100000 "@each over a list"
