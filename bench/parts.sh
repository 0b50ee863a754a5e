#!/bin/sh
# How the time of a list and of a map grows with their parts, which are put in one at a time: ratios of twice as many.
# Usage: parts.sh PROGRAM, where that is the built sw_bench_growth
set -eu
program=$1

# Milliseconds of the fastest of five runs over one line.
timed() {
    best=
    for _ in 1 2 3 4 5; do
        from=$(date +%s%N)
        echo "$1" | "$program" > /dev/null
        took=$(( ($(date +%s%N) - from) / 1000 ))
        if [ -z "$best" ] || [ "$took" -lt "$best" ]; then best=$took; fi
    done
    echo "$best"
}

compared() {
    some=$(timed "$1 $2"); twice=$(timed "$1 $3")
    awk -v kind="$1" -v n="$2" -v m="$3" -v a="$some" -v b="$twice" \
        'BEGIN { printf "%s: %d parts %.1f ms, %d parts %.1f ms, ratio %.2f\n", kind, n, a / 1000, m, b / 1000, b / a }'
}

compared list 50000 100000
compared map 25000 50000
