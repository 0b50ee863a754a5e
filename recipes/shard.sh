#!/bin/sh
# One part of a build that is shared out over N machines, such as the jobs of a CI: of the sheets of SRC in byte order this machine builds each
# N-th, from the I-th on, and writes which CSS was made of what. The parts together are the whole, whatever machine has which.
# Usage: shard.sh I N SRC OUT [OPTION..]     for example, as the first of four: shard.sh 1 4 src css --format github
set -eu
if [ $# -lt 4 ]; then
    echo "usage: $0 I N SRC OUT [OPTION..]" >&2
    exit 7
fi
part=$1 parts=$2 src=${3%/} out=$4
shift 4
sheets=$(cd "$src" && find . -type f -name '*.s[ac]ss' ! -name '_*' | LC_ALL=C sort | sed 's|^\./||' | awk -v i="$part" -v n="$parts" 'NR % n == i % n')
[ -n "$sheets" ] || exit 0
# Each line is a word, whatever it has but line breaks.
set -f
IFS='
'
# shellcheck disable=SC2086  # one word a line
exec sassw-build "$src" $sheets --out "$out" --deps "$out/part$part.d" "$@"
