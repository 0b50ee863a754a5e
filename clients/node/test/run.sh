#!/bin/sh
# Runs the tests of the package over the real program: what SASSW names, else `sassw` of the PATH, else what a passed gate leaves. What the
# tests need beside Node is installed where this may be done (by apt, as root). Each test that is left out is named, with what is missing.
# The status is the tests'; it is 2 where the program or Node is missing.
# Usage: run.sh [TEST-FILE..]
set -u
cd "$(dirname "$0")/.." || exit 2

# Which of these programs aren't on the PATH.
absent() {
    for name; do
        command -v "$name" > /dev/null || echo "$name"
    done
}

# The Debian package that has a program.
package_of() {
    case $1 in
        bazel) echo bazel-bootstrap ;;
        node) echo nodejs ;;
        inotifywait) echo inotify-tools ;;
        *) echo "$1" ;;
    esac
}

install_absent() {
    packages=$(for name in $(absent "$@"); do package_of "$name"; done)
    [ -n "$packages" ] || return 0
    if [ "$(id -u)" != 0 ] || [ -n "$(absent apt-get)" ]; then
        echo "not installed, since only root may do that, by apt-get: $(echo "$packages" | paste -s -d " " -)"
        return
    fi
    log=$(mktemp) || return
    export DEBIAN_FRONTEND=noninteractive
    # One by one, so that a package that can't be had keeps no other one away.
    for package in $packages; do
        apt-get install -y --no-install-recommends "$package" > "$log" 2>&1 || {
            apt-get update > /dev/null 2>&1
            apt-get install -y --no-install-recommends "$package" > "$log" 2>&1
        } || { echo "$package can't be installed:" && tail -n 3 "$log"; }
    done
    rm -f "$log"
}

install_absent node bash make git inotifywait bazel rollup chromium

if [ -n "$(absent node)" ]; then
    echo "the tests can't run without node" >&2
    exit 2
fi
built=$PWD/../../crates/sassw/out/sassw
program=${SASSW:-$(command -v sassw || echo "$built")}
if [ ! -x "$program" ]; then
    echo "the tests can't run without the program: there is no $program" >&2
    exit 2
fi
SASSW=$(realpath "$program")
export SASSW
echo "the program is $SASSW"

[ $# -gt 0 ] || set -- test/*.test.js
lines=$(mktemp) || exit 2
trap 'rm -f "$lines"' EXIT
{
    node --test --test-reporter=tap "$@"
    echo "status $?"
} | tee "$lines"
echo
sed -n 's/^ *ok [0-9]* - \(.*\) # SKIP/left out: \1:/p' "$lines"
exit "$(sed -n '$s/^status //p' "$lines")"
