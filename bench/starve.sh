#!/bin/sh
# Memory that lacks once, at each place of a compile: a small design system is put into a session, and its compile finds no memory at the Nth
# time that it asks for some, for N = 1, 2 and so on, until one asks less often. Each such compile is to be refused with the line `memory`, and
# the same request behind it to give the CSS with all bodies run `first`, as if nothing had been asked before. Where the memory that lacks is
# wanted outside the compile, for the request's line or a buffer of replies, the session ends with status 6 and no other line.
# A library that is loaded before the C library's (built with cc, which has to be there) counts malloc, calloc and realloc from a signal on.
# Usage: starve.sh PROGRAM [FIRST [LAST]]
set -eu
exec python3 - "$@" <<'PY'
import collections
import os
import signal
import subprocess
import sys
import tempfile

COUNTER = r"""
#define _GNU_SOURCE
#include <dlfcn.h>
#include <signal.h>
#include <stdlib.h>
#include <unistd.h>

static volatile long left; /* calls until the one that fails; 0 where none is to fail */

static void begin(int number) { left = atol(getenv("FAILING_CALL")); }

__attribute__((constructor)) static void install(void) {
    struct sigaction action = {.sa_handler = begin, .sa_flags = SA_RESTART};
    sigaction(SIGUSR1, &action, NULL);
}

static int fails(void) {
    if (left == 0 || --left != 0) return 0;
    return write(2, "!", 1) == 1;
}

void *malloc(size_t size) {
    static void *(*next)(size_t);
    if (!next) next = (void *(*)(size_t))dlsym(RTLD_NEXT, "malloc");
    return fails() ? NULL : next(size);
}

void *realloc(void *old, size_t size) {
    static void *(*next)(void *, size_t);
    if (!next) next = (void *(*)(void *, size_t))dlsym(RTLD_NEXT, "realloc");
    return fails() ? NULL : next(old, size);
}

void *calloc(size_t count, size_t size) {
    static void *(*next)(size_t, size_t);
    if (!next) next = (void *(*)(size_t, size_t))dlsym(RTLD_NEXT, "calloc");
    return fails() ? NULL : next(count, size);
}
"""
FILES = {
    "tokens/_colors.scss": "$brand: #000000 !default;",
    "tokens/_sizes.scss": "$bps: (sm: 576px, md: 768px);",
    "tokens/_index.scss": '@forward "colors"; @forward "sizes";',
    "_tools.scss": '@use "sass:map"; @use "tokens"; @mixin up($n) { @media (min-width: map.get(tokens.$bps, $n)) { @content; } }',
    "_button.scss": '@use "tokens"; @use "tools"; .btn { color: tokens.$brand; @include tools.up(md) { color: lighten(tokens.$brand, 20%); } }',
    "main.scss": '@use "tokens" with ($brand: #336699); @use "button";',
}
CSS = ".btn {\n  color: #336699;\n}\n@media (min-width: 768px) {\n  .btn {\n    color: #6699cc;\n  }\n}\n"
AGAIN = f"css {len(CSS)}\n{CSS}\n".encode()
REPLY = "".join(f"ran {path} first\n" for path in FILES).encode() + AGAIN
REQUEST = b"compile main.scss\n"


def told(program, library, number):
    """How the compile goes whose call with this number finds no memory: memory, ended, or none where it makes fewer calls."""
    words = {**os.environ, "LD_PRELOAD": library, "FAILING_CALL": str(number)}
    with subprocess.Popen(
        [program, "session"], stdin=subprocess.PIPE, stdout=subprocess.PIPE, stderr=subprocess.PIPE, env=words
    ) as process:
        for path, text in FILES.items():
            process.stdin.write(f"put {path} {len(text)}\n{text}\n".encode())
        process.stdin.flush()
        for _ in FILES:
            assert process.stdout.readline() == b"ok\n"
        process.send_signal(signal.SIGUSR1)
        process.stdin.write(REQUEST)
        process.stdin.flush()
        first = process.stdout.readline()
        if first == b"":
            failed, status = process.stderr.read(), process.wait()
            assert (failed, status) == (b"!", 6), (number, failed, status)
            return "ended"
        is_refused = first == b"memory\n"
        process.stdin.write((REQUEST + REQUEST if is_refused else b"") + b"end\n")
        process.stdin.close()
        replies, failed, status = process.stdout.read(), process.stderr.read(), process.wait()
        wanted = REPLY + AGAIN if is_refused else REPLY[len(first) :]
        assert (replies, status) == (wanted, 0), (number, first, replies, failed, status)
        if is_refused:
            assert failed == b"!", (number, failed)
            return "memory"
        return "done" if failed else "none"


def main():
    program = os.path.realpath(sys.argv[1])
    number = int(sys.argv[2]) if len(sys.argv) > 2 else 1
    last = int(sys.argv[3]) if len(sys.argv) > 3 else None
    ends = collections.Counter()
    with tempfile.TemporaryDirectory() as room:
        library = os.path.join(room, "counter.so")
        subprocess.run(["cc", "-shared", "-fPIC", "-O1", "-x", "c", "-", "-o", library, "-ldl"], input=COUNTER.encode(), check=True)
        while last is None or number <= last:
            end = told(program, library, number)
            if end == "none":
                break
            ends[end] += 1
            if end != "memory":
                print(f"call {number}: {'the session ended with status 6' if end == 'ended' else 'the compile was done without it'}")
            number += 1
    print(
        f"{sum(ends.values())} calls for memory failed, one in each session, up to number {number - 1}: {ends['memory']} compiles were refused and"
        f" then done with the right bytes and all bodies first, {ends['ended']} sessions ended with status 6, {ends['done']} compiles were done at once"
    )


main()
PY
