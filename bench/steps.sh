#!/bin/sh
# What many compiles by steps take: over a folder of 400 modules that one entry loads a thousand compiles are started, and each goes on by one
# step and then by another, so that all are under way with a body open. It prints the memory that the program took at most, the time of a start
# and of a step, and how one compile of them that goes on to its end compares with a session's compile of the same folder.
# Usage: steps.sh PROGRAM
set -eu
exec python3 - "$1" <<'PY'
import os
import subprocess
import sys
import time

PROGRAM = os.path.abspath(sys.argv[1])
MODULES = 400
COMPILES = 1000


def put(path, text):
    return f"put {path} {len(text)}\n{text}\n".encode()


def folder():
    """A library, modules that each declare twenty variables and a rule, and an entry that uses them all."""
    yield put("lib.scss", "$n: 1;")
    for k in range(MODULES):
        variables = "".join(f"$v{i}: {i}; " for i in range(20))
        yield put(f"m{k}.scss", f'@use "lib"; {variables}.m{k} {{ n: lib.$n; }}')
    uses = "".join(f'@use "m{k}"; ' for k in range(MODULES))
    yield put("main.scss", uses + ".main { n: 1; }")


class Program:
    def __init__(self, word):
        self.process = subprocess.Popen([PROGRAM, word], stdin=subprocess.PIPE, stdout=subprocess.PIPE)

    def ask(self, request):
        """The last line of the reply, and all bytes of CSS behind it."""
        self.process.stdin.write(request)
        self.process.stdin.flush()
        while (line := self.process.stdout.readline()).startswith((b"times ", b"ran ")):
            pass
        if line.startswith(b"css "):
            return self.process.stdout.read(int(line[4:]) + 1)
        return line

    def kilobytes(self):
        with open(f"/proc/{self.process.pid}/status") as status:
            return next(int(line.split()[1]) for line in status if line.startswith("VmHWM"))

    def end(self):
        self.process.communicate(b"end\n")
        assert self.process.returncode == 0


def timed(run, *requests):
    begin = time.perf_counter()
    replies = [run(request) for request in requests]
    return (time.perf_counter() - begin) / len(requests), replies


steps = Program("steps")
for request in folder():
    assert steps.ask(request) == b"ok\n"
alone = steps.kilobytes()
start, replies = timed(steps.ask, *[b"start main.scss\n"] * COMPILES)
assert replies[-1] == b"started %d\n" % (COMPILES - 1)
first, replies = timed(steps.ask, *[b"step %d\n" % n for n in range(COMPILES)])
assert set(replies) == {b"loading main.scss m0.scss\n"}
second, replies = timed(steps.ask, *[b"step %d\n" % n for n in range(COMPILES)])
assert set(replies) == {b"loading m0.scss lib.scss\n"}
whole = steps.kilobytes()
print(f"{COMPILES} compiles of {MODULES} modules under way: {whole // 1024} MiB at most, {alone // 1024} MiB before the first start")
print(f"a start {start * 1e6:.0f} us, a first step {first * 1e6:.0f} us, a second step {second * 1e6:.0f} us")

begin = time.perf_counter()
count = 2
while not (reply := steps.ask(b"step 0\n")).startswith(b".m0"):
    count += 1
by_steps = time.perf_counter() - begin
steps.end()
session = Program("session")
for request in folder():
    assert session.ask(request) == b"ok\n"
at_once, replies = timed(session.ask, b"compile main.scss\n")
session.end()
assert replies[0] == reply
print(f"a compile by {count + 1} steps {by_steps * 1e3:.1f} ms, at once {at_once * 1e3:.1f} ms")
PY
