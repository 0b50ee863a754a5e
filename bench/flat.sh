#!/bin/sh
# Whether a session grows by what it did: `hosted` compiles one sheet again and again, which asks the program's own function `count` each
# time, so that its body runs in each request. The most memory that the process has had is read after the first thousand requests and
# after the last one. Stops with 1 where the second is more than a hundredth over the first.
# Usage: flat.sh PROGRAM [REQUESTS], with up to 1,000,000 requests, the put among them
set -eu
exec python3 - "$1" "${2:-1000000}" <<'END'
import subprocess
import sys
import threading

PROGRAM, REQUESTS = sys.argv[1], int(sys.argv[2])
SHEET = b"a {\n  b: count();\n}\n"
FIRST = 1000


def most(process):
    """The most memory that the process has had, in kB."""
    with open(f"/proc/{process.pid}/status") as lines:
        return next(int(line.split()[1]) for line in lines if line.startswith("VmHWM"))


def ask(process, count):
    """Sends so many requests, while the replies are read."""
    block = b"compile a.scss\n" * 1000
    for _ in range(count // 1000):
        process.stdin.write(block)
    process.stdin.write(b"compile a.scss\n" * (count % 1000))
    process.stdin.flush()


def answers(process, count):
    """Reads so many replies, and stops where one doesn't say that the body ran."""
    for _ in range(count):
        ran = process.stdout.readline()
        assert ran.startswith(b"ran a.scss "), ran
        word, length = process.stdout.readline().split()
        assert word == b"css", word
        process.stdout.read(int(length) + 1)


def turn(process, count):
    asking = threading.Thread(target=ask, args=(process, count))
    asking.start()
    answers(process, count)
    asking.join()


process = subprocess.Popen([PROGRAM, "hosted"], stdin=subprocess.PIPE, stdout=subprocess.PIPE)
process.stdin.write(b"put a.scss %d\n%s\n" % (len(SHEET), SHEET))
process.stdin.flush()
assert process.stdout.readline() == b"ok\n"
turn(process, FIRST - 1)
first = most(process)
turn(process, REQUESTS - FIRST)
last = most(process)
process.stdin.write(b"end\n")
process.stdin.close()
assert process.wait() == 0
print(f"{FIRST} requests: {first} kB; {REQUESTS} requests: {last} kB; ratio {last / first:.3f}")
sys.exit(last > 1.01 * first)
END
