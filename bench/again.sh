#!/bin/sh
# How long a compile takes in a session that has compiled the same folder before: one entry loads N modules, each with 1 or 20 variables
# and with no rule or ten, and reads one variable of each. The second compile finds all as it was, the third one module edited. In the
# last folder each of N modules reads 20 names of two modules in its ten rules, so that it asks 40 questions beside its two loads; there
# the time of the second compile is also told by the question. The fastest of five sessions counts.
# Usage: again.sh PROGRAM
set -eu
exec python3 - "$1" <<'END'
import subprocess
import sys
import time


def put(path, text):
    return f"put {path} {len(text)}\n{text}\n".encode()


class Session:
    """One run of the program, over pipes."""

    def __init__(self, program):
        self.process = subprocess.Popen([program, "session"], stdin=subprocess.PIPE, stdout=subprocess.PIPE)

    def edit(self, path, text):
        self.process.stdin.write(put(path, text))
        self.process.stdin.flush()
        reply = self.process.stdout.readline()
        assert reply == b"ok\n", reply

    def compile(self):
        """The seconds until the reply has ended, and how many bodies ran."""
        begun = time.perf_counter()
        self.process.stdin.write(b"compile main.scss\n")
        self.process.stdin.flush()
        ran = 0
        while (line := self.process.stdout.readline()).startswith(b"ran "):
            ran += 1
        word, count = line.split()
        assert word == b"css", line
        self.process.stdout.read(int(count) + 1)
        return time.perf_counter() - begun, ran

    def end(self):
        self.process.stdin.write(b"end\n")
        self.process.stdin.close()
        assert self.process.wait() == 0


def module(number, variables, rules):
    others = "".join(f"$v{other}: w{other};\n" for other in range(1, variables))
    blocks = "".join(f".m{number}-{rule} {{\n  color: $v;\n  border: $v;\n}}\n" for rule in range(rules))
    return f"{others}$v: w{number};\n{blocks}"


def asking(number):
    """A module that reads 20 names of two modules in ten rules."""
    return '@use "lib";\n@use "theme";\n' + "".join(
        f".m{number}-{rule} {{\n  color: lib.$n{rule};\n  border: theme.$n{rule};\n}}\n" for rule in range(10)
    )


def compiled_thrice(session, edit, runs):
    """The seconds of a first compile, of a second one, and of one after the edit; `runs` says how many bodies have to run."""
    first, ran_first = session.compile()
    second, ran_second = session.compile()
    session.edit(*edit)
    edited, ran_edited = session.compile()
    session.end()
    assert (ran_first, ran_second, ran_edited) == runs, (ran_first, ran_second, ran_edited)
    return first, second, edited


def measured(program, modules, variables, rules):
    session = Session(program)
    for number in range(modules):
        session.edit(f"m{number}.scss", module(number, variables, rules))
    loads = "".join(f'@use "m{number}";\n' for number in range(modules))
    lines = "".join(f"p{number}: m{number}.$v;\n" for number in range(modules))
    session.edit("main.scss", loads + "a {\n" + lines + "}")
    return compiled_thrice(session, ("m0.scss", "$v: other;"), (modules + 1, 0, 2))


def measured_asking(program, modules):
    session = Session(program)
    for name in ("lib", "theme"):
        session.edit(f"{name}.scss", "".join(f"$n{rule}: {name}{rule};\n" for rule in range(20)))
    for number in range(modules):
        session.edit(f"m{number}.scss", asking(number))
    session.edit("main.scss", "".join(f'@use "m{number}";\n' for number in range(modules)))
    return compiled_thrice(session, ("m0.scss", asking(modules)), (modules + 3, 0, 1))


for variables, rules in ((1, 0), (20, 0), (20, 10)):
    for modules in (100, 200, 400):
        times = [measured(sys.argv[1], modules, variables, rules) for _ in range(5)]
        first, second, edited = (min(column) * 1000 for column in zip(*times))
        print(
            f"{modules} modules of {variables} variables and {rules} rules: first {first:.2f} ms, second {second:.2f} ms, ratio {second / first:.3f};"
            f" after one edit {edited:.2f} ms, ratio {edited / first:.3f}"
        )
for modules in (100, 200, 400):
    times = [measured_asking(sys.argv[1], modules) for _ in range(5)]
    first, second, edited = (min(column) * 1000 for column in zip(*times))
    print(
        f"{modules} modules of 40 questions: first {first:.2f} ms, second {second:.2f} ms, {second / modules / 40 * 1000:.3f} us a question;"
        f" after one edit {edited:.2f} ms"
    )
END
