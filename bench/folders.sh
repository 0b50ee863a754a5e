#!/bin/sh
# What `poll` and `once` make of a real folder: one is made in a temporary place and edited while `poll` runs over pipes. Each line that is
# printed tells what was tried and came out. Then it tells how long a scan of 4,096 sheets takes in which nothing changed, beside reading
# them by another program.
# Usage: folders.sh PROGRAM. Run as root, the program itself runs as nobody, for whom a file can be unreadable.
set -eu
exec python3 - "$1" <<'PY'
import os
import shutil
import subprocess
import sys
import tempfile
import threading
import time

PROGRAM = os.path.abspath(sys.argv[1])
NOBODY = {"user": 65534, "group": 65534, "extra_groups": []} if os.geteuid() == 0 else {}


class Poll:
    """`poll` over a folder, through pipes."""

    def __init__(self, *words):
        self.process = subprocess.Popen([PROGRAM, "poll", *words], stdin=subprocess.PIPE, stdout=subprocess.PIPE, **NOBODY)

    def scan(self):
        """The lines that tell of bodies, and the CSS or the line of the fault; None where the program ended."""
        self.process.stdin.write(b"scan\n")
        self.process.stdin.flush()
        ran = []
        while (line := self.process.stdout.readline()).startswith(b"ran "):
            ran.append(line[4:-1].decode())
        if not line:
            return None
        word, _, rest = line[:-1].decode().partition(" ")
        if word == "css":
            return ran, self.process.stdout.read(int(rest) + 1)[:-1].decode()
        return ran, line[:-1].decode()

    def ends(self, line=b"end\n"):
        """The status."""
        self.process.stdin.write(line)
        self.process.stdin.close()
        assert self.process.stdout.read() == b""
        return self.process.wait()


def status(*words):
    return subprocess.run([PROGRAM, *words], stdin=subprocess.DEVNULL, stdout=subprocess.DEVNULL, **NOBODY).returncode


def said(words, script):
    """What comes on standard error."""
    return subprocess.run([PROGRAM, *words], input=script.encode(), capture_output=True, check=True, **NOBODY).stderr.decode()


def put(folder, path, text):
    full = os.path.join(folder, path)
    os.makedirs(os.path.dirname(full), exist_ok=True)
    with open(full, "wb") as file:
        file.write(text if isinstance(text, bytes) else text.encode())


def told(what, got, wanted):
    if got != wanted:
        sys.exit(f"{what}: {got!r} in the place of {wanted!r}")
    print(f"ok {what}")


def rule(value):
    return f"a {{\n  b: {value};\n}}\n"


place = tempfile.mkdtemp()
os.chmod(place, 0o755)
PROGRAM = shutil.copy(PROGRAM, os.path.join(place, "program"))
os.chmod(PROGRAM, 0o755)
try:
    src = os.path.join(place, "src")
    put(src, "main.scss", '@use "lib"; a { b: lib.$n; }')
    put(src, "lib.scss", "$n: one;")
    poll = Poll(src, "main.scss")
    told("the first scan runs all", poll.scan(), (["lib.scss first", "main.scss first"], rule("one")))
    told("nothing changed", poll.scan(), ([], rule("one")))
    os.utime(os.path.join(src, "lib.scss"))
    told("a file that was only touched", poll.scan(), ([], rule("one")))
    put(src, "lib.scss", "$n: two;")
    told("a file was edited", poll.scan(), (["lib.scss text", "main.scss variable"], rule("two")))
    os.remove(os.path.join(src, "lib.scss"))
    told("it went", poll.scan(), (["main.scss load"], "error 19 main.scss 1:6 1:11"))
    put(src, "_lib.scss", "$n: two;")
    told("another came in its place", poll.scan(), (["_lib.scss first", "main.scss load"], rule("two")))
    put(src, "lib.scss", "$n: three;")
    told("and both", poll.scan(), (["main.scss load"], "error 20 main.scss 1:6 1:11"))
    os.remove(os.path.join(src, "_lib.scss"))
    told("status after the line end", poll.ends(), 0)

    os.symlink(os.path.join(src, "lib.scss"), os.path.join(src, "linked.scss"))
    put(place, "other/inner.scss", "$n: four;")
    os.symlink(os.path.join(place, "other"), os.path.join(src, "other"))
    put(src, "main.scss", '@use "linked";')
    poll = Poll(src, "main.scss")
    told("a link to a file isn't followed", poll.scan()[1], "error 19 main.scss 1:6 1:14")
    put(src, "main.scss", '@use "other/inner";')
    told("nor one to a folder", poll.scan()[1], "error 19 main.scss 1:6 1:19")
    put(src, "main.scss", '@use "big";')
    put(src, "big.scss", b"/*" + b" " * (1048576 - 4) + b"*/")
    told("a file of 1,048,576 bytes is held", poll.scan()[1].startswith("error 19"), False)
    put(src, "big.scss", b"/*" + b" " * (1048577 - 4) + b"*/")
    told("one of a byte more isn't there", poll.scan()[1], "error 19 main.scss 1:6 1:11")
    put(src, "big.scss", b"$n: \xff;")
    told("nor one that is no text", poll.scan()[1], "error 19 main.scss 1:6 1:11")
    told("a line that is no scan", poll.ends(b"scan \n"), 2)
    told("no line end", Poll(src, "main.scss").ends(b""), 3)

    os.remove(os.path.join(src, "big.scss"))
    put(src, "closed.scss", "")
    os.chmod(os.path.join(src, "closed.scss"), 0)
    poll = Poll(src, "main.scss")
    told("a file that can't be read ends a poll", poll.scan(), None)
    told("with status", poll.process.wait(), 8)
    told("and once", status("once", src, "main.scss"), 8)
    os.remove(os.path.join(src, "closed.scss"))
    put(os.fsencode(src), b"\xff.scss", "")
    told("a name that isn't UTF-8", status("once", src, "main.scss"), 8)
    os.remove(os.path.join(os.fsencode(src), b"\xff.scss"))
    told("a folder that isn't there", status("once", os.path.join(place, "nowhere"), "main.scss"), 8)
    put(src, "main.scss", "a { b: one; }")
    told("once writes CSS", status("once", src, "main.scss"), 0)
    put(src, "main.scss", "a { b: ; }")
    told("or a fault", status("once", src, "main.scss"), 1)
    told("words in no form", status("once", src), 7)
    put(src, "main.scss", '@warn "one"; a { b: c; }')
    ended = subprocess.run([PROGRAM, "once", src, "main.scss"], stdin=subprocess.DEVNULL, capture_output=True, **NOBODY)
    told("messages come on standard error", ended.stderr.decode(), "warn main.scss 1:1 1:12 3\none\n")
    told("and not among the CSS", ended.stdout.decode(), rule("c"))
    sheet = "put main.scss 24\n@warn \"one\"; a { b: c; }\n"
    told("those of each reply of a session", said(["session"], sheet + "compile main.scss\ncompile main.scss\nend\n"), ended.stderr.decode() * 2)
    told("and of one with functions of a host", said(["hosted"], sheet + "compile main.scss\nend\n"), ended.stderr.decode())
    told("and of each scan", said(["poll", src, "main.scss"], "scan\nscan\nend\n"), ended.stderr.decode() * 2)
    told("but none of a compile by steps", said(["steps"], sheet + "start main.scss\nstep 0\nend\n"), "")
    with open("/dev/full", "wb") as full:
        ended = subprocess.run([PROGRAM, "once", src, "main.scss"], stdin=subprocess.DEVNULL, stdout=subprocess.PIPE, stderr=full, **NOBODY)
    told("where it takes nothing, nothing else changes", (ended.returncode, ended.stdout.decode()), (0, rule("c")))

    many = os.path.join(place, "many")
    for number in range(4096):
        put(many, f"f{number:04}.scss", f"$n: {number};\n" + "// a line of some length in each of the sheets\n" * 20)
    put(many, "a.scss", '@use "f4094"; a { b: f4094.$n; }')
    poll = Poll(many, "a.scss")
    told("of 4,097 sheets the first 4,096 are held", poll.scan()[1], rule("4094"))
    put(many, "a.scss", '@use "f4095"; a { b: f4095.$n; }')
    told("and the last one isn't", poll.scan()[1], "error 19 a.scss 1:6 1:13")
    os.remove(os.path.join(many, "f4095.scss"))
    put(many, "a.scss", '@use "f4094"; a { b: f4094.$n; }')
    poll.scan()
    fastest = {"scan": 9e9, "read": 9e9}
    for _ in range(20):
        begun = time.perf_counter()
        poll.scan()
        fastest["scan"] = min(fastest["scan"], time.perf_counter() - begun)
        begun = time.perf_counter()
        for entry in os.scandir(many):
            file = os.open(entry.path, os.O_RDONLY)
            os.read(file, 1048577)
            os.close(file)
        fastest["read"] = min(fastest["read"], time.perf_counter() - begun)

    # The last file in the order of reading comes and goes, so that it is often listed and then gone; so do folders below.
    shown, hidden = os.path.join(many, "f4094.scss"), os.path.join(place, "hidden")
    below = [(os.path.join(many, f"below{number}"), os.path.join(place, f"away{number}")) for number in range(40)]
    for folder, _ in below:
        os.mkdir(folder)
    over = threading.Event()

    def flicker():
        while not over.wait(0.003):
            os.rename(shown, hidden)
            for here, away in below:
                os.rename(here, away)
            over.wait(0.003)
            os.rename(hidden, shown)
            for here, away in below:
                os.rename(away, here)

    thread = threading.Thread(target=flicker)
    thread.start()
    seen = {poll.scan()[1] for _ in range(200)}
    over.set()
    thread.join()
    told("a file that comes and goes, beside folders that do, is there or isn't", seen, {rule("4094"), "error 19 a.scss 1:6 1:13"})
    told("and is there at last", poll.scan()[1], rule("4094"))
    told("status", poll.ends(), 0)
    print(f"a scan of 4,096 sheets takes {fastest['scan']:.3f} s, opening and reading each by another program {fastest['read']:.3f} s")
finally:
    shutil.rmtree(place)
PY
