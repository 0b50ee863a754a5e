#!/bin/sh
# How long the program takes beside sassc and rsass (Debian's packages of these names) on the same sheets, in one run.
# Bootstrap 4 as Debian's libjs-bootstrap4 has it: its sheets, joined into one in the order of their imports, since neither its @import nor
# its @extend is Sass of modules (the lines with @extend are left out for all three). A made system of 400 modules, of ten rules with 20 names
# of two other modules each, and another one whose rules include a mixin of another module, which reads a map of that module; sassc, which
# reads no @use, gets the same sheets with @import and a prefix for each module's names. Then an edit of one of the modules that nothing else
# uses: a session's next compile, against a compile of the others from nothing.
# The least processor time of five runs counts, which other load on the machine changes less than what a clock shows. Where one of the two
# is missing, it is left out.
# Usage: others.sh PROGRAM
set -eu
exec python3 - "$(realpath "$1")" <<'END'
import os
import re
import resource
import shutil
import subprocess
import sys
import tempfile

BOOTSTRAP = "/usr/share/sass/bootstrap"
MODULES, RULES, RUNS = 400, 10, 5
# A compiler that has no end by then is left out of that line.
MOST_SECONDS = 60


def joined(path):
    """A sheet of Bootstrap with the sheets that it imports in their places."""
    lines = []
    with open(path) as sheet:
        for line in sheet:
            found = re.fullmatch(r'\s*@import "([^"]+)";\s*', line)
            if found:
                folder, name = os.path.split(os.path.join(os.path.dirname(path), found[1]))
                lines.append(joined(os.path.join(folder, f"_{name}.scss")))
            elif "@extend" in line:
                lines.append(re.sub(r"@extend [^;]*;", "", line))
            else:
                lines.append(line)
    return "".join(lines)


def of_children():
    """The processor seconds of all that ran and ended."""
    used = resource.getrusage(resource.RUSAGE_CHILDREN)
    return used.ru_utime + used.ru_stime


def of_running(process):
    """The processor seconds of a process that still runs."""
    with open(f"/proc/{process.pid}/schedstat") as file:
        return int(file.read().split()[0]) / 1e9


def fastest(words):
    """The processor seconds of the fastest run; none where one had no end in time."""
    times = []
    for _ in range(RUNS):
        begun = of_children()
        try:
            done = subprocess.run(words, stdout=subprocess.PIPE, stderr=subprocess.PIPE, timeout=MOST_SECONDS)
        except subprocess.TimeoutExpired:
            return None
        times.append(of_children() - begun)
        assert done.returncode == 0, (words, done.stderr[-400:], done.stdout[-400:])
    return min(times)


def write(folder, files):
    for path, text in files.items():
        with open(os.path.join(folder, path), "w") as file:
            file.write(text)


def names(prefix):
    return "".join(f"${prefix}n{number}: {number + 1}px;\n" for number in range(10))


def sizes(prefix):
    """A map, and a mixin that reads it."""
    pairs = ", ".join(f"n{number}: {number + 1}px" for number in range(10))
    return f"${prefix}sizes: ({pairs});\n@mixin {prefix}size($name) {{\n  width: map-get(${prefix}sizes, $name);\n}}\n"


def behind_namespace(module, sign):
    return f"{module}.{sign}"


def behind_prefix(module, sign):
    return f"{sign}{module}-"


def rules(number, name):
    lib, theme = name("lib", "$"), name("theme", "$")
    return "".join(
        f".m{number}-{rule} {{\n  width: {lib}n{rule};\n  height: {theme}n{rule};\n  &:hover {{\n    width: {theme}n{rule} + {lib}n{rule};\n  }}\n}}\n"
        for rule in range(RULES)
    )


def sized_rules(number, name):
    size, theme = name("lib", "") + "size", name("theme", "$")
    return "".join(f".m{number}-{rule} {{\n  @include {size}(n{rule});\n  height: {theme}n{rule};\n}}\n" for rule in range(RULES))


def with_uses(lib, module):
    """A made system: two modules, and others over them, of which `module` makes each."""
    files = {"_lib.scss": lib(""), "_theme.scss": names("")}
    for number in range(MODULES):
        files[f"_m{number}.scss"] = '@use "lib";\n@use "theme";\n' + module(number, behind_namespace)
    files["main.scss"] = "".join(f'@use "m{number}";\n' for number in range(MODULES))
    return files


def with_imports(lib, module):
    """The same sheets as `sassc` reads them."""
    files = {"_lib.scss": lib("lib-"), "_theme.scss": names("theme-")}
    for number in range(MODULES):
        files[f"_m{number}.scss"] = module(number, behind_prefix)
    files["main.scss"] = '@import "lib";\n@import "theme";\n' + "".join(f'@import "m{number}";\n' for number in range(MODULES))
    return files


class Session:
    def __init__(self, program, files):
        self.process = subprocess.Popen([program, "session"], stdin=subprocess.PIPE, stdout=subprocess.PIPE)
        for path, text in files.items():
            self.put(path, text)

    def put(self, path, text):
        self.process.stdin.write(f"put {path} {len(text.encode())}\n{text}\n".encode())
        self.process.stdin.flush()
        assert self.process.stdout.readline() == b"ok\n"

    def compile(self):
        begun = of_running(self.process)
        self.process.stdin.write(b"compile main.scss\n")
        self.process.stdin.flush()
        ran = 0
        while (line := self.process.stdout.readline()).startswith(b"ran "):
            ran += 1
        word, count = line.split()
        assert word == b"css", line
        self.process.stdout.read(int(count) + 1)
        return of_running(self.process) - begun, ran


def edited(program, files):
    """The processor seconds of the fastest compile behind an edit of one module, of which the entry knows no name."""
    session = Session(program, files)
    session.compile()
    times = []
    for turn in range(RUNS):
        session.put("_m0.scss", files["_m0.scss"].replace("height", f"-x{turn}-height"))
        seconds, ran = session.compile()
        assert ran == 1, ran
        times.append(seconds)
    session.process.stdin.close()
    session.process.wait()
    return min(times)


def told(what, ours, others):
    """A line for each of the others: its time, ours, and ours as a part of it."""
    for name, seconds in others.items():
        if seconds is None:
            print(f"{what:46} {ours * 1000:9.2f} ms   {name} has no end in {MOST_SECONDS} s")
            continue
        print(f"{what:46} {ours * 1000:9.2f} ms   {name} {seconds * 1000:9.2f} ms   ratio {ours / seconds:6.4f}")


def beside(program, present, what, with_uses, with_imports):
    """The lines of a made system: from nothing, and after an edit."""
    with tempfile.TemporaryDirectory() as uses, tempfile.TemporaryDirectory() as imports:
        write(uses, with_uses)
        write(imports, with_imports)
        folders = {"sassc": imports, "rsass": uses}
        others = {name: fastest([at, os.path.join(folders[name], "main.scss")]) for name, at in present.items() if at}
        told(f"{what}, from nothing", fastest([program, "once", uses, "main.scss"]), others)
        told(f"{what}, after an edit", edited(program, with_uses), others)


def main():
    program = sys.argv[1]
    present = {name: shutil.which(name) for name in ("sassc", "rsass")}
    with tempfile.TemporaryDirectory() as room:
        if os.path.isdir(BOOTSTRAP):
            write(room, {"main.scss": joined(f"{BOOTSTRAP}/bootstrap.scss")})
            others = {name: fastest([at, os.path.join(room, "main.scss")]) for name, at in present.items() if at}
            told("Bootstrap 4, from nothing", fastest([program, "once", room, "main.scss"]), others)
    for what, lib, module in ((f"{MODULES} modules", names, rules), (f"{MODULES} modules, a mixin and a map", sizes, sized_rules)):
        beside(program, present, what, with_uses(lib, module), with_imports(lib, module))


main()
END
