#!/bin/sh
# What the program takes for real systems beside sassc, from nothing: instructions (of valgrind), processor seconds (the least of five runs)
# and most memory, each as a part of what sassc takes. The systems are those of Debian's packages, which are fetched into a folder of their
# own and unpacked there; none is installed. Each is joined into one sheet in the order of its imports, since @import isn't Sass of modules
# here; lines with @extend are left out, and what a call of a function by its name does is written as a choice, for all compilers alike.
# Systems of mixins alone get a page that uses them.
# Usage: systems.sh PROGRAM [FOLDER [SYSTEM..]]; the folder (/tmp/systems) keeps what was fetched. Needs apt-get, dpkg, sassc, valgrind, time.
set -eu
exec python3 - "$(realpath "$1")" "${2:-/tmp/systems}" "$@" <<'END'
import glob
import os
import re
import subprocess
import sys

PROGRAM, ROOM, NAMES = sys.argv[1], sys.argv[2], sys.argv[5:]
RUNS = 5
IMPORT = re.compile(r"""^(\s*)@import\s+(.+?);?\s*$""")
SEVERAL = re.compile(r'@import\s+((?:"[^"]+"\s*,\s*)+"[^"]+")\s*;')
# what the utilities of Bootstrap 5 call by name, and arithmetic in `max`, which this language keeps as it is written
WORDS = {
    "call(get-function($func), $_args...)": 'if($func == "to-rgb", to-rgb($_args...), rgba-css-var($_args...))',
    "max((100% - lightness($color)) - 2%, 0%)": "if(lightness($color) > 98%, 0%, 98% - lightness($color))",
}
BOURBON = """
@for $i from 1 through 150 {
  .b-#{$i} {
    @include size(10px * $i 20px);
    @include margin(1px * $i null 2px);
    @include padding(null 3px * $i);
    @include position("absolute", 0 null null 1px * $i);
    @include border-color(#fff null #000);
    @include triangle("up", 2rem, 1rem, #b25c9c);
    @include ellipsis;
    color: tint(#336699, 10%);
    background: shade(#336699, 20%);
    font-size: modular-scale($i % 5);
  }
}
"""
NEAT = """
@for $i from 1 through 150 {
  .n-#{$i} {
    @include grid-container;
    .column { @include grid-column($i % 11 + 1); }
    .pushed { @include grid-push($i % 7 + 1); }
    .shifted { @include grid-shift($i % 5 + 1); }
    .whole { @include grid-collapse; }
  }
}
"""
# name, package, file below usr/share, what stands behind it
SYSTEMS = [
    ("bootstrap 4", "libjs-bootstrap4", "sass/bootstrap/bootstrap.scss", ""),
    ("bootstrap 5", "node-bootstrap", "sass/bootstrap/bootstrap.scss", ""),
    ("bootstrap 5 utilities", "node-bootstrap", "sass/bootstrap/bootstrap-utilities.scss", ""),
    ("bootstrap 5 grid", "node-bootstrap", "sass/bootstrap/bootstrap-grid.scss", ""),
    ("bulma", "sass-stylesheets-bulma", "sass/bulma.sass", ""),
    ("bourbon", "sass-stylesheets-bourbon", "sass/_bourbon.scss", BOURBON),
    ("neat", "sass-stylesheets-neat", "sass/_neat.scss", NEAT),
    ("animate", "sass-stylesheets-compass", "sass/_animate.scss", ""),
    ("purecss", "sass-stylesheets-purecss", "sass/_purecss.scss", ""),
    ("font-awesome", "fonts-font-awesome", "sass/font-awesome/font-awesome.scss", ""),
    ("gutenberg", "sass-stylesheets-gutenberg", "sass/gutenberg/gutenberg.scss", ""),
]


def fetched(package):
    """The folder into which a package is unpacked."""
    to = f"{ROOM}/{package}"
    if not os.path.isdir(to):
        subprocess.run(["apt-get", "download", "-q", package], cwd=ROOM, check=True, stdout=subprocess.DEVNULL, stderr=subprocess.DEVNULL)
        subprocess.run(["dpkg", "-x", glob.glob(f"{ROOM}/{package}_*.deb")[0], to], check=True)
    return f"{to}/usr/share"


def found(folders, name):
    for folder in folders:
        at, leaf = os.path.split(os.path.join(folder, name))
        for file in (f"{leaf}.scss", f"_{leaf}.scss", f"{leaf}.sass", f"_{leaf}.sass", f"{leaf}/_index.scss", leaf):
            if os.path.isfile(f"{at}/{file}"):
                return f"{at}/{file}"
    return None


def joined(path, root):
    """A sheet with the sheets that it imports in their places."""
    with open(path, encoding="utf-8") as sheet:
        text = SEVERAL.sub(lambda m: "".join(f"@import {it};\n" for it in re.findall(r'"[^"]+"', m[1])), sheet.read())
    lines = []
    for line in text.split("\n"):
        match = IMPORT.match(line)
        names = re.findall(r"""["']([^"']+)["']""", match[2]) if match and "url(" not in match[2] else []
        paths = [found([os.path.dirname(path), root], name) for name in names]
        if paths and all(paths):
            lines += [joined(it, root) for it in paths]
            continue
        if "@extend" in line and path.endswith(".sass"):
            line = re.sub(r"@extend .*", "x: y", line)
        line = re.sub(r"@extend\s+(?:#\{[^}]*\}|[^;{}])*;?", "", line)
        for one, other in WORDS.items():
            line = line.replace(one, other)
        lines.append(line)
    return "\n".join(lines)


def cost(words):
    """Instructions in millions, processor seconds and kB of a compile."""
    counted = subprocess.run(["valgrind", "--tool=callgrind", "--callgrind-out-file=/dev/null", *words], stdout=subprocess.DEVNULL, stderr=subprocess.PIPE, text=True)
    instructions = int(re.search(r"Collected : (\d+)", counted.stderr)[1]) / 1e6
    runs = []
    for _ in range(RUNS):
        ran = subprocess.run(["/usr/bin/time", "-f", "%U %S %M", *words], stdout=subprocess.DEVNULL, stderr=subprocess.PIPE, text=True)
        user, system, most = ran.stderr.split("\n")[-2].split()
        runs.append((float(user) + float(system), int(most)))
    return instructions, min(it for it, _ in runs), max(it for _, it in runs)


os.makedirs(ROOM, exist_ok=True)
print(f"{'system':24}{'kB':>6}{'million':>10}{'of sassc':>10}{'s':>8}{'of sassc':>10}{'kB most':>9}{'of sassc':>10}")
for name, package, file, page in SYSTEMS:
    if NAMES and name not in NAMES:
        continue
    share = fetched(package)
    root = f"{share}/sass"
    folder, leaf = f"{ROOM}/{name.replace(' ', '-')}", "main.sass" if file.endswith(".sass") else "main.scss"
    os.makedirs(folder, exist_ok=True)
    text = joined(f"{share}/{file}", root) + page
    with open(f"{folder}/{leaf}", "w", encoding="utf-8") as sheet:
        sheet.write(text)
    ours, theirs = [PROGRAM, "once", folder, leaf], ["sassc", f"{folder}/{leaf}"]
    failed = [it[0] for it in (ours, theirs) if subprocess.run(it, stdout=subprocess.DEVNULL, stderr=subprocess.DEVNULL).returncode]
    if failed:
        said = subprocess.run(ours, capture_output=True, text=True).stdout[:80].split("\n")[0]
        print(f"{name:24}{len(text) // 1000:6} not compiled by {', '.join(failed)} {said}")
        continue
    (i, s, m), (ii, ss, mm) = cost(ours), cost(theirs)
    print(f"{name:24}{len(text) // 1000:6}{i:10.1f}{i / ii:10.2f}{s:8.3f}{s / ss:10.2f}{m:9}{m / mm:10.2f}", flush=True)
END
