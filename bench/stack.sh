#!/bin/sh
# How much of the native stack each of some shapes needs that stand within all limits: the least `ulimit -s` under which a session with that
# shape ends as it does without a limit, found by halves, to 16 KiB. Such sessions nest as deep as the limits allow: 1,000 levels of
# evaluation, 128 of reading, 64 open loads, 1,000 levels of a value. The last ones put several of them on each other. A limit below which
# the program doesn't start at all counts as needed. Where a shape needs more than the most that is tried, the table says so.
# Usage: stack.sh PROGRAM [WORD..]: the shapes whose names have one of these words, or all
set -eu
exec python3 - "$@" <<'PY'
import resource
import subprocess
import sys

STEP, MOST = 16, 65536  # KiB


def put(path, text):
    text = text.encode()
    return f"put {path} {len(text)}\n".encode() + text + b"\n"


def session(files, entry):
    return b"".join(put(path, text) for path, text in files.items()) + f"compile {entry}\nend\n".encode()


def one(text, path="a.scss"):
    return session({path: text}, path)


def chain(last, sheets):
    """So many sheets, of which each loads the next."""
    files = {f"f{number}.scss": f'@use "f{number + 1}";' for number in range(sheets - 1)}
    return session({**files, f"f{sheets - 1}.scss": last}, "f0.scss")


def nested(before, count, inside, after):
    return before * count + inside + after * count


# A value that nests 1,000 deep.
DEEP_MAP = "$d: a; @for $i from 1 through 999 { $d: (k: $d); } "
DEEP_LIST = "$d: a; @for $i from 1 through 999 { $d: ($d,); } "
# The deepest call of each that doesn't end by itself is refused at level 1,001 of evaluation.
AT_ROOT = "@mixin m { " + nested("@at-root {", 60, "@include m;", "}") + " } a { @include m; }"
BOTH = (
    '@use "sass:map"; $l: a; @for $i from 1 through 998 { $l: (k: $l); } @mixin m { '
    + nested("@at-root {", 60, "$x: map.deep-merge($l, $l); @include m;", "}")
    + " } a { @include m; }"
)
# What a call of a function may stand in, as often as the grammar allows it, and what is around it there.
PLACES = {
    "parentheses": ("(1 + ", ")", 60),
    '"#{}"': ('"#{', '}"', 60),
    "url()": ("url(a#{", "})", 60),
    "names of functions": ("a#{", "}()", 60),
    "arguments of functions of CSS": ("a(", ")", 60),
    "calc()": ("calc(#{", "})", 60),
    "max()": ("max(1, ", ")", 60),
    "if()": ("if(true, ", ", 1)", 60),
    "conditions of if()": ("if(", ", 1, 1)", 60),
    "arguments": ("g(", ")", 60),
    "signs": ("+(", ")", 60),
    "built-in calls": ("quote(", ")", 60),
    "lists and maps": ("[(a: ", ")]", 30),
}
G = "@function g($x) { @return $x; } "


def functions(place, before=""):
    """A function that calls itself in places of one kind, behind what each call does first."""
    left, right, count = PLACES[place]
    return G + "@function f() { " + before + "@return " + nested(left, count, "f()", right) + "; } a { b: f(); }"


def merging(place):
    """The same, where each call merges maps that nest 998 deep."""
    maps = '@use "sass:map"; $l: a; @for $i from 1 through 998 { $l: (k: $l); } '
    return maps + functions(place, "$x: map.deep-merge($l, $l); ")


SHAPES = {
    "one rule": one("a { b: c; }"),
    "loads that stand in each other": chain("a { b: c; }", 64),
    "a mixin under @at-root": one(AT_ROOT),
    "a mixin in rules": one("@mixin m { " + nested("& {", 60, "@include m;", "}") + " } a { @include m; }"),
    "a mixin in mixins": one("@mixin m { @include m; } a { @include m; }"),
    "content blocks in each other": one("@mixin m { @content; } @mixin n { @include m { @include n; } } a { @include n; }"),
    "functions in each other": one("@function f($x) { @return f($x); } a { b: f(1); }"),
    **{f"functions in {place}": one(functions(place)) for place in PLACES},
    "functions in @each": one("@function f() { " + nested("@each $x in 1 { ", 60, "@return f();", "}") + " } a { b: f(); }"),
    "functions in @if": one("@function f() { " + nested("@if true { ", 60, "@return f();", "}") + " } a { b: f(); }"),
    "parentheses, as they are read": one("$a: " + nested("(", 127, "1", ")") + ";"),
    "rules, as they are read": one(nested("a { ", 127, "b: c", "}")),
    "nested properties, as they are read": one("a { " + nested("b: { ", 126, "c: d", "}") + " }"),
    "rules in lines, as they are read": one("\n".join(" " * level + "a" for level in range(128)) + "\n" + " " * 128 + "b: c", "a.sass"),
    "at-rules of plain CSS, as they are read": one(nested("@a { ", 127, "b { c: d }", "}"), "a.css"),
    "selectors in pseudos": one(nested(":not(", 127, "a", ")") + " { b: c; & d { e: f; } }"),
    "conditions of a query": one("@media " + nested("(", 126, "(a)", ")") + " { b { c: d; } }"),
    "map.deep-merge of deep maps": one('@use "sass:map"; ' + DEEP_MAP + "$x: map.deep-merge($d, $d); a { b: c; }"),
    "comparing deep maps": one(DEEP_MAP.replace("$d", "$e") + DEEP_MAP + "a { b: $d == $e; }"),
    "a deep map as a key": one(DEEP_MAP.replace("999", "997") + "a { b: map-get(($d: c), $d); }"),
    "inspecting a deep map": one(DEEP_MAP + "a { b: str-length(inspect($d)); }"),
    "a deep list as CSS": one(DEEP_LIST + "a { b: $d; }"),
    "map.deep-merge under @at-root": one(BOTH),
    "map.deep-merge under @at-root in loads": chain(BOTH, 63),
    **{f"map.deep-merge under functions in {place} in loads": chain(merging(place), 63) for place in PLACES},
}


def ended(program, script, kibibytes):
    """The status and the output under a limit of the stack, or without one."""

    def limited():
        hard = resource.getrlimit(resource.RLIMIT_STACK)[1]
        resource.setrlimit(resource.RLIMIT_STACK, (hard if kibibytes is None else kibibytes * 1024, hard))
        resource.setrlimit(resource.RLIMIT_CORE, (0, 0))

    done = subprocess.run([program, "session"], input=script, capture_output=True, preexec_fn=limited)
    return done.returncode, done.stdout


def needed(program, script):
    """The least limit in KiB under which the session ends as it does without one; none where the most isn't enough."""
    wanted = ended(program, script, None)
    assert wanted[0] == 0, wanted
    if ended(program, script, MOST) != wanted:
        return None
    low, high = 0, MOST // STEP
    while high - low > 1:
        middle = (low + high) // 2
        if ended(program, script, middle * STEP) == wanted:
            high = middle
        else:
            low = middle
    return high * STEP


def main():
    program, words = sys.argv[1], sys.argv[2:]
    print("| shape | the least stack, in KiB | its last line |")
    print("|---|---|---|")
    for name, script in SHAPES.items():
        if words and not any(word in name for word in words):
            continue
        least = needed(program, script)
        lines = [line for line in ended(program, script, None)[1].decode().split("\n") if line.startswith(("css ", "error "))]
        print(f"| {name} | {'more than ' + format(MOST, ',') if least is None else format(least, ',')} | `{lines[-1]}` |", flush=True)


main()
PY
