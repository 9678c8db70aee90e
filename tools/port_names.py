#!/usr/bin/env python3
"""Spells the repository's own definitions and lemmas in snake case, as the kit does, after port.py has run.

usage: tools/port_names.py [--map FILE]     at the top of the repository, once

What turns: each name that a file of crates/*/specs or crates/*/proofs declares in lower camel case or with dashes. Names that the kit makes of
a function's code (the goals of a Proof.antt) stay, and so do names of src/, strings, types and modules. A lemma that would meet a definition of
its name gets `_lem`. In src/ only clauses and `ghost use` items turn; in comments only code spans do. --map writes the table of what turned.
"""

import collections
import glob
import re
import sys

TOKEN = r'[^\s(){}.;,@"«»]+'
DECLARED = re.compile(
    rf"^( *)(?:abbrev |unfoldable |pub |private |instance )*({TOKEN})((?: \{{[^{{}}\n]*\}})*) : (.*)$", re.M
)
QUIET = re.compile(r'"(?:[^"\\\n]|\\.)*"|(?<![^\s(){}.;,@"«»])--[^\n]*')
SPAN = re.compile(r"`[^`\n]*`")


def sources(kind):
    found = glob.glob(f"crates/*/{kind}/**/*.antt", recursive=True)
    return sorted(p for p in found if "/out/" not in p)


def read(path):
    with open(path, encoding="utf-8") as f:
        return f.read()


def snake(name):
    name = re.sub(r"(?<=[a-z0-9'])[A-Z]", lambda m: "_" + m[0].lower(), name)
    return name.replace("-", "_")


def declared():
    """Each declared name, with the files that declare it."""
    names = collections.defaultdict(set)
    for path in sources("specs") + sources("proofs"):
        for m in DECLARED.finditer(QUIET.sub("", read(path))):
            made = path.endswith("/Proof.antt") and m[4].startswith("tie.")
            if not made and m[2] not in ("let", "in", "where"):
                names[m[2]].add(path)
    return names


def table(names):
    """Old name to new name. Of names that fall together, the definition of specs/ takes the plain spelling."""
    rows = {n: snake(n) for n in names if n[0].islower() and re.search("[A-Z-]", n)}
    groups = collections.defaultdict(set)
    for n in names:
        groups[rows.get(n, n)].add(n)
    for new, olds in groups.items():
        if len(olds) == 1:
            continue
        of_specs = [n for n in sorted(olds) if any("/specs/" in p for p in names[n])]
        if len(of_specs) != 1:
            sys.exit(f"port_names: {sorted(olds)} would all be {new}")
        for n in olds:
            rows[n] = new if n == of_specs[0] else new + "_lem"
    return {old: new for old, new in rows.items() if old != new}


def turned(code, rows):
    return re.sub(TOKEN, lambda m: rows.get(m[0], m[0]), code)


def spans_turned(text, rows):
    return SPAN.sub(lambda m: "`" + turned(m[0][1:-1], rows) + "`", text)


def of_antt(text, rows):
    out, at = [], 0
    for m in QUIET.finditer(text):
        out.append(turned(text[at : m.start()], rows))
        out.append(m[0] if m[0].startswith('"') else spans_turned(m[0], rows))
        at = m.end()
    return "".join(out) + turned(text[at:], rows)


CLAUSE = re.compile(r"(?:\b(?:requires|ensures)\b\*?(?: \w+)? |\bghost\b[^;{]*)\{")


def of_rust(text, rows):
    """The clauses and ghost items of a file of src/."""
    out, at = [], 0
    pieces = re.compile(r"//[^\n]*|\"(?:[^\"\\]|\\.)*\"|ghost use [^;]*;|" + CLAUSE.pattern)
    for m in pieces.finditer(text):
        if m.start() < at:
            continue
        out.append(text[at : m.start()])
        at = m.end()
        if m[0].startswith("//"):
            out.append(spans_turned(m[0], rows))
        elif m[0].startswith('"'):
            out.append(m[0])
        elif m[0].startswith("ghost use"):
            out.append(turned(m[0], rows))
        else:
            depth = 1
            while depth:
                depth += {"{": 1, "}": -1}.get(text[at], 0)
                at += 1
            out.append(turned(text[m.start() : at], rows))
    return "".join(out) + text[at:]


def main(argv):
    rows = table(declared())
    for kind in ("specs", "proofs"):
        for path in sources(kind):
            write(path, of_antt(read(path), rows))
    for path in sorted(glob.glob("crates/*/src/**/*.rt", recursive=True)):
        write(path, of_rust(read(path), rows))
    if argv[:1] == ["--map"]:
        write(argv[1], "".join(f"{old}\t{new}\n" for old, new in sorted(rows.items())))
    print(f"port_names: {len(rows)} names")


def write(path, text):
    with open(path, "w", encoding="utf-8") as f:
        f.write(text)


if __name__ == "__main__":
    main(sys.argv[1:])
