#!/usr/bin/env python3
"""Respells this repository's own definitions and lemmas as the newer kit spells names: words in snake case, a dash only
between two names. Run once, behind the kit's own port.py, at the top of the repository:

    python3 tools/respell.py [FOLDER]

tools/respell.txt has the names, old and new on a line. A name is turned where it stands whole: in specs/ and proofs/
outside comments, in the code's clauses, in must-fail edits, and in the pages between backticks or behind a '#'. Comments,
strings and the code itself stay.
"""
import os
import re
import sys

here = os.path.dirname(os.path.realpath(__file__))
top = sys.argv[1] if len(sys.argv) > 1 else "."
names = dict(line.split() for line in open(os.path.join(here, "respell.txt"), encoding="utf-8"))
# A name ends where no letter, digit, underscore, prime or dash goes on; a file's or a field's name may stand before it.
whole = re.compile(r"(?<![\w'\u2019-])(" + "|".join(re.escape(n) for n in sorted(names, key=len, reverse=True)) + r")(?![\w'-])")


def turned(text):
    return whole.sub(lambda m: names[m.group(1)], text)


def outside(text, skipped):
    """Turns what stands outside the parts that `skipped` matches."""
    out, at = [], 0
    for m in skipped.finditer(text):
        out += [turned(text[at : m.start()]), m.group(0)]
        at = m.end()
    return "".join(out) + turned(text[at:])


def inside(text, kept):
    """Turns what stands inside the parts that `kept` matches."""
    return kept.sub(lambda m: turned(m.group(0)), text)


ways = {
    ".antt": lambda t: outside(t, re.compile(r"--[^\n]*")),
    ".rt": lambda t: outside(t, re.compile(r'//[^\n]*|b?"(?:[^"\\\n]|\\.)*"')),
    ".edit": lambda t: outside(t, re.compile(r'^#(?! refused by:)[^\n]*|b?"(?:[^"\\\n]|\\.)*"', re.M)),
    ".md": lambda t: inside(t, re.compile(r"`[^`\n]+`")),
}
for folder, folders, files in os.walk(top):
    folders[:] = sorted(f for f in folders if f not in (".git", "out", "target", "tools"))
    for file in sorted(files):
        way = ways.get(os.path.splitext(file)[1])
        path = os.path.join(folder, file)
        if way is None or os.path.islink(path):
            continue
        text = open(path, encoding="utf-8").read()
        new = way(text)
        if new != text:
            open(path, "w", encoding="utf-8").write(new)
