#!/usr/bin/env python3
"""Gives the repository's own choice by a test, if◌then◌else◌, the name when◌then◌else◌, once, since the first is the library's today.

usage: when.py ROOT

It goes over .antt files and the clauses of .rt files that name the choice, and over the texts of all edits of these. A second run
changes nothing.
"""

import glob
import os
import re
import sys

WORD = r"[^\s(){}.;,@\"«»\[\]\\]+"
TOKEN = re.compile(r"--[^\n]*|\"(?:[^\"\\\n]|\\.)*\"|" + WORD)
GHOST = re.compile(r"\b(?:requires|ensures|ghost)\b[^{};]*\{|ghost use [^;]*;")
NEW = {"if": "when", "if◌then◌else◌": "when◌then◌else◌"}


def turned(text):
    return TOKEN.sub(lambda m: NEW.get(m[0], m[0]), text)


def in_clauses(text):
    out, at = [], 0
    for m in GHOST.finditer(text):
        if m.start() < at:
            continue
        end = m.end()
        depth = 1 if m[0].endswith("{") else 0
        while depth:
            depth += {"{": 1, "}": -1}.get(text[end], 0)
            end += 1
        out += [text[at : m.start()], turned(text[m.start() : end])]
        at = end
    return "".join(out) + text[at:]


def main(argv):
    root = argv[0]
    for p in glob.glob(os.path.join(root, "crates", "*", "**", "*"), recursive=True):
        if "/out/" in p or not p.endswith((".antt", ".rt", ".edit")) or not os.path.isfile(p):
            continue
        with open(p, encoding="utf-8") as f:
            text = f.read()
        if p.endswith(".edit"):
            lines = text.split("\n")
            antt = False
            for k, l in enumerate(lines):
                if l.startswith("file: "):
                    antt = l.endswith(".antt")
                if l.startswith(("old: ", "new: ")) and (antt or "then" in l.split() or "if◌then◌else◌" in l):
                    lines[k] = l[:5] + turned(l[5:])
            out = "\n".join(lines)
        elif "if◌then◌else◌" not in text:
            continue
        else:
            out = turned(text) if p.endswith(".antt") else in_clauses(text)
        if out != text:
            with open(p, "w", encoding="utf-8") as f:
                f.write(out)
    return 0


if __name__ == "__main__":
    raise SystemExit(main(sys.argv[1:]))
