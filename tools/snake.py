#!/usr/bin/env python3
"""Brings this repository's own definitions and lemmas to snake case, once, behind port.py.

usage: snake.py [--check] ROOT

A name that a file of specs/ or proofs/ declares, and that begins with a small letter and has a capital or a dash, is written in snake
case in every .antt file, in the clauses of every .rt file and in the comments there. Names that the prover makes (goals, invariants,
measures) and names that a library declares stay. Where a definition (aBc) and a law (a-bc) would fall together, the law gets _lem.
--check writes nothing and prints the names that fall together. A second run changes nothing.
"""

import collections
import glob
import os
import re
import sys

WORD = r"[^\s(){}.;,@\"«»\[\]\\]+"
TOKEN = re.compile(r"\"(?:[^\"\\\n]|\\.)*\"|" + WORD)
DECLARED = re.compile(r"^(?:(?:abbrev|pub|unfoldable|opaque|mutual|data|record|infix[lr]? \d+)\s+)*([^\s:(){};,]+)\s*(?:\{[^}]*\}\s*)?:(?=\s|$)")
USE = re.compile(r"^\s*(?:pub |unfoldable |ghost )*use ([^\s{]+)\.\{([^}]*)\}", re.M)
MADE = re.compile(r"^(invariant|decreases)-|^returns(-\d+)?$")
GHOST = re.compile(r"\b(?:requires|ensures|ghost)\b[^{};]*\{|ghost use [^;]*;|//[^\n]*")

# These were turned by port.py and would be one with a definition: such a law gets _lem behind its name, as do those with a dash below.
LAWS = set("list_counted no_record nothing_left one_number read_back row_fits same_row took_more yes_or_no".split())


def files(root, *ends):
    for top in ("specs", "proofs", "src"):
        for p in glob.glob(os.path.join(root, "crates", "*", top, "**", "*"), recursive=True):
            if p.endswith(ends) and os.path.isfile(p) and "/out/" not in p:
                yield p


def read(p):
    with open(p, encoding="utf-8") as f:
        return f.read()


def snake(name):
    s = name.replace("-", "_").replace("′", "'")
    s = re.sub(r"(?<=[a-z0-9])([A-Z])", r"_\1", s)
    return s.lower()


def names(root):
    own, used = collections.defaultdict(set), collections.defaultdict(set)
    for p in files(root, ".antt"):
        text = read(p)
        for it in USE.finditer(text):
            for n in it[2].split(","):
                n = n.split(" as ")[0].strip()
                if n and not (it[1].startswith("Rattle.") and os.path.isdir(os.path.join(root, "crates", it[1].split(".")[1]))):
                    used[n].add(it[1])
        made = set()
        for line in text.split("\n"):
            s = line.strip()
            if s.startswith(("use ", "pub use ", "--", "let ", "λ", "|", "(")):
                continue
            m = DECLARED.match(s)
            if m and not MADE.search(m[1]) and not re.search(r":\s*(\([^()]*\)\s*→\s*)*(tie|goal)\.(Need-|invariant|decreases)", s):
                own[m[1]].add(p)
    return own, used


def turned(own, used):
    out = {}
    for n in own:
        if re.match(r"[a-z]", n) and (re.search(r"[A-Z]", n) or "-" in n or "′" in n) and n not in used:
            out[n] = snake(n)
    camel = {out[n] for n in out if re.search(r"[A-Z]", n)}
    for n in out:
        if not re.search(r"[A-Z]", n) and (out[n] in camel or out[n] in own):
            out[n] += "_lem"
    return out


def main(argv):
    check = argv[:1] == ["--check"]
    root = argv[-1]
    own, used = names(root)
    new = turned(own, used)
    tokens = collections.defaultdict(set)
    for p in files(root, ".antt"):
        for t in set(TOKEN.findall(re.sub(r"--[^\n]*", "", read(p)))):
            tokens[t].add(p)
    back = collections.defaultdict(list)
    for o, n in new.items():
        back[n].append(o)
    if check:
        for n, os_ in sorted(back.items()):
            same = [t for t in [n] if t in tokens and t not in new]
            if len(os_) > 1:
                print("two:", n, os_, [sorted(x.split("crates/")[1] for x in own[o])[:2] for o in os_])
            for t in same:
                both = set.intersection(tokens[t], set.union(*[tokens[o] for o in os_])) if os_ else set()
                print("there:", t, os_, "own" if t in own else "", used.get(t, ""), "both in:", sorted(x.split("crates/")[1] for x in both)[:4], len(both))
        rust = collections.defaultdict(set)
        for p in files(root, ".rt"):
            for m in re.finditer(r"\b([a-z]\w*):(?!:)", read(p)):
                rust[m[1]].add(p.split("crates/")[1])
        for n in back:
            if n in rust:
                print("rust:", n, back[n], sorted(rust[n])[:3])
        for n in own:
            if n in used and re.search(r"[A-Z-]", n) and re.match("[a-z]", n):
                print("library:", n, used[n], sorted(own[n])[:1])
        print(len(new), "names")
        return 0
    sub = lambda m: new.get(m[0], m[0])
    for p in files(root, ".antt", ".rt"):
        text = read(p)
        if p.endswith(".antt"):
            laws = {n for n in LAWS if p in own.get(n, ()) or any(n in it[2].replace(",", " ").split() and ".proofs." in it[1] for it in USE.finditer(text))}
            law = lambda m: m[0] + "_lem" if m[0] in laws and m.string[m.start() - 1 : m.start()] != "." else sub(m)
            out = TOKEN.sub(law, text)
        else:
            out, at = [], 0
            for m in GHOST.finditer(text):
                if m.start() < at:
                    continue
                end = m.end()
                if m[0].endswith("{"):
                    depth = 1
                    while depth:
                        depth += {"{": 1, "}": -1}.get(text[end], 0)
                        end += 1
                out += [text[at : m.start()], TOKEN.sub(sub, text[m.start() : end])]
                at = end
            out = "".join(out) + text[at:]
        if out != text:
            with open(p, "w", encoding="utf-8") as f:
                f.write(out)
    # In pages a name with a capital is one anywhere, one with a dash only between backquotes.
    for p in [os.path.join(root, "README.md")] + glob.glob(os.path.join(root, "docs", "**", "*.md"), recursive=True) + glob.glob(os.path.join(root, "tests", "*.md")):
        text = read(p)
        parts = text.split("`")
        word = re.compile(r"(?<![\w/.-])[a-z][\w'-]*(?![\w/-])")
        for k, part in enumerate(parts):
            parts[k] = word.sub(lambda m: new[m[0]] if m[0] in new and (k % 2 or re.search(r"[A-Z]", m[0])) else m[0], part)
        out = "`".join(parts)
        if out != text:
            with open(p, "w", encoding="utf-8") as f:
                f.write(out)
    return 0


if __name__ == "__main__":
    raise SystemExit(main(sys.argv[1:]))
