#!/usr/bin/env python3
"""Brings the labels that proofs by hand cite (proofs/F/Proof.antt) to those that today's Rattle makes.

usage: labels.py NAMES CRATE..

NAMES is the names.json that 'rt check --generated DIR --old-names' writes below DIR for the crate, CRATE the crate's folder. In each
Proof.antt a step (c.if1), a place (tie.Else1), a need (tie.Need-returns-2), an arm (c.enum_told.given.1) and an invariant get their new
names; the way to a step further out goes, and a way that a helper is handed (c.before.before) is counted anew. Run it once a file.
"""

import json
import os
import re
import sys

W = r"[^\s(){}.;,@\"«»\[\]\\]+"
TOKEN = re.compile(r"--[^\n]*|\"(?:[^\"\\\n]|\\.)*\"|" + W)
CHAIN = re.compile(r"(?<![.\w\"'-])(?P<base>[a-z]\w*'?)(?P<way>(?:\.before)*)(?P<rest>(?:\.(?:" + W + r"))*)|(?<=\))(?P<way2>(?:\.before)+)(?P<rest2>(?:\.(?:" + W + r"))*)")
norm = lambda it: it.replace("_", "-")
# Fields of the repository's own structs: behind a value such a word is no step.
FIELDS = set()
OUTER = ("args", "ranges", "requires", "pre", "type_inv", "utf8", "lifetimes")
PLACE = r"tie\.(?P<p>[A-Z]" + r"[^\s(){}.;,@\"«»\[\]\\]*" + ")"


class Tree:
    def __init__(self, entry):
        self.steps, self.fields, self.needs, self.loops, self.arms = {}, {}, {}, {}, {}
        self.parent, self.new, self.arm, self.step_of = {}, {}, {}, {}
        self.firsts = {}
        for (old, up, (was, now), called, parts), new, arm in zip(entry["places"], entry["places_by_name"], entry["arms"]):
            o = norm(old)
            self.parent.setdefault(o, norm(up) if up else None)
            self.new.setdefault(o, new)
            self.step_of.setdefault(o, norm(was))
            self.arm.setdefault(o, arm and tuple(arm[:2]))
            if was:
                self.steps.setdefault(norm(was), now)
                self.fields.setdefault(norm(was), {}).update(dict(parts))
                if entry["params"].get(called):
                    self.firsts.setdefault(norm(was), entry["params"][called][0])
            if arm:
                for field, step, path in arm[2]:
                    if path:
                        self.arms[(norm(step), tuple(path))] = (arm[0], field)
        for now in list(self.steps.values()):
            self.steps.setdefault(norm(now), now)
        for was, now in entry["needs"]:
            self.needs.setdefault(norm(was), now)
        self.asked = [norm(a) for a, _ in entry["asked_at"]]
        self.count_loops = len(entry["loops"])
        for (was, now), _ in entry["loops"]:
            self.loops[norm(was)] = now
        self.deep = {}
        for o, a in self.arm.items():
            if a and (a[0] not in self.deep or self.arm[self.deep[a[0]]][1] < a[1]):
                self.deep[a[0]] = o

    def up(self, place):
        """The place that is .before of a place in today's form: an arm is one place."""
        arm = self.arm.get(place)
        if arm:
            while self.arm.get(self.parent[place]) and self.arm[self.parent[place]][0] == arm[0]:
                place = self.parent[place]
        p = self.parent[place]
        return p and self.whole(p)

    def whole(self, place):
        arm = self.arm.get(place)
        return self.deep[arm[0]] if arm else place

    def walk(self, place, n):
        for _ in range(n):
            place = place and self.parent.get(place)
        return place

    def way(self, start, end):
        """How many .before lead from one place to another today."""
        n, at = 0, start
        while at is not None:
            if at == end or (n and at == self.whole(end)) or self.whole(at) == self.whole(end):
                return n
            at = self.up(at)
            n += 1
        return None


def split_args(text, start):
    """The spans of the parenthesized or bare arguments that follow 'start' up to the closing bracket."""
    out, k = [], start
    while k < len(text):
        c = text[k]
        if c.isspace():
            k += 1
        elif c == "(":
            e = match(text, k)
            out.append((k, e))
            k = e
        elif c == ")":
            break
        else:
            m = re.compile(W).match(text, k)
            if not m:
                break
            out.append((k, m.end()))
            k = m.end()
    return out


def match(text, k):
    depth = 0
    for e in range(k, len(text)):
        depth += {"(": 1, ")": -1, "{": 1, "}": -1}.get(text[e], 0)
        if depth == 0:
            return e + 1
    return len(text)


def places_in(type_):
    """The parameters' places of a type, and its result's place; None where it is no place."""
    params, k, depth, parts, at = [], 0, 0, [], 0
    while k < len(type_):
        c = type_[k]
        depth += {"(": 1, ")": -1, "{": 1, "}": -1}.get(c, 0)
        if c == "→" and depth == 0:
            parts.append(type_[at:k])
            at = k + 1
        k += 1
    parts.append(type_[at:])
    for part in parts:
        part = part.strip()
        m = re.match(r"(?:\((?P<vars>[^:()]+):\s*)?" + PLACE, part)
        count = len(m["vars"].split()) if m and m["vars"] else 1
        if part.startswith("{"):
            continue
        if not m and part.startswith("(") and ":" in part:
            count = len(part[1 : part.index(":")].split())
        params += [norm(m["p"]) if m else None] * count
    return params[:-1], params[-1]


def definitions(text):
    """name -> (parameters' places, result's place), and the body spans with the environment of each."""
    sigs, bodies = {}, []
    lines = text.split("\n")
    starts, off = [], 0
    for line in lines:
        starts.append(off)
        off += len(line) + 1
    k = 0
    while k < len(lines):
        m = re.match(r"(?:abbrev )?(?:pub )?([^\s:(){};,]+) :(?= |$)", lines[k])
        if m and not lines[k].startswith(("use ", "--")):
            e = k + 1
            while e < len(lines) and lines[e].startswith((" ", "\t")):
                e += 1
            sigs[m[1]] = places_in("\n".join(lines[k:e]).split(" :", 1)[1])
            k = e
            continue
        m = re.match(r"([^\s:(){};,=]+)((?: [^\s=]+)*) =", lines[k])
        if m and m[1] in sigs:
            e = k + 1
            while e < len(lines) and (lines[e].startswith((" ", "\t")) or not lines[e].strip()) :
                e += 1
            start = starts[k] + m.end()
            end = starts[e] if e < len(lines) else len(text)
            bodies.append((m[1], m[2].split(), start, end))
            k = e
            continue
        k += 1
    return sigs, bodies


def rewritten(text, start, end, env, sigs, tree, expected):
    """The edits for one body: each chain with .before whose base has a place."""
    edits = []
    types = dict(env)
    body = text[start:end]

    def arg_expected(at):
        """The place that a helper wants of the argument that begins at 'at', if it is one."""
        before = body[:at].rstrip()
        m = re.search(r"(?<![.\w'-])([^\s(){}.;,\[\]]+)((?: (?:[^\s(){};,\[\]]+))*)$", before.rstrip("("))
        if before.endswith("("):
            return arg_expected(len(before) - 1)
        words = before.split("(")[-1].split(")")[-1].split()
        for n in range(len(words) - 1, -1, -1):
            w = words[n]
            if w in sigs:
                params = sigs[w][0]
                index = len(words) - 1 - n
                return params[index] if index < len(params) else None
            if n < len(words) - 3:
                break
        return None

    for m in CHAIN.finditer(body):
        base, way, rest = m["base"], m["way"] or m["way2"] or "", m["rest"] or m["rest2"] or ""
        if base is None:
            # a helper's result: (f ..).before
            open_ = None
            depth, k = 0, m.start() - 1
            while k >= 0:
                depth += {")": 1, "(": -1}.get(body[k], 0)
                if depth == 0:
                    open_ = k
                    break
                k -= 1
            head = re.match(r"\(\s*(" + W + ")", body[open_:]) if open_ is not None else None
            place = sigs.get(head[1], (None, None))[1] if head else None
        else:
            place = types.get(base)
        lets = re.search(r"let ([a-z]\w*'?) =\s*$", body[: m.start()])
        n = len(way) // 7
        target = None
        first = rest[1:].split(".")[0] if rest else None
        if place:
            target = tree.walk(place, n)
            if first and (norm(first) in tree.steps or first in OUTER):
                if n:
                    edits.append((start + m.start() + len(base or ""), start + m.start() + len(base or "") + len(way), ""))
                target = None
            elif n:
                want = None
                if not rest:
                    want = expected if not lets and body[: m.start()].strip() == "" else arg_expected(m.start())
                goal = want or target
                count = tree.way(place, goal) if goal else None
                if count is not None:
                    edits.append((start + m.start() + len(base or ""), start + m.start() + len(base or "") + len(way), ".before" * count))
                    target = goal
        elif n and first and (norm(first) in tree.steps or first in OUTER):
            edits.append((start + m.start() + len(base or ""), start + m.start() + len(base or "") + len(way), ""))
        if lets and not rest and (place or n):
            after = body[m.end() :].lstrip()
            if after.startswith("in"):
                types[lets[1]] = target if n else place
    # let e = f c in
    return edits


def turned(text, entry):
    tree = Tree(entry)
    sigs, bodies = definitions(text)
    # A field of a place further out is cited without the way to it.
    text = re.sub(r"(?:\.before)+(?=\.(" + W + "))", lambda m: "" if norm(m[1]) in tree.steps or re.sub("-lem$", "", norm(m[1])) in tree.steps or m[1] in OUTER else m[0], text)
    # A step of a place that a helper leads to is a step of where it leads from.
    helper = "|".join(re.escape(n) for n in sigs if sigs[n][1])
    if helper:
        through = re.compile(r"\((?:" + helper + r") (?P<v>[a-z]\w*'?(?:\.before)*|\((?:" + helper + r") [a-z]\w*'?(?:\.before)*\))\)(?=(?:\.before)*\.(?P<s>" + W + "))")
        for _ in range(6):
            text = through.sub(lambda m: re.sub(r"(\.before)+$", "", m["v"]) if norm(m["s"]) in tree.steps or m["s"] in OUTER else m[0], text)
    sigs, bodies = definitions(text)
    edits = []
    for name, params, start, end in bodies:
        spec = text.find("tie.spec", start, end)
        if spec >= 0:
            args = split_args(text, spec + len("tie.spec"))
            if len(args) == 2 * tree.count_loops + len(tree.asked):
                args = args[2 * tree.count_loops :]
            else:
                args = [a for a in args if text[a[0]] == "("][-len(tree.asked) :]
                if len(args) != len(tree.asked):
                    print("look: the needs' count differs")
            for (a, b), place in zip(args, tree.asked):
                lam = re.compile(r"\(\s*λ ([a-z]\w*)((?: [^\s.]+)*?)\. ?").match(text, a)
                if lam:
                    edits += rewritten(text, lam.end(), b - 1, {lam[1]: place}, sigs, tree, None)
            continue
        places, result = sigs[name]
        env = {v: p for v, p in zip(params, places) if p}
        edits += rewritten(text, start, end, env, sigs, tree, result)
    for a, b, new in sorted(set(edits), reverse=True):
        text = text[:a] + new + text[b:]
    return renamed(text, tree)


def renamed(text, tree):
    for (step, path), (arm, field) in tree.arms.items():
        words = r"(?:" + re.escape(step).replace(r"\-", "[-_]") + r")"
        text = re.sub(r"\." + words + r"\." + r"\.".join(path) + r"(?![^\s(){}.;,@\"«»\[\]\\])", lambda m: f".{arm}.{field}", text)
    # What a call leaves in its first parameter is named after it.
    for step, first in tree.firsts.items():
        words = re.escape(step).replace(r"\-", "[-_]")
        text = re.sub(r"(\." + words + r"\.)(?:new|last)\.0(?![^\s(){}.;,@\"«»\[\]\\])", lambda m: f"{m[1]}new.{first}", text)
    out, at = [], 0
    previous = None
    for m in TOKEN.finditer(text):
        word, new = m[0], m[0]
        if word.startswith("--") or word[0] == '"':
            continue
        key = norm(word)
        if key.endswith("-lem") and key[:-4] in tree.steps:
            key = key[:-4]
        dot = text[m.start() - 1 : m.start()] == "."
        head = re.match(r"(Need|invariant|decreases)-(.+)$", word)
        if head and head[1] == "Need" and dot and norm(head[2]) in tree.needs:
            new = "Need-" + tree.needs[norm(head[2])]
        elif head and head[1] != "Need" and norm(head[2]) in tree.loops:
            new = head[1] + "-" + tree.loops[norm(head[2])]
        elif dot and word[0].isupper() and key in tree.new and previous and previous[2] == "tie":
            new = tree.new[tree.whole(key)]
        elif dot and previous and previous[1] and re.match(r"if\d*$|.*-test\d*$", previous[0]) and word in ("taken", "left", "true", "false", "fact"):
            plain = {"taken": "true", "left": "false"}.get(word, word)
            new = tree.fields.get(previous[0], {}).get(plain, plain)
        elif dot and previous and previous[1] and previous[0] in tree.loops and word == "inv":
            new = "invariant"
        elif dot and previous and previous[2].startswith(("in-", "in_")):
            pass
        elif dot and key in FIELDS and not (text[m.start() - 2] != ")" and previous and (previous[2] == "before" or re.fullmatch(r"[cde]\d?", previous[2]))):
            pass
        elif dot and key in tree.steps and not (previous and previous[2] in ("args", "ranges", "given", "result", "proofs", "specs")) and not in_use(text, m.start()):
            new = tree.steps[key]
        elif dot and word == "pre" and not in_use(text, m.start()):
            new = "requires"
        elif dot and previous and previous[2] in ("args", "ranges"):
            new = word.replace("-", "_")
        previous = (key, dot and key in tree.steps, word)
        if new != word:
            out += [text[at : m.start()], new]
            at = m.end()
    return "".join(out) + text[at:]


def in_use(text, at):
    line = text[text.rfind("\n", 0, at) + 1 : at].lstrip()
    return line.startswith(("use ", "pub use "))


def main(argv):
    with open(argv[0], encoding="utf-8") as f:
        names = json.load(f)
    for crate in argv[1:]:
        name = os.path.basename(os.path.abspath(crate))
        sources = os.path.dirname(os.path.abspath(crate))
        for folder, _, files in os.walk(sources):
            for f in files:
                if f.endswith(".rt"):
                    with open(os.path.join(folder, f), encoding="utf-8") as it:
                        FIELDS.update(norm(m) for m in re.findall(r"(?m)^    (?:pub )?([a-z]\w*): ", it.read()))
        for key, entry in names.items():
            head = f"Rattle-{name}-proofs."
            if not key.startswith(head) or "places" not in entry:
                continue
            path = os.path.join(crate, "proofs", *key[len(head) :].split(".")[:-1], "Proof.antt")
            if not os.path.isfile(path):
                continue
            with open(path, encoding="utf-8") as f:
                text = f.read()
            try:
                out = turned(text, entry)
            except Exception as e:
                print("failed:", path, repr(e))
                continue
            if out != text:
                with open(path, "w", encoding="utf-8") as f:
                    f.write(out)
    return 0


if __name__ == "__main__":
    raise SystemExit(main(sys.argv[1:]))
