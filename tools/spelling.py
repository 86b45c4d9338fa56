#!/usr/bin/env python3
"""Brings this repository's own names in antt to today's spelling: words in snake case, facts and types in upper camel case.

usage: tools/spelling.py            at the top, once, after the kit's port.py (docs/PORT.md)

A word (a definition, a field, a constructor) is written in snake case: `merge-islands` and `swapRemove` become
`merge_islands` and `swap_remove`. A lemma keeps the dashes that join the names it is about, and each of those names
gets its new spelling. Facts that had a small letter get a name of their own (FACTS). Functions of src/, exported
names, strings and modules stay. It stops where two names would fall together. Each loop below goes over a list of files or words.
"""
import os
import re
import sys

CRATES = "crates"
# Names that would fall together with others, or with a field's.
APART = {
    "noBody": "absent_body", "noIsland": "absent_island", "noContact": "absent_contact", "noJoint": "absent_joint", "same_key": "same_key-refl", "body-at": "body_word", "getD-grown": "get_or-grown", "getD-vacant": "get_or-vacant",
}
# Facts, which are types, in small letters.
FACTS = {"tied": "TiedAfter", "recorded": "RecordedAfter", "tiedAll": "TiedAfterAll", "recordedAll": "RecordedAfterAll", "sees": "Sees"}
TOKEN = re.compile(r"[^\s(){}\[\];,.\"«»`:]+")
HEAD = re.compile(r"^(\s*)((?:abbrev |unfoldable |pub |data |record )*)([^\s(){}\[\];,.\"«»`:]+)\s*(?:: .*|:)$")


def files(ending):
    for folder, dirs, names in os.walk(CRATES):
        dirs[:] = sorted(d for d in dirs if d != "out")
        for n in sorted(names):
            if n.endswith(ending):
                yield os.path.join(folder, n)


def read(path):
    with open(path, encoding="utf-8") as f:
        return f.read()


def snake(part):
    """One name, without dashes, in snake case; a type's or a fact's keeps its capitals."""
    if part[:1].isupper():
        return part
    return re.sub(r"(?<=[a-z0-9])([A-Z]+)", lambda m: "_" + m.group(1).lower(), part)


def declared(text, path):
    """The words and the lemmas that a file declares."""
    words, lemmas = set(), set()
    inside, waiting = [], None
    for line in text.split("\n"):
        if not line.strip() or line.strip().startswith("--") or line.startswith("use "):
            continue
        indent = len(line) - len(line.lstrip())
        while inside and indent <= inside[-1]:
            inside.pop()
        if waiting is not None:
            if line.rstrip().endswith("where"):
                inside.append(waiting)
                waiting = None
            continue
        m = HEAD.match(line)
        if re.match(r"\s*(pub )?(data|record) [^\s{]", line):
            if line.rstrip().endswith("where"):
                inside.append(indent)
            else:
                waiting = indent
            continue
        if not m:
            continue
        name, marks = m.group(3), m.group(2)
        if "/specs/" in path or inside or "abbrev" in marks or "unfoldable" in marks:
            words.add(name)
        elif " : " in line or line.rstrip().endswith(":") or "pub" in marks:
            lemmas.add(name)
    return words, lemmas


def spelled(words, lemmas):
    """Old name to new, for all that change."""
    new = {}
    for w in words:
        if w[:1].isupper() or "◌" in w:
            continue
        new[w] = re.sub("_long$", "_span", snake(w)) if w.endswith("Long") else "_".join(snake(p) for p in w.split("-"))
    for lemma in lemmas:
        if lemma in new or "◌" in lemma:
            continue
        parts, at, out = lemma.split("-"), 0, []
        while at < len(parts):
            for n in range(len(parts) - at, 0, -1):
                run = "-".join(parts[at : at + n])
                if n == 1 or run in words:
                    out.append("_".join(snake(p) for p in parts[at : at + n]))
                    at += n
                    break
        new[lemma] = "-".join(out)
    new.update(FACTS)
    new.update(APART)
    return {a: b for a, b in new.items() if a != b}


def turn(text, new, local):
    """A text with its names in the new spelling; a local name in camel case is respelled too."""

    def one(m):
        t = m.group(0)
        if t in new:
            return new[t]
        if local and re.search(r"[a-z0-9][A-Z]", t) and not t[0].isupper() and t not in OUTSIDE:
            return "-".join(snake(p) for p in t.split("-"))
        return t

    return TOKEN.sub(one, text)


def clauses(text, new):
    """The ghost use lines and the clauses of a source file, turned; the code stays."""
    out, at = [], 0
    start = re.compile(r"^ghost use [^;]*;|\b(?:requires|ensures)\b[^{;\n]*\{", re.M)
    while True:
        m = start.search(text, at)
        if not m:
            return "".join(out) + text[at:]
        end = m.end()
        if not m.group(0).startswith("ghost use"):
            depth = 1
            while depth:
                depth += {"{": 1, "}": -1}.get(text[end], 0)
                end += 1
        out.append(text[at : m.start()])
        out.append(turn(text[m.start() : end], new, False))
        at = end


OUTSIDE = set()


def main():
    antt = {p: read(p) for p in files(".antt")}
    words, lemmas, tokens = set(), set(), set()
    own = set(os.listdir(CRATES))
    for path, text in antt.items():
        for m in re.finditer(r"^use ([\w.]+)\.\{([^}]*)\}", text, re.M):
            parts = m.group(1).split(".")
            if not (parts[0] == "Rattle" and parts[1] in own):
                OUTSIDE.update(x.strip().split(" as ")[0] for x in m.group(2).split(","))
        plain = re.sub(r"^\s*--.*$|^use [\w.+-]+", "", text, flags=re.M)
        if not path.endswith("/Proof.antt"):
            tokens.update(TOKEN.findall(plain))
        if not path.endswith("/Proof.antt"):
            w, l = declared(text, path)
            words |= w
            lemmas |= l
    new = spelled(words - OUTSIDE, lemmas - OUTSIDE - words)
    back, bad = {}, []
    for a, b in sorted(new.items()):
        if b in back:
            bad.append(f"{a} and {back[b]} would both be {b}")
        elif b in tokens and b not in new:
            bad.append(f"{a} would be {b}, which stands already")
        back[b] = a
    if bad:
        sys.exit("\n".join(bad))
    for path, text in antt.items():
        put(path, text, turn(text, new, True))
    for path in files(".rt"):
        text = read(path)
        put(path, text, clauses(text, new))
    for a, b in sorted(new.items()):
        print(a, b)


def put(path, text, turned):
    if text != turned:
        with open(path, "w", encoding="utf-8") as f:
            f.write(turned)


main()
