#!/usr/bin/env python3
"""Brings the repository's own definitions and lemmas to the spelling of the newer Rattle.

usage: python3 tools/spell.py        at the top of the repository, once, after the toolchain's port.py

Words are in snake case: `record-end` becomes `record_end`, wherever an identifier of ours stands in a .rt or .antt file, also as an
operator (`◌in-front-of◌`), as the name of a step or as an alias of an import. Three laws keep their dash, which there joins two names:
`bit-and`, `bit-or` and `bit-xor` would else be the operators themselves. Constants that are lists of bytes get small letters and say
what they are. Names of the library keep theirs, and so do functions of src/, strings and Rust code.
"""

import glob
import re

WORD = r"[^\s(){}\[\],;.λ→×↦|\"«»⌜⌝?]+"
KEPT = {"bit-and", "bit-or", "bit-xor"}
# the newer language has a tactic of this name
TACTICS = {"first_of": "first_some"}
# what the old form generated, which the new one spells itself
GENERATED = re.compile(r"^(After|Need|Lts|Else|Then)-|^(Any-open|type-inv|loop2?-test)$")
RECORDS = {n: n.lower().replace("-", "_") + "_record" for n in
           ["Conj", "Disj", "Odd", "Const", "Wire", "Open", "Const-2", "F-2-1", "G-2-1", "F-round", "G-round", "One", "Eight", "Twice", "On-twice"]}
CLAIMS = {n: n.lower().replace("-", "_") + "_claim" for n in ["Conj-Disj", "Conj-Odd", "Const-Wire"]}


def crates():
    with open("crates.txt", encoding="utf-8") as f:
        return {l.split(":")[0].split()[0] for l in f if l.strip() and not l.startswith("#")}


def files(ending):
    return sorted(p for p in glob.glob("crates/**/*" + ending, recursive=True) if "/out/" not in p)


def text(p):
    with open(p, encoding="utf-8") as f:
        return f.read()


def code(t, mark):
    """The text without comments and strings."""
    return re.sub(r'"(\\.|[^"\\])*"', '""', re.sub(re.escape(mark) + r".*", "", t))


def names():
    """Hyphenated words that are ours: all that occur, but for those imported from a library and those that are generated."""
    own, library, seen = crates(), set(), set()
    for p in files(".antt"):
        t = code(text(p), "--")
        for m in re.finditer(r"(?m)^use ([^\s;{]+?)\.\{([^}]*)\}", t):
            o = re.match(r"Rattle\.(\w+)\.", m.group(1))
            if not (o and o.group(1) in own):
                library |= {n.strip().split(" as ")[0] for n in m.group(2).split(",")}
        seen |= {w for w in re.findall(WORD, t) if "-" in w and re.search(r"[A-Za-zα-ω]", w)}
    for p in files(".rt"):
        for m in re.finditer(r"(?m)^ghost use [^\s;{]+?\.\{([^}]*)\}", text(p)):
            seen |= {w for w in re.findall(WORD, m.group(1)) if re.match(r"[a-z]+(-[a-z]+)+$", w)}
    return {w for w in seen if w not in library and w not in KEPT and not GENERATED.match(w)}


def respelled(t, mark, ours, constants):
    """Comments are respelled between backquotes, strings not at all."""
    def word(m):
        w = m.group(0)
        if w in constants:
            return constants[w]
        return w.replace("-", "_") if w in ours else w

    def words(s):
        return re.sub(WORD, word, s)

    out, at = [], 0
    for m in re.finditer(r'"(\\.|[^"\\])*"|' + re.escape(mark) + r".*", t):
        out.append(words(t[at:m.start()]))
        s = m.group(0)
        out.append(re.sub(r"`[^`]*`", lambda q: words(q.group(0)[:1]) + words(q.group(0)[1:-1]) + "`", s) if s.startswith(mark) else s)
        at = m.end()
    return "".join(out) + words(t[at:])


def main():
    ours = names()
    where = "crates/demands/"
    for ending, mark in ((".antt", "--"), (".rt", "//")):
        for p in files(ending):
            t = text(p)
            new = respelled(t, mark, ours, {**TACTICS, **RECORDS, **CLAIMS} if p.startswith(where) else TACTICS)
            if new != t:
                with open(p, "w", encoding="utf-8") as f:
                    f.write(new)


if __name__ == "__main__":
    main()
