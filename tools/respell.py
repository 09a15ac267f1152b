#!/usr/bin/env python3
"""Spells this repository's own words as today's Rattle does, after port.py. Run once, at the top of the repository.

usage: tools/respell.py

- Definitions, lemmas and local names in camel case become snake case. Types and modules keep their capital, a dash between the parts of a lemma's name stays, and
  functions, strings, inputs and outputs keep their names.
- `old x`, this repository's word for what a lent slice holds when a call begins, becomes std's: `x.old` of a `&mut`, `x.now` of a `&`.
- Each crate's root file gets the line #![tactic(auto)].
"""

import os
import re

NAME = re.compile(r"[^\s(){}\[\].;:,@\"«»·`|]+")
WORD = re.compile(r"(?<![A-Za-z0-9_])[a-z][a-z0-9]*(?:_[a-z0-9]+)*(?:[A-Z][a-z0-9]*)+(?:_[a-z0-9]+)*(?![A-Za-z0-9_])")


def spelled(name):
    return WORD.sub(lambda m: re.sub(r"(?<=[a-z0-9A-Z])[A-Z]", lambda n: "_" + n[0].lower(), m[0]), name)


def files(*ends):
    for folder, dirs, names in os.walk("."):
        dirs[:] = sorted(d for d in dirs if d not in ("out", ".git", "target", "tools"))
        for n in sorted(names):
            if n.endswith(ends) and (not n.endswith(".md") or folder.split(os.sep)[1:2] == ["docs"]):
                yield os.path.join(folder, n)


def read(path):
    with open(path, encoding="utf-8") as f:
        return f.read()


def write(path, text):
    with open(path, "w", encoding="utf-8") as f:
        f.write(text)


def names():
    found = set()
    for p in files(".antt", ".rt"):
        for line in read(p).splitlines():
            if p.endswith(".rt") and not line.startswith("ghost use"):
                continue
            found |= {w for w in NAME.findall(line.split("-- ")[0]) if spelled(w) != w}
    # port.py has turned some names already, but not in pages and edits.
    turned_names = {spelled(w) for w in found} | {w for p in files(".antt", ".rt") for w in NAME.findall(read(p))}
    for p in files(".antt", ".rt", ".edit", ".md"):
        text = read(p)
        loose = p.endswith((".edit", ".md"))
        turned = NAME.sub(lambda m: spelled(m[0]) if m[0] in found or loose and spelled(m[0]) in turned_names else m[0], text)
        if turned != text:
            write(p, turned)


HEAD = re.compile(r"(?ms)^(?:pub(?:\([a-z]+\))? )?(?:unsafe )?(?:extern \"C\" )?fn \w+(?:<[^>]*>)?\((.*?)\)(?: -> [^\n{]*)?\n(.*?)^\{")
LENT = re.compile(r"(\w+): &(?:'\w+ )?(mut )?")
OLD = re.compile(r"\(old (\w+(?:\.\w+)*)\)|(?<![\w.])old (\w+(?:\.\w+)*)")


def old_words():
    for p in files(".rt"):
        text = read(p)

        def turn(m):
            lent = {n: bool(mut) for n, mut in LENT.findall(m[1])}

            def word(w):
                x = w[1] or w[2]
                if x.endswith(".old"):
                    return x
                return x + (".old" if lent.get(x) else ".now") if x in lent else w[0]

            return m[0][: m.start(2) - m.start()] + OLD.sub(word, m[2]) + "{"

        turned = HEAD.sub(turn, text)
        turned = re.sub(r"(?m)^ghost use Rattle\.base\.specs\.Entry\.\{old\};\n", "", turned)
        if turned != text:
            write(p, turned)


def tactics():
    for p in files("lib.rt", "main.rt"):
        text = read(p)
        if "#![tactic(auto)]" in text:
            continue
        lines = text.splitlines(keepends=True)
        at = 0
        while at < len(lines) and lines[at].startswith("//"):
            at += 1
        write(p, "".join(lines[:at]) + "#![tactic(auto)]\n" + "".join(lines[at:]))


names()
old_words()
tactics()
