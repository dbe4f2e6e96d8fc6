#!/usr/bin/env python3
"""Spells the repository's own definitions and lemmas as the kit spells names: words in snake case, a dash only where it joins two names.

usage: tools/spell.py    once, at the top of a repository that the kit's port.py has turned

A definition, field, constructor or lemma that an .antt file declares and that is spelled in camel case (listedBy) becomes snake case
(listed_by). A dash in a name stays where both its sides name definitions of specs/ or of the library (block-blocks_of), and is an
underscore elsewhere (xor_byte). Names that begin with a capital stay, and so do functions of src/, strings and goals that the kit makes.
A lemma that would fall together with a definition gets _lem. Prints how many names it turned, and what it left.
"""

import os
import re

TOKEN = re.compile(r"[^\s(){}\[\].;,@\"«»`|:]+")
DECLARED = re.compile(r"^ *(?:(?:abbrev|unfoldable|pub|record|data|ruleset) )*([^\s(){}\[\].;,\"«»`|:=]+)(?: [({][^=\n]*[)}])* :(?: (.*))?$", re.M)
# Names of the kit's libraries of which lemmas' names are made, and library names of older kits that stand in them.
LIBRARY = set("get_or length set take drop map ap words append replicate splice reverse sum mul min max pow block not eqb ltb leb bit_xor".split())
OLDER = {"getD": "get_or"}
# Names of files that two declarations of other files would meet, by file.
APART = {
    "crates/stripe/proofs/RecoverLaws.antt": {"in_order": "in_order_lem"},
    "crates/shelf/proofs/agreement/LoggedLaws.antt": {"pre_read": "pre_read_lem"},
}


def files():
    yield "README.md"
    for top in ("crates", "tests", "docs"):
        for folder, dirs, names in os.walk(top):
            dirs[:] = sorted(d for d in dirs if d not in ("out", "target"))
            yield from (os.path.join(folder, n) for n in sorted(names) if n.endswith((".antt", ".rt", ".edit", ".md")))


def snake(word):
    if word in OLDER:
        return OLDER[word]
    if word[:1].isupper():
        return word
    return re.sub(r"(?<=[a-z0-9])([A-Z]+)", lambda m: "_" + m[1].lower(), word)


def spelled(name, names):
    parts = [snake(x) for x in name.split("-")]
    if "" in parts:
        return name
    out = last = parts[0]
    for x in parts[1:]:
        if last in names and x in names:
            out, last = out + "-" + x, x
        else:
            out, last = out + "_" + x, last + "_" + x
    return out


def turned(text, turn):
    return TOKEN.sub(lambda m: turn.get(m[0], m[0]), text)


def main():
    texts = {p: open(p, encoding="utf-8").read() for p in files()}
    for p, apart in APART.items():
        texts[p] = turned(texts[p], apart)
    declared, names = set(), set(LIBRARY)
    for p, t in texts.items():
        if p.endswith(".antt"):
            for m in DECLARED.finditer(re.sub(r"--.*", "", t)):
                if not (m[2] or "").startswith("tie."):
                    declared.add(m[1])
                    if "/specs/" in p and not t[m.start()] == " ":
                        names.add(snake(m[1]))
    turn = {n: spelled(n, names) for n in declared}
    defined = {s for n, s in turn.items() if "-" not in n}
    for n, s in sorted(turn.items()):
        if "-" in n and s in defined:
            turn[n] = s + "_lem"
    turn = {n: s for n, s in turn.items() if n != s}
    met = {}
    for n, s in sorted(turn.items()):
        if s in met or s in declared and s not in turn:
            print(f"look: {n} becomes {s}, as does {met.get(s, s)}")
        met[s] = n
    # Pages name definitions that port.py has turned in the crates.
    pages = {m[0]: snake(m[0]) for t in texts.values() for m in re.finditer(r"(?<![\w-])[a-z]\w*[A-Z]\w*", t) if snake(m[0]) in declared}
    pages |= turn
    for p, t in texts.items():
        if p.endswith(".rt"):
            new = "".join(x if i % 2 else turned(x, turn) for i, x in enumerate(re.split(r'("(?:[^"\\]|\\.)*")', t)))
        elif p.endswith(".md"):
            new = re.sub(r"`[^`\n]*`", lambda m: turned(m[0], pages), t)
        else:
            new = turned(t, pages if p.endswith(".edit") else turn)
        if new != open(p, encoding="utf-8").read():
            with open(p, "w", encoding="utf-8") as f:
                f.write(new)
    print(f"{len(turn)} names turned")


main()
