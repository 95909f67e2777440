#!/usr/bin/env python3
"""Spells this repository's own definitions and lemmas in snake case, as the library does.

usage: python3 tools/respell.py      at the top of a checkout, once, after the kit's own script

It goes by whole names over crates/ (src, specs, proofs and must-fail edits). Functions, types, strings,
inputs and outputs keep theirs. Two pairs of names would fall together; their lemmas are named by what they say.
"""
import os
import re

# a definition and its lemma that would have one name
APART = {
    "hour-bits": "hour_bits-row_bytes",
    "same-lane": "same_lane_parts",
}

DEFINED = re.compile(r"^\s*(?:abbrev )?(?:unfoldable )?(?:pub )?(?:abbrev )?([a-z][\w'-]*)(?: [\w' ]*)? ?:(?!:) ")
WORD = re.compile(r"[A-Za-z_][\w'-]*")


def files(*ends):
    for folder, dirs, names in os.walk("crates"):
        dirs[:] = sorted(d for d in dirs if d != "out")
        for name in sorted(names):
            if name.endswith(ends):
                yield os.path.join(folder, name)


def own_names():
    """What the files of specs/ and the lemma files of proofs/ define, record fields among them."""
    found = set()
    for path in files(".antt"):
        if os.path.basename(path) in ("Answers.antt", "Invariants.antt", "Proof.antt"):
            continue
        for line in open(path, encoding="utf-8"):
            hit = DEFINED.match(line)
            if hit and not line.startswith("use "):
                found.add(hit.group(1))
    return found


def snake(name):
    return re.sub(r"([a-z0-9])([A-Z])", lambda m: m.group(1) + "_" + m.group(2).lower(), name).replace("-", "_")


def main():
    own = own_names()
    turned = {n: APART.get(n, snake(n)) for n in own if APART.get(n, snake(n)) != n}
    kept = own - set(turned)
    for new in turned.values():
        assert new not in kept and list(turned.values()).count(new) == 1, "names fall together: " + new
    for path in files(".rt", ".antt", ".edit"):
        with open(path, encoding="utf-8") as f:
            text = f.read()
        respelt = WORD.sub(lambda m: turned.get(m.group(0), m.group(0)), text)
        if respelt != text:
            with open(path, "w", encoding="utf-8") as f:
                f.write(respelt)
    for old in sorted(turned):
        print(old, turned[old])


main()
