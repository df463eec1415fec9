#!/usr/bin/env python3
"""Gives the goals and steps that proof files cite the names that today's Rattle makes: a name from src/ keeps its own underscores
inside them, and so do Rattle's own words. Ran once, after tools/respell.py.

    tools/regoal.py [ROOT]
"""
import os
import re
import sys

WORD = re.compile(r"[^\s()\[\]{},;.«»]+")
OWN = ["overflow-add", "overflow-sub", "overflow-mul", "overflow-cast", "overflow-shl", "overflow-shr", "overflow-step", "slice-bounds", "offset-bounds", "nonzero-div", "nonzero-rem", "in-default", "in-ok", "in-err", "type-inv", "invariant-of"]


def named(token, words):
    """The token with each of the words, given with dashes, in its own spelling, where it fills whole parts."""
    for dashed, word in words:
        token = re.sub(rf"(?<![\w']){re.escape(dashed)}(?![\w'])", word, token)
    return token


def main(root):
    for crate in sorted(os.listdir(os.path.join(root, "crates"))):
        src, words = os.path.join(root, "crates", crate, "src"), set()
        for folder, _, names in os.walk(src):
            for name in names:
                if name.endswith(".rt"):
                    words |= set(re.findall(r"\b[A-Za-z]\w*_\w*\b", open(os.path.join(folder, name), encoding="utf-8").read()))
        pairs = {w.replace("_", "-").strip("-"): w for w in words if "_" in w.strip("_")}
        pairs |= {w: w.replace("-", "_") for w in OWN}
        order = sorted(pairs.items(), key=lambda p: -len(p[0]))
        proofs = os.path.join(root, "crates", crate, "proofs")
        for folder, _, names in os.walk(proofs):
            if folder == proofs:
                continue
            for name in names:
                path = os.path.join(folder, name)
                if not name.endswith(".antt"):
                    continue
                text = open(path, encoding="utf-8").read()
                goals = set(re.findall(r"goal\.([^\s()\[\]{},;.]+)", text))

                def turn(m):
                    token = m[0]
                    before = text[m.start() - 1:m.start()]
                    return named(token, order) if "-" in token and (before == "." or token in goals) else token

                new = WORD.sub(turn, text)
                if new != text:
                    open(path, "w", encoding="utf-8").write(new)


main(sys.argv[1] if len(sys.argv) > 1 else ".")
