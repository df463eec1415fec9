#!/usr/bin/env python3
"""Brings the repository's own definitions and lemmas to the spelling of today's Rattle, by text: a word with dashes becomes snake
case, and a type with dashes becomes camel case. Ran once, after the kit's own script; docs/PORT.md says when.

    tools/respell.py [ROOT]            rewrites crates/ below ROOT, and prints each name with its new spelling
    tools/respell.py [ROOT] --list     prints them and changes nothing

It also gives the crate `bytes` another name, `byte_slices`, since a library of the kit is called `bytes` now. Names that Rattle makes (goals, steps of a proof) and names of the library keep their dashes; so do the names of functions in src/.
"""
import os
import re
import sys

WORD = re.compile(r"[^\s()\[\]{},;.«»]+")
DASHED = re.compile(r"[A-Za-z0-9_']-[A-Za-z0-9_']")
SIGNATURE = re.compile(r"^\s*(?:(?:abbrev|unfoldable|pub|instance)\s+)*(?:(data|record|ruleset)\s+)?(?:pub\s+)?([^\s:=(){}\[\]]+)\s*((?:[({][^:]*:.*)?):(?!=)")
HEAD = re.compile(r"^\s*(?:pub\s+)?(data|record|ruleset)\s+([^\s:=(){}\[\]]+)")
PLAIN = re.compile(r"^\s*(?:(?:abbrev|unfoldable|pub)\s+)+([^\s:=(){}\[\]]+)\s*:")
ALIAS = re.compile(r"\bas\s+([^\s(){}\[\],;.]+)")
BOUND = re.compile(r"[({]([^\s:(){}]+(?:\s+[^\s:(){}]+)*)\s*:(?!:)")
LET = re.compile(r"\blet\s+([^\s:=(){}]+)")


def files(root, ends):
    for folder, dirs, names in os.walk(os.path.join(root, "crates")):
        dirs[:] = sorted(d for d in dirs if d != "out")
        for name in sorted(names):
            if name.endswith(ends):
                yield os.path.join(folder, name)


def code(line):
    return line.split("-- ")[0]


def made(line):
    """Whether the line gives a goal its type: Rattle made that name."""
    return bool(re.search(r":\s*goal\.", line))


def found(root):
    """The dashed names that the repository itself gives, and the kind of each."""
    kinds, goals, library = {}, set(), set()
    for path in files(root, (".antt", ".rt")):
        text = open(path, encoding="utf-8").read()
        for use in re.finditer(r"use\s+((?:Rattle\.std|borrow|logic|Prim|antt|native|mathlib|lib)[\w.]*)\.\{([^}]*)\}", text):
            library |= {w.split(" as ")[0].strip() for w in use[2].split(",")}
        if path.endswith(".rt"):
            for use in re.finditer(r"ghost use [^;]*;", text):
                for name in ALIAS.findall(use[0]):
                    kinds.setdefault(name, "word")
            continue
        for line in map(code, text.splitlines()):
            head = HEAD.match(line)
            name = None
            if head:
                name, kind = head[2], "type" if head[1] != "ruleset" else "word"
            else:
                signature = PLAIN.match(line) or re.match(r"^\s*(?:pub\s+)?([^\s:=(){}\[\]]+)\s*:(?!=)", line)
                if signature:
                    name = signature[1]
                    kind = "type" if re.search(r"Type 0\s*$", line) and name[0].isupper() else "word"
            if name and made(line):
                goals.add(name)
            elif name:
                kinds.setdefault(name, kind)
            if line.lstrip().startswith("use "):
                for alias in ALIAS.findall(line):
                    kinds.setdefault(alias, "word")
            else:
                for group in BOUND.findall(line):
                    for bound in group.split():
                        kinds.setdefault(bound, "word")
                for bound in LET.findall(line):
                    kinds.setdefault(bound, "word")
    return {n: k for n, k in kinds.items() if DASHED.search(n) and n not in goals and n not in library}, goals, library


def respelled(name, kind):
    if kind == "type":
        return "".join(part[:1].upper() + part[1:] for part in name.split("-"))
    if name[0].isupper():
        return name
    return re.sub(r"(?<=[A-Za-z0-9_'])-(?=[A-Za-z0-9_'])", "_", name)


def ghost(text):
    """The stretches of a .rt file that are no Rust: ghost items and clauses."""
    spans, i = [], 0
    for m in re.finditer(r"\b(?:ghost|requires|ensures|invariant|decreases)\b", text):
        if m.start() < i or text.rfind("\n", 0, m.start()) < text.rfind("//", 0, m.start()):
            continue
        j, deep = m.end(), 0
        while j < len(text):
            if text[j] == "{":
                deep += 1
            elif text[j] == "}":
                deep -= 1
                if not deep:
                    j += 1
                    break
            elif text[j] in ";\n" and not deep and text[m.start():m.start() + 5] == "ghost":
                break
            j += 1
        spans.append((m.start(), j))
        i = j
    return spans


def turned(text, names):
    return WORD.sub(lambda m: names.get(m[0], m[0]), text)


def crate_renamed(root, old, new):
    """The folder, its line in crates.txt and the paths to it, in code, clauses and proofs."""
    if not os.path.isdir(os.path.join(root, "crates", old)):
        return
    os.rename(os.path.join(root, "crates", old), os.path.join(root, "crates", new))
    for path in [os.path.join(root, "crates.txt"), *files(root, (".antt", ".rt", ".edit"))]:
        text = open(path, encoding="utf-8").read()
        if path.endswith("crates.txt"):
            turn = re.sub(rf"(?m)^(?!#).*$", lambda m: re.sub(rf"\b{old}\b", new, m[0]), text)
        else:
            turn = re.sub(rf"\b{old}::|\bRattle\.{old}\.", lambda m: m[0].replace(old, new), text)
        if turn != text:
            open(path, "w", encoding="utf-8").write(turn)


def main(argv):
    root = next((a for a in argv if not a.startswith("--")), ".")
    kinds, goals, library = found(root)
    names = {n: respelled(n, k) for n, k in kinds.items()}
    names = {n: w for n, w in names.items() if n != w}
    words = set()
    for path in files(root, (".antt",)):
        words |= set(WORD.findall(open(path, encoding="utf-8").read()))
    for name, word in sorted(names.items()):
        note = "   FALLS TOGETHER with a name that is there" if word in words else ""
        print(f"{name} {word}{note}")
    twice = [w for w in set(names.values()) if list(names.values()).count(w) > 1]
    for word in twice:
        print("TWICE", word)
    if "--list" in argv:
        return
    for path in files(root, (".antt", ".rt")):
        text = open(path, encoding="utf-8").read()
        if path.endswith(".antt"):
            new = "\n".join(turned(l.split(" -- ")[0], names) + (" -- " + " -- ".join(l.split(" -- ")[1:]) if " -- " in l else "") if not l.lstrip().startswith("--") else l for l in text.split("\n"))
        else:
            out, at = [], 0
            for a, b in ghost(text):
                out += [text[at:a], turned(text[a:b], names)]
                at = b
            new = "".join(out) + text[at:]
        if new != text:
            open(path, "w", encoding="utf-8").write(new)
    crate_renamed(root, "bytes", "byte_slices")


main(sys.argv[1:])
