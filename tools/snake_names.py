#!/usr/bin/env python3
"""Spells the repository's own ghost names as today's Rattle does: definitions and lemmas in snake case, types in camel case.

usage: tools/snake_names.py        at the top of the repository, once, after the kit's port.py

A name is turned only if an .antt file of the repository defines it (definition, lemma, record, field, constructor). Comments and strings, names that the check
generates (`loop-r-init`) and names of the library stay. It prints each name that it turns, and stops before it
writes anything where two names would fall together.
"""
import os
import re
import sys

# names that would fall together with one of the library
OTHERS = {"bit-and": "bit_of_and", "bit-or": "bit_of_or"}
WORD = re.compile(r"[^\s(){}\[\];,.\"`@]+")
DEFINES = re.compile(r"\s*(?:(?:abbrev|unfoldable|opaque|private|pub)\s+)*([^\s(){}\[\];,.\"`]+)\s+:\s*(.*)")
DECLARES = re.compile(r"\s*(?:pub\s+)?(?:record|data)\s+([^\s(){}\[\];,.\"`]+)")
CONSTRUCTS = re.compile(r"\s*\|?\s*(?:pub\s+)?([^\s(){}\[\];,.\"`|]+)\s+:")


def files(root):
    for folder, dirs, names in os.walk(os.path.join(root, "crates")):
        dirs[:] = sorted(d for d in dirs if d != "out")
        for name in sorted(names):
            if name.endswith((".antt", ".rt")):
                yield os.path.join(folder, name)


def pieces(text, rust):
    """The text in pieces: (is it code, piece). Comments and strings are no code."""
    comment = r"//[^\n]*" if rust else r"(?<![^\s(){}\[\];,])--(?![^\s(){}])[^\n]*"
    at = 0
    for m in re.finditer(comment + r'|b?"(?:\\.|[^"\\])*"', text):
        yield True, text[at : m.start()]
        yield False, m[0]
        at = m.end()
    yield True, text[at:]


def turned(name):
    if name in OTHERS:
        return OTHERS[name]
    if name[0].isupper():
        return "".join(part[:1].upper() + part[1:] for part in name.split("-"))
    return name.replace("-", "_")


def defined(texts):
    found = {}
    for path, text in texts.items():
        if not path.endswith(".antt"):
            continue
        for line in text.split("\n"):
            line = "".join(p for code, p in pieces(line, False) if code)
            for m in (DEFINES.match(line), DECLARES.match(line), CONSTRUCTS.match(line)):
                if m and not (m.re is DEFINES and m[2].startswith("goal.")) and re.search(r"[^\W\d]-|-[^\W\d]|-⊆", m[1]) and "->" not in m[1]:
                    found.setdefault(m[1], path)
    return found


def main():
    root = os.getcwd()
    texts = {p: open(p, encoding="utf-8").read() for p in files(root)}
    names = defined(texts)
    generated = {m[1] for t in texts.values() for m in re.finditer(r"^pub (\S+) : goal\.", t, re.M)}
    names = {n: p for n, p in names.items() if n not in generated}
    taken = set()
    for path, text in texts.items():
        if path.endswith(".antt"):
            for line in text.split("\n"):
                for m in (DEFINES.match(line), DECLARES.match(line)):
                    if m:
                        taken.add(m[1])
    clash = [n for n in names if turned(n) in taken]
    new = {}
    for n in names:
        new.setdefault(turned(n), []).append(n)
    clash += [n for ns in new.values() if len(ns) > 1 for n in ns]
    if clash:
        print("these would fall together with others:", *sorted(clash), file=sys.stderr)
        raise SystemExit(1)
    for path, text in texts.items():
        out = "".join(WORD.sub(lambda m: turned(m[0]) if m[0] in names else m[0], p) if code else p for code, p in pieces(text, path.endswith(".rt")))
        if out != text:
            with open(path, "w", encoding="utf-8") as f:
                f.write(out)
    for n in sorted(names):
        print(n, turned(n))


main()
