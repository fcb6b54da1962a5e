#!/usr/bin/env python3
"""Respells the repository's own definitions, lemmas, fields and constructors: words in snake case, types in camel case.

usage: python3 tools/respell.py    at the top of the checkout, once, after the kit's port.py

The names are those that specs/ and the lemma files of proofs/ define with a dash in them. Each is respelled wherever it stands
as a whole word in a .antt, .rt or .edit file, but for strings. A name that a goal has (in a folder of one function's proof) stays.
It stops, and changes nothing, where two names would fall together.
"""

import collections
import os
import re
import sys

WORD = r"[\w'ℕ≤<≡∷+*·-]"
DEFINES = re.compile(r"^\s*(?:(?:pub|abbrev|unfoldable|data|record)\s+)*([^\s:(){}.|,;=]+)\s*(?:(?:\([^()]*\)|\{[^{}]*\})\s*)*:(?!:)", re.M)
IMPORTS = re.compile(r"use\s+(Rattle\.[\w.]+)\.\{([^}]*)\}")


def files():
    for folder, dirs, names in os.walk("crates"):
        dirs[:] = sorted(d for d in dirs if d != "out")
        for name in sorted(names):
            if name.endswith((".antt", ".rt", ".edit")):
                yield os.path.join(folder, name)


def is_lemma_file(path):
    parts = path.split(os.sep)
    return parts[2] == "specs" or parts[2] == "proofs" and len(parts) == 4


def respelled(name):
    if name[0].isupper():
        return "".join(part[:1].upper() + part[1:] for part in name.split("-"))
    return name.replace("-", "_")


def main():
    texts = {p: open(p, encoding="utf-8").read() for p in files()}
    own, defined = set(), collections.defaultdict(set)
    for p, t in texts.items():
        if p.endswith(".antt") and is_lemma_file(p):
            for m in DEFINES.finditer(t):
                defined[m.group(1)].add(p)
                if "-" in m.group(1).strip("-"):
                    own.add(m.group(1))
    goals = set()
    for p, t in texts.items():
        if p.endswith(".antt") and not is_lemma_file(p):
            goals |= {m.group(1) for m in re.finditer(r"^\s*(?:abbrev )?(?:pub )?(\S+) : goal\.", t, re.M)}
    own -= goals
    # another name of ours, or one that a file imports, may not get the same spelling in one file
    bad = []
    for p, t in texts.items():
        words = set(re.findall(WORD + "+", t))
        for n in own & words:
            if respelled(n) in words and not p.endswith(".rt"):
                bad.append(f"{p}: {n} and {respelled(n)}")
    twice = collections.defaultdict(set)
    for n in set(defined) | own:
        twice[respelled(n) if n in own else n].add(n)
    bad += [f"falls together: {sorted(v)}" for v in twice.values() if len(v) > 1]
    if bad and "--anyway" not in sys.argv:
        print("\n".join(sorted(bad)))
        raise SystemExit(1)
    if "--list" in sys.argv:
        print("\n".join(sorted(own)))
        return
    word = re.compile("(?<!" + WORD + ")(?:" + "|".join(map(re.escape, sorted(own, key=len, reverse=True))) + ")(?!" + WORD + ")")
    for p, t in texts.items():
        if p.endswith(".rt"):
            pieces = re.split(r'("(?:\\.|[^"\\])*")', t)
            new = "".join(x if i % 2 else word.sub(lambda m: respelled(m.group(0)), x) for i, x in enumerate(pieces))
        else:
            new = word.sub(lambda m: respelled(m.group(0)), t)
        if new != t:
            with open(p, "w", encoding="utf-8") as f:
                f.write(new)


main()
