#!/usr/bin/env python3
"""Turns the names of goals and of facts in the answers of one crate to the spelling that the check makes today.

usage: python3 tools/turn_goal_names.py NAME    at the top of the checkout; crates below NAME are proved

The check lists the names that it makes for each function; a word of an answer that differs from one of them only in dashes and
underscores is turned to it.
"""

import collections
import json
import os
import re
import subprocess
import sys
import tempfile

WORD = re.compile(r"(?<![\w'-])[A-Za-z][\w']*(?:-[\w']+)+(?![\w'-])|(?<![\w'-])[A-Za-z]\w*_[\w']*(?![\w'-])")


def strings(v):
    if isinstance(v, str):
        yield v
    elif isinstance(v, list):
        for x in v:
            yield from strings(x)
    elif isinstance(v, dict):
        for k, x in v.items():
            yield k
            yield from strings(x)


def plain(word):
    return word.replace("_", "-")


def main():
    crate = sys.argv[1]
    to = tempfile.mkdtemp()
    subprocess.run(["rt", "check", "--generated", to, "--old-names"], cwd=f"crates/{crate}", stdout=subprocess.DEVNULL, stderr=subprocess.DEVNULL)
    made = collections.defaultdict(set)
    with open(os.path.join(to, "names.json")) as f:
        for key, value in json.load(f).items():
            if "-proofs." not in key:
                continue
            folder = key.split("-proofs.", 1)[1]
            folder = re.sub(r"\.Lts(-\w+)?$", "", folder).replace(".", "/")
            made[folder] |= set(strings(value))
    for folder, words in sorted(made.items()):
        at = f"crates/{crate}/proofs/{folder}"
        if not os.path.isdir(at):
            continue
        by_plain = collections.defaultdict(set)
        for w in words:
            by_plain[plain(w)].add(w)

        def turned(m):
            w = m.group(0)
            found = by_plain.get(plain(w), set())
            return next(iter(found)) if len(found) == 1 and w not in words else w

        for name in sorted(os.listdir(at)):
            p = os.path.join(at, name)
            if name.endswith(".antt") and os.path.isfile(p):
                t = open(p, encoding="utf-8").read()
                lines = [x if x.startswith("use ") and ".Goals.{" not in x else WORD.sub(turned, x) for x in t.split("\n")]
                new = "\n".join(lines)
                if new != t:
                    print(p)
                    with open(p, "w", encoding="utf-8") as f:
                        f.write(new)


main()
