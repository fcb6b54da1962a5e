#!/usr/bin/env python3
"""Lists places in crates/*/src that may have an older form, by point: python3 tools/count_places.py [COMMIT]

Without a commit it reads the work tree. It goes by text: what it lists are candidates, and a person decides.
1  own enums; flags and numbers for kinds in fields
2  pairs of functions or types that are alike but for names, types and numbers
3  loops that are no `for` over values: `while`, `loop`, `for` over a range; counters
4  derived traits written by hand; functions that turn one value into another; casts
5  clauses that stand in three or more functions; three or more parameters that stand in three or more functions
6  arrays and slices with a length beside them in a struct
7  traits with one method; matches that choose what to run
"""
import difflib
import itertools
import re
import subprocess
import sys


def sources(commit):
    """The files of crates/*/src, by path."""
    if commit:
        tree = ["git", "ls-tree", "-r", "--name-only", commit, "crates"]
    else:
        tree = ["git", "ls-files", "crates"]
    names = subprocess.run(tree, capture_output=True, text=True, check=True).stdout.split()
    for name in names:
        if re.match(r"crates/\w+/src/.*\.rt$", name):
            if commit:
                show = ["git", "show", f"{commit}:{name}"]
                yield name, subprocess.run(show, capture_output=True, text=True, check=True).stdout
            else:
                with open(name, encoding="utf-8") as f:
                    yield name, f.read()


def functions(text):
    """Name, head and body of each function, by the braces."""
    for m in re.finditer(r"^( *)(?:pub(?:\(crate\))? )?(?:const )?fn (\w+)", text, re.M):
        close = text.find("\n" + m.group(1) + "}", m.end())
        rest = text[m.start() : close]
        body = rest.find("\n" + m.group(1) + "{")
        if body < 0:
            body = rest.find("{")
        yield m.group(2), rest[:body], rest[body:]


def plain(code):
    """Code without names, types, numbers and layout: what is left is its shape."""
    code = re.sub(r"//.*", "", code)
    words = re.findall(r"\w+|[^\s\w]", code)
    keep = {"if", "else", "match", "for", "while", "let", "return", "mut", "in", "impl", "self", "Some", "None", "Ok", "Err"}
    return [w if w in keep or not re.match(r"\w", w) else "_" for w in words]


def report(point, what, places):
    print(f"{point} {what}: {len(places)}")
    for p in places:
        print(f"    {p}")


def main():
    commit = sys.argv[1] if len(sys.argv) > 1 else None
    files = dict(sources(commit))
    code = {n: t.split("#[cfg(test)]\nmod tests {")[0] for n, t in files.items() if "/tests" not in n}
    funs = [(n, *f) for n, t in code.items() for f in functions(t)]

    def lines(pattern, where=files):
        return [f"{n}:{i}: {l.strip()}" for n, t in where.items() for i, l in enumerate(t.split("\n"), 1) if re.search(pattern, l)]

    report(1, "own enums", lines(r"^(pub |pub\(crate\) )?enum "))
    report(1, "flags in fields", lines(r"^    (pub |pub\(crate\) )?\w+: bool,"))
    report(1, "numbers named for kinds", lines(r"\b(field|kind|code|cause|state|role)\w*: u(8|16|32|size)\b"))

    alike = []
    for (n, f, _, b), (m, g, _, c) in itertools.combinations(funs, 2):
        x, y = plain(b), plain(c)
        if f != g and min(len(x), len(y)) > 12 and difflib.SequenceMatcher(None, x, y, False).ratio() > 0.9:
            alike.append(f"{n} {f} ~ {m} {g}")
        elif f == g and n.split("/")[1] != m.split("/")[1] and min(len(x), len(y)) > 12:
            if difflib.SequenceMatcher(None, x, y, False).ratio() > 0.75:
                alike.append(f"{n} {f} ~ {m} {g}")
    report(2, "functions alike", alike)
    types = []
    for n, t in code.items():
        for m in re.finditer(r"struct (\w+)[^{;]*\{(.*?)\n\}", t, re.S):
            types.append((f"{n} {m.group(1)}", re.findall(r"^    (?:pub(?:\(crate\))? )?(\w+):", m.group(2), re.M)))
    report(2, "types with two or more fields of the same names", [f"{a} ~ {b}: {', '.join(sorted(set(x) & set(y)))}" for (a, x), (b, y) in itertools.combinations(types, 2) if len(set(x) & set(y)) > 1])

    report(3, "while and loop", lines(r"^\s*('\w+: )?(while|loop)\b"))
    report(3, "for over a range", lines(r"^\s*('\w+: )?for .* in .*\.\."))
    report(3, "counters", lines(r"^\s*\w+ [+-]= 1;", code))

    report(4, "derivable traits by hand", lines(r"^impl.* (Clone|Copy|PartialEq|Eq|PartialOrd|Ord|Hash|Debug|Default) for "))
    report(4, "conversions by name", [f"{n} {f}" for n, f, h, b in funs if re.search(r"(_of|_field|^code|^same|^eq|_bytes|_word|^listed|^number|^watts|^nothing|^to_|^from_|_by)$", f)])
    report(4, "casts", lines(r"\bas (u|i)(8|16|32|64|size)\b", code))

    clauses = {}
    groups = {}
    for n, f, h, b in funs:
        for c in re.findall(r"(?:requires|ensures)(?: \w+)? \{ (.*) \}$", h, re.M):
            for part in re.findall(r"[\w.* ]+ [<≤] [\w.* ]+", c):
                part = re.sub(r"\bself\.(now|old|new)\.|\.(now|old|new)\b", "", part).strip()
                clauses.setdefault(part, set()).add(f"{n} {f}")
        names = re.findall(r"\b([a-z]\w*): ", h.split(") ->")[0])
        for g in itertools.combinations(sorted(set(names)), 3):
            groups.setdefault(g, set()).add(f"{n} {f}")
    report(5, "bounds in three or more contracts", [f"{c}: {len(v)}: {', '.join(sorted(v))}" for c, v in sorted(clauses.items()) if len(v) > 2])
    shared = {}
    for g, v in groups.items():
        if len(v) > 2:
            shared.setdefault(tuple(sorted(v)), set()).update(g)
    report(5, "three parameters in three or more functions", [f"{', '.join(sorted(g))}: {len(v)}: {', '.join(v)}" for v, g in sorted(shared.items())])

    buffers = []
    for n, t in code.items():
        for m in re.finditer(r"struct (\w+)[^{;]*\{(.*?)\n\}", t, re.S):
            holds = re.findall(r"^    (?:pub(?:\(crate\))? )?(\w+): (?:\[.*; \w+\]|&'a mut \[.*\]),", m.group(2), re.M)
            beside = re.findall(r"^    (?:pub(?:\(crate\))? )?(\w*(?:len|count|at|gateways|progress|more)\w*): ", m.group(2), re.M)
            beside = [x for x in beside if x not in holds]
            if holds and beside:
                buffers.append(f"{n} {m.group(1)}: {', '.join(holds)} beside {', '.join(beside)}")
    report(6, "arrays and slices with a length beside", buffers)

    report(7, "traits", lines(r"^(pub )?trait "))


main()
