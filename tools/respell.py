#!/usr/bin/env python3
"""After port.py: brings the repository's own definitions and lemmas to snake case.

usage: python3 tools/respell.py [--docs] [FOLDER]      at the top of the repository, once, right after port.py

Every name that a file of specs/ or proofs/ declares in lower camel case is respelled, wherever it stands as a whole word in crates/
(source, specs, proofs, edits). Functions, types, exported names, strings, inputs and outputs keep their names.
With --docs the pages of docs/ (landing notes aside) and README.md are respelled as well, and nothing else.
It stops where two names would fall together.
"""
import re
import sys
from pathlib import Path

# Lemmas that stand aside for a definition of the new name.
ASIDE = {
    "left_out": "left_out-is",
    "lines_after": "lines_after-is",
    "none_before": "none_before-found",
    "part_bytes": "bytes-part",
    "stays_by": "stays_by-noted",
}
WORD = r"(?<![^\s(){}\[\],;.«»`|])(%s)(?![^\s(){}\[\],;.«»`|:!?])"
DECLARED = re.compile(r"^\s*(?:(?:pub|abbrev|unfoldable|data|record|ruleset)\s+)*([^:=]*?)\s+:(?:\s|$)")


def snake(name):
    name = name.replace("getD", "get_or")
    return re.sub(r"([a-z0-9])([A-Z])", lambda m: m[1] + "_" + m[2].lower(), name)


def declared(top):
    names = set()
    for path in (top / "crates").rglob("*.antt"):
        if "out" in path.parts:
            continue
        for line in path.read_text(encoding="utf-8").splitlines():
            m = None if line.lstrip().startswith("--") else DECLARED.match(line)
            for n in m[1].split() if m else []:
                if re.match(r"^[^\s(){}\[\],;:λ→.\"]+$", n):
                    names.add(n)
    return names


def main(argv):
    docs = "--docs" in argv
    argv = [a for a in argv if a != "--docs"]
    top = Path(argv[0] if argv else ".")
    listed = top / "tools" / "respelled.txt"
    if docs:
        table = dict(l.split() for l in listed.read_text(encoding="utf-8").splitlines() if l and not l.startswith("#"))
        paths = [top / "README.md", *sorted((top / "docs").glob("*.md"))]
    else:
        names = declared(top)
        table = {n: snake(n) for n in names if n[0].islower() and re.search(r"[a-z][A-Z]", n)}
        table |= {a: b for a, b in ASIDE.items() if a in names}
        for old, new in table.items():
            if new in names - set(ASIDE):
                sys.exit(f"{old} and {new} would fall together")
        if len(set(table.values())) != len(table):
            sys.exit("two respelled names would fall together")
        paths = [p for p in sorted((top / "crates").rglob("*")) if p.suffix in (".rt", ".antt", ".edit") and "out" not in p.parts]
        listed.write_text("# tools/respell.py: each name before and after\n" + "".join(f"{a} {b}\n" for a, b in sorted(table.items())), encoding="utf-8")
    word = re.compile(WORD % "|".join(re.escape(n) for n in sorted(table, key=len, reverse=True)))
    for path in paths:
        text = path.read_text(encoding="utf-8")
        turned = word.sub(lambda m: table[m[1]], text)
        if turned != text:
            path.write_text(turned, encoding="utf-8")


main(sys.argv[1:])
