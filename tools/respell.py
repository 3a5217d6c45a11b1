#!/usr/bin/env python3
"""Brings this repository's own names in specs/ and proofs/ to the spelling of the standard library.

usage: python3 tools/respell.py [--clashes]    at the top of the repository, once, after the toolchain's own script

A definition or lemma a-b-c becomes a_b_c, a type or fact A-b becomes AB. Names are collected from the signatures in
specs/ and proofs/ and from EXTRA. Names that the prover makes keep their spelling: those that a proof reads behind
c. , l. or w. , and the goals that it answers. Code, strings, inputs and outputs keep theirs. The pages under docs/
follow where they quote a name. With --clashes it changes nothing, and lists the names that another item has already.
"""

import os
import re
import sys

# names that stand behind `as`, in clauses without a signature of their own, or as variables
EXTRA = """in-family in-search in-point in-proof in-state list-fault-of point-fault-of proof-fault-of state-fault
square-bounds linear-bounds square-costs linear-costs linear-meaning squares-meaning of-linear of-squares point-call
proof-call split-call mapped-option So-far is-n is-p is-gap is-rates same-b same-o kind-of""".split()

# names whose plain spelling another item has
OTHER = {"Last-line": "IsLastLine", "bit-and": "bit_of_and", "bit-or": "bit_of_or"}

NAME = r"[A-Za-z_][\w'′]*(?:-[\w'′]+)+"
TOKEN = re.compile(r"(?<![\w'′·-])" + NAME + r"(?![\w'′·-])")
SIGNATURE = re.compile(r"\s*(?:pub |abbrev |unfoldable |record |data )*(" + NAME + r")\s*(?:\{[^}]*\}\s*|\([^)]*\)\s*)*:(?!\s*goal\.)")


def files(root, endings):
    for folder, dirs, names in os.walk(root):
        dirs[:] = sorted(d for d in dirs if d != "out")
        for name in sorted(names):
            if name.endswith(endings):
                yield os.path.join(folder, name)


def spelled(name):
    if name in OTHER:
        return OTHER[name]
    if name[0].isupper():
        return "".join(p[0].upper() + p[1:] for p in name.split("-"))
    return name.replace("-", "_")


def made(text, start):
    """Whether the name at this place is one that the prover makes, read behind a step."""
    before = text[max(0, start - 40):start]
    return re.search(r"(?<![\w'.])(?:c|l|w|goal)\.$", before) is not None


def turned(text, names, taken):
    def one(m):
        name = m.group(0)
        if name not in names or made(text, m.start()):
            return name
        return spelled(name)

    return TOKEN.sub(one, text)


def main():
    texts = {p: open(p, encoding="utf-8").read() for p in files("crates", (".antt", ".rt", ".edit"))}
    names = set(EXTRA)
    for p, text in texts.items():
        if p.endswith(".antt"):
            for line in text.split("\n"):
                m = SIGNATURE.match(re.sub(r"--.*", "", line))
                if m:
                    names.add(m.group(1))
    used = set()
    for p, text in texts.items():
        used |= set(re.findall(r"[A-Za-z_][\w'′]*", text))
    clash = sorted(n for n in names if spelled(n) in used)
    groups = {}
    for n in names:
        groups.setdefault(spelled(n), set()).add(n)
    clash += sorted(str(sorted(g)) for g in groups.values() if len(g) > 1)
    if "--clashes" in sys.argv:
        print("\n".join(clash))
        return 0
    for p, text in texts.items():
        new = turned(text, names, used)
        if new != text:
            open(p, "w", encoding="utf-8").write(new)
    for p in ["README.md", *files("docs", ".md")]:
        if os.path.basename(p).startswith("PORT"):
            continue
        text = open(p, encoding="utf-8").read()
        new = re.sub(r"`[^`\n]+`", lambda m: turned(m.group(0), names, used), text)
        if new != text:
            open(p, "w", encoding="utf-8").write(new)
    print(f"{len(names)} names")
    return 0


if __name__ == "__main__":
    raise SystemExit(main())
