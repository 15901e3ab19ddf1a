#!/usr/bin/env python3
"""Brings the names of this repository's definitions and lemmas to snake case, and those of its types and facts to camel case.

usage: python3 tools/respell.py [--dry]     at the top of the repository, right after the toolchain's own port script

A name is ours if a file of specs/ or proofs/ declares it, as a definition, a lemma, a field or a constructor, or if an import
gives it by 'as', and it is no goal of a function's proof. Only names with a dash are turned: `first-use` to `first_use`, `All-fit` to `AllFit`. Comments are
turned along with the text; strings are not. It says where two names would fall together.
"""
import os
import re
import sys

TOKEN = re.compile(r"[^\s(){}\[\];,.=λ:|\"`]+")
DECLARES = re.compile(r"\s*(?:abbrev |unfoldable )?(?:pub )?(?:record |data )?(" + TOKEN.pattern + r")\s*(?:\{[^}]*\}\s*|\([^)]*\)\s*)*:(?:\s|$)")

IMPORTED = re.compile(r" as (" + TOKEN.pattern + r"-" + TOKEN.pattern + r")")
# the port script leaves the first in two places; the second would be the name of another type
BY_HAND = {"meet-below": "meet_below", "Type-row": "TypeRefused"}


def files(ends):
    for folder, dirs, names in os.walk("crates"):
        dirs[:] = sorted(d for d in dirs if d != "out")
        for name in sorted(names):
            if name.endswith(ends):
                yield os.path.join(folder, name)


def read(path):
    with open(path, encoding="utf-8") as f:
        return f.read()


def declared():
    """Names with a dash that the repository declares, and those that are goals of a function."""
    own, goals = set(), set()
    for path in files(".antt"):
        for line in read(path).split("\n"):
            if line.strip().startswith("use "):
                own.update(IMPORTED.findall(line))
            if line.strip().startswith(("--", "use ")):
                continue
            m = DECLARES.match(line)
            if m and "-" in m.group(1):
                (goals if "goal." in line else own).add(m.group(1))
    return own, goals


def respelt(name):
    parts = name.split("-")
    if name[0].isupper():
        return "".join(p[0].upper() + p[1:] for p in parts)
    return "_".join(parts)


def turn(text, names):
    out = []
    for k, piece in enumerate(re.split(r'("(?:[^"\\\n]|\\.)*")', text)):
        out.append(piece if k % 2 else TOKEN.sub(lambda m: names.get(m.group(0), m.group(0)), piece))
    return "".join(out)


def main(argv):
    own, goals = declared()
    names = {n: respelt(n) for n in own - goals} | BY_HAND
    for n in sorted(own & goals):
        print(f"also a goal, left: {n}")
    back = {}
    for old, new in names.items():
        back.setdefault(new, []).append(old)
    for new, olds in sorted(back.items()):
        if len(olds) > 1:
            print(f"fall together: {', '.join(sorted(olds))} to {new}")
    for path in files((".antt", ".rt")):
        text = read(path)
        tokens = set(TOKEN.findall(text))
        for old in sorted(tokens & names.keys()):
            if names[old] in tokens:
                print(f"{path}: has {names[old]} beside {old}")
        turned = turn(text, names)
        if turned != text and "--dry" not in argv:
            with open(path, "w", encoding="utf-8") as f:
                f.write(turned)
    print(f"{len(names)} names")


if __name__ == "__main__":
    main(sys.argv[1:])
