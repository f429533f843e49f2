#!/usr/bin/env python3
"""Brings the definitions and lemmas of crates/ to today's spelling, once, after the kit's own script has run.

usage: tools/respell.py            in the repository's top folder: rewrites names in crates/
       tools/respell.py --names    prints each old name with its new one, and writes nothing

Functions, lemmas, constructors and fields are in snake case; a dash stays where it joins the names of two definitions;
constants keep their capitals and join words by `_`. Types, modules and facts keep upper camel case. Names of src/ are not touched.
"""
import collections
import os
import re
import sys

DECLARED = re.compile(r"^\s*((?:(?:unfoldable|abbrev|pub|data|record|ruleset)\s+)*)([^\s(){}\[\].,;:]+(?: [^\s(){}\[\].,;:]+)*)\s+:\s+(.*)$")
TOKEN = re.compile(r"[^\s(){}\[\].,;]+")
RUST_WORD = re.compile(r"[A-Za-z_][A-Za-z0-9_'-]*")
# names of std that a lemma's name may join by a dash, beside our own definitions
STD = {"length", "take", "drop"}


def texts(*endings):
    for folder, dirs, files in os.walk("crates"):
        dirs[:] = sorted(d for d in dirs if d != "out")
        for f in sorted(files):
            if f.endswith(endings):
                yield os.path.join(folder, f)


def snake(word):
    word = re.sub(r"([a-z])([A-Z0-9]*[A-Z])", r"\1_\2", word)
    return re.sub(r"([A-Z])([A-Z][a-z])", r"\1_\2", word).lower()


def is_camel(word):
    return re.match(r"[a-z]", word) and re.search(r"[A-Z]", word)


def declared():
    """Each name that specs/ or proofs/ declare, but for the goals of a function's proof; and those that specs/ declare."""
    names, defined = set(), set()
    for path in texts(".antt"):
        walk = os.path.basename(path) == "Proof.antt"
        with open(path, encoding="utf-8") as f:
            for line in f:
                m = DECLARED.match(line)
                if not m or line.lstrip().startswith("--") or (walk and m.group(3).startswith("tie.")):
                    continue
                names.update(m.group(2).split())
                if "/specs/" in path and not line.startswith(" "):
                    defined.update(m.group(2).split())
    return names, defined


def turned(names, defined):
    new = {}
    for name in sorted(names):
        if "-" in name.strip("-"):
            parts = name.split("-")
            if name.upper() == name:
                new[name] = "_".join(parts)
            elif len(parts) == 2 and all(p in defined or p in STD for p in parts):
                new[name] = "-".join(snake(p) if is_camel(p) else p for p in parts)
            else:
                new[name] = "_".join(snake(p) if is_camel(p) else p for p in parts)
        elif is_camel(name):
            new[name] = snake(name)
    together = collections.Counter(new.values())
    for a, b in new.items():
        # a lemma that would have its function's name
        if "-" in a and (together[b] > 1 or b in defined):
            new[a] = b + "_lem"
    return {a: b for a, b in new.items() if a != b}


def main():
    names, defined = declared()
    new = turned(names, defined)
    if sys.argv[1:] == ["--names"]:
        for a, b in new.items():
            print(a, b)
        return
    together = collections.Counter(new.values())
    words = set()
    for path in texts(".antt", ".rt"):
        with open(path, encoding="utf-8") as f:
            words.update(TOKEN.findall(f.read()))
    for a, b in new.items():
        if together[b] > 1 or b in words:
            print(f"look: {a} becomes {b}, which stands already or twice", file=sys.stderr)
    count = 0
    for path in texts(".antt", ".rt", ".edit"):
        with open(path, encoding="utf-8") as f:
            old = f.read()
        token = TOKEN if path.endswith(".antt") or "/specs/" in old else RUST_WORD
        walk = path.endswith("Proof.antt")

        def turn(m):
            # in a function's proof, what stands behind a point is a step of the code and no lemma
            if walk and "-" in m.group(0) and old[m.start() - 1 : m.start()] == ".":
                return m.group(0)
            return new.get(m.group(0), m.group(0))

        text = token.sub(turn, old)
        if text != old:
            count += 1
            with open(path, "w", encoding="utf-8") as f:
                f.write(text)
    print(f"respell: {len(new)} names, {count} files")


main()
