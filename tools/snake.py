#!/usr/bin/env python3
"""Writes the repository's own words of specs/ and proofs/ in snake case: `tasksOf` becomes `tasks_of`.

usage: python3 tools/snake.py [--look]      at the top of the repository; --look only says which words fall together in a file

Goes over the .antt, .rt and .edit files of crates/ and over the pages. Rust names, strings and types have no such words.
"""
import os
import re
import sys

WORD = re.compile(r"(?<![A-Za-z0-9_'\\])[a-z][a-z0-9_]*[A-Z][A-Za-z0-9_]*'*(?![A-Za-z0-9_'])")
KEEP = {"b'H'", "b'T'"}
# Lemmas that would fall together with a definition get their dash back.
LEMMAS = {"goes_to": ["crates/scheduler/proofs", "crates/guarantees/proofs", "crates/advance/proofs"], "told_of": ["crates/guard_file/proofs"], "all_hold": ["crates"]}


def snake(w):
    return re.sub(r"(?<=[a-z0-9])([A-Z])|(?<=[A-Z])([A-Z](?=[a-z]))", lambda m: "_" + m.group(0), w).lower()


def files():
    for folder, dirs, names in os.walk("crates"):
        dirs[:] = sorted(d for d in dirs if d != "out")
        for n in sorted(names):
            if n.endswith((".antt", ".rt", ".edit")):
                yield os.path.join(folder, n)


def words():
    found = set()
    for p in files():
        if not p.endswith(".edit"):
            with open(p, encoding="utf-8") as f:
                found |= set(WORD.findall(f.read()))
    return found - KEEP


def main():
    own = words()
    for w, places in LEMMAS.items():
        for p in files():
            if p.endswith(".antt") and p.startswith(tuple(places)) and "--look" not in sys.argv:
                with open(p, encoding="utf-8") as f:
                    t = f.read()
                n = re.sub(r"(?<![A-Za-z0-9_'.-])" + w + r"(?![A-Za-z0-9_'.-])", w.replace("_", "-"), t)
                if n != t:
                    with open(p, "w", encoding="utf-8") as f:
                        f.write(n)
    pages = ["README.md", "CONTRIBUTING.md"] + [os.path.join("docs", n) for n in sorted(os.listdir("docs")) if n.endswith((".md", ".txt"))]
    for n in sorted(os.listdir("docs/changes")):
        pages.append(os.path.join("docs/changes", n))
    for p in list(files()) + pages:
        with open(p, encoding="utf-8") as f:
            t = f.read()
        here = {w for w in WORD.findall(t) if w in own}
        for w in sorted(here):
            s = snake(w)
            if re.search(r"(?<![A-Za-z0-9_'])" + re.escape(s) + r"(?![A-Za-z0-9_'])", t):
                print(f"{p}: {w} falls together with {s}")
        if "--look" not in sys.argv and here:
            with open(p, "w", encoding="utf-8") as f:
                f.write(WORD.sub(lambda m: snake(m.group(0)) if m.group(0) in own else m.group(0), t))


main()
