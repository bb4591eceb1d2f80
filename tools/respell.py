#!/usr/bin/env python3
"""Respells this repository's own definitions and lemmas as today's library spells its words.

usage: python3 tools/respell.py        at the top of the repository, once, right after the kit's own script

Words are in snake case (`sum-where` becomes `sum_where`), types in camel case (`In-time` becomes `InTime`). Only names
that a file of specs/ or proofs/ declares are turned, and each wherever it stands as a whole word: in specs/, in proofs/,
in the clauses and ghost items of src/, and in the edits under must-fail/. Names of functions, strings, comments, inputs
and outputs stay. It stops, and writes nothing, where two names would fall together.
"""

import glob
import re
import sys

WORD = re.compile(r"[A-Za-z_][A-Za-z0-9_'\-]*")
DECLARED = re.compile(
    r"^\s*(?:abbrev |unfoldable )?(?:pub )?(?:abbrev |unfoldable )?(?:record |data )?([A-Za-z_][\w'-]*)(?: \(.*\)| \{.*\})* : "
)


def without_comment(line):
    return re.sub(r"--.*", "", line)


def new_name(name):
    if name[0].isupper():
        return "".join(w[:1].upper() + w[1:] for w in re.split("[-_]", name))
    return name.replace("-", "_")


def declared():
    names = set()
    for path in glob.glob("crates/*/specs/*.antt") + glob.glob("crates/*/proofs/*.antt"):
        with open(path, encoding="utf-8") as f:
            for line in f:
                m = DECLARED.match(without_comment(line))
                if m:
                    names.add(m.group(1))
    return names


def turn(text, names):
    return WORD.sub(lambda m: names.get(m.group(0), m.group(0)), text)


def turn_code(line, names):
    """A line of src/: not its strings, not its comment."""
    parts = re.split(r'("(?:[^"\\]|\\.)*"|//.*)', line)
    return "".join(p if i % 2 else turn(p, names) for i, p in enumerate(parts))


def main():
    all_names = declared()
    names = {n: new_name(n) for n in all_names if new_name(n) != n}
    taken = [(n, m) for n, m in sorted(names.items()) if m in all_names or list(names.values()).count(m) > 1]
    if taken:
        sys.exit(f"respell: names fall together: {taken}")
    files = 0
    for path in sorted(glob.glob("crates/**/*", recursive=True)):
        if not path.endswith((".antt", ".rt", ".edit")) or "/out/" in path:
            continue
        with open(path, encoding="utf-8") as f:
            old = f.read()
        each = turn if path.endswith(".antt") else turn_code
        new = "".join(each(line, names) for line in old.splitlines(keepends=True))
        if new != old:
            files += 1
            with open(path, "w", encoding="utf-8") as f:
                f.write(new)
    print(f"respell: {len(names)} names, {files} files")


main()
