#!/usr/bin/env python3
"""Lists, for each point of docs/DESIGN-PASS.md, the lines of crates/*/src that its question is asked of.

    python3 tools/places.py [FOLDER] [POINT] [-v]

prints how many there are for each point, or with -v the lines. It finds candidates by their form; which of
them are places, and what became of each, docs/DESIGN-PASS.md says."""

import collections
import glob
import os
import re
import sys

WORD = re.compile(r"[A-Za-z_]\w*|\d[\w.]*|\"[^\"]*\"|b'[^']*'|\S")


def sources(folder):
    for path in sorted(glob.glob(os.path.join(folder, "crates/*/src/**/*.rt"), recursive=True)):
        yield os.path.relpath(path, folder), open(path).read()


def functions(text):
    """Name, line, signature with clauses, and body of each function."""
    for m in re.finditer(r"^[ ]*(?:pub(?:\([a-z]+\))? )?(?:extern \"C\" )?fn (\w+)", text, re.M):
        at = m.end()
        brace = re.compile(r"^[ ]*(?:requires|ensures|ghost)[^\n]*$|[{;]", re.M)
        while True:
            b = brace.search(text, at)
            if b is None:
                break
            if b.group() in "{;":
                break
            at = b.end()
        if b is None or b.group() == ";":
            continue
        depth, end = 0, b.start()
        for i in range(b.start(), len(text)):
            depth += {"{": 1, "}": -1}.get(text[i], 0)
            if depth == 0:
                end = i
                break
        yield m.group(1), text.count("\n", 0, m.start()) + 1, text[m.start():b.start()], text[b.start():end + 1]


def lines(folder, pattern):
    found = []
    for path, text in sources(folder):
        for n, line in enumerate(text.split("\n"), 1):
            if re.search(pattern, line) and not line.lstrip().startswith("//"):
                found.append(f"{path}:{n}: {line.strip()}")
    return found


def shape(body):
    """A body with every name and literal replaced by the order in which it first stood."""
    names = {}
    keep = {"let", "mut", "for", "in", "if", "else", "match", "return", "while", "self", "Some", "None", "Ok", "Err"}
    return " ".join(w if w in keep or not re.match(r"[\w\"b]", w) else f"n{names.setdefault(w, len(names))}" for w in WORD.findall(body))


def twins(folder):
    groups = collections.defaultdict(list)
    for path, text in sources(folder):
        if path.endswith("tests.rt") or "crates/cases/" in path:
            continue
        for name, n, _, body in functions(text):
            s = shape(body)
            if len(s.split()) >= 12:
                groups[s].append(f"{path}:{n}: {name}")
    return [" = ".join(g) for g in groups.values() if len(g) > 1]


def clauses(folder):
    """A clause of a requires or an ensures that stands in three contracts or more."""
    groups = collections.defaultdict(list)
    for path, text in sources(folder):
        for m in re.finditer(r"(requires|ensures)(?: \w+)? (\{.*\})$", text, re.M):
            groups[m.group(2)].append(f"{path}:{text.count(chr(10), 0, m.start()) + 1}")
    return [f"{len(v)}x {k}: " + " ".join(v) for k, v in groups.items() if len(v) >= 3]


def travellers(folder):
    """Pairs of parameters, by name and type, that three functions or more of a crate take together."""
    groups = collections.defaultdict(list)
    for path, text in sources(folder):
        crate = path.split("/")[1]
        if crate == "cases" or path.endswith("tests.rt"):
            continue
        for name, _, sig, _ in functions(text):
            params = sorted(set(re.findall(r"(\w+): ((?:&(?:'a )?(?:mut )?)?[A-Za-z\[\]<>'_0-9; ]+?)(?=[,)\n])", sig.split("ensures")[0].split("requires")[0])))
            for i, a in enumerate(params):
                for b in params[i + 1:]:
                    groups[crate, a, b].append(name)
    return [f"{c}: {a[0]}: {a[1]}, {b[0]}: {b[1]} in {len(v)}: " + " ".join(v) for (c, a, b), v in groups.items() if len(v) >= 3]


def answers(folder):
    found = []
    for path in sorted(glob.glob(os.path.join(folder, "crates/*/proofs/**/*.antt"), recursive=True)):
        for line in open(path):
            m = re.match(r"pub ([\w-]+) : goal\.", line)
            if m:
                found.append(f"{os.path.relpath(path, folder)}: {m.group(1)}")
    return found


POINTS = {
    1: ("enums, flags in structs, numbers for kinds and refusals", lambda f: lines(
        f, r"^\s*(pub(\([a-z]+\))? )?enum |^\s*(pub )?\w+: bool,$|kind: u8|match script\.byte|^\s*\d+ => (?!Some|Ok)|\(usize, usize\)>|\(0, 0\)")),
    2: ("functions of one shape", twins),
    3: ("loops over numbers, and numbers counted by hand", lambda f: lines(f, r"\bfor \w+ in [^{]*\.\.|\bwhile |\+= 1;|saturating_add\(1\)")),
    4: ("comparisons, conversions and printing by hand", lambda f: lines(
        f, r"fn (of|of_\w+|number|lesser|greater|is_below|digit|add_bytes|\w*_of)\(|refused \{|if .* [<>] .* \{ .* \} else \{ .* \}")),
    5: ("clauses that stand in three contracts, parameters that travel together", lambda f: clauses(f) + travellers(f)),
    6: ("arrays kept or made, lengths beside them", lambda f: lines(f, r"(: |= )\[[^\]]*; [^\]]*\]|_length|^\s*count: usize|Vec<\w+>,$|\[k\]|\[i\]")),
    7: ("tables of functions, and matches that choose a step", lambda f: lines(f, r"\bfn\(|\bdyn \w|^\s*(\w+::\w+( \{.*\})?|\d+) => .*(\(.*\)|\.\w+\(.*\)),?$")),
    8: ("answers written by hand", answers),
}


def main():
    words = [w for w in sys.argv[1:] if w != "-v"]
    folder = next((w for w in words if not w.isdigit()), ".")
    only = [int(w) for w in words if w.isdigit()] or sorted(POINTS)
    for point in only:
        title, find = POINTS[point]
        found = find(folder)
        print(f"{point}. {title}: {len(found)}")
        if "-v" in sys.argv:
            for line in found:
                print("   ", line)


main()
