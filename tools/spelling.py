#!/usr/bin/env python3
"""Brings the repository's own definitions, lemmas and record fields to snake case.

usage: python3 tools/spelling.py [--list]     at the top of the repository, once, after the kit's port.py

A name that is defined in specs/ or proofs/ and has a dash or an inner capital is written in snake case, where it is defined and wherever it is cited: in
specs/, in proofs/, in the clauses of src/ and between backquotes in the documents. A dash or an inner capital becomes an underscore; a number in capitals
keeps them, as ALARM_MONTH, but for two. A lemma that would have its definition's name gets _lem. Types, facts and modules keep their capital; functions, types and
constants of src/ keep their names, and so do the names that the prover makes. --list prints the names and changes nothing.
"""

import os
import re
import sys

NAME = r"[A-Za-z_\u0370-\u03ff][\w'\-\u2080-\u2089\u2264<\u2261\u2262]*"
WORD = re.compile(r"(?<![\w'\-\u25cc\u00b7])(" + NAME + r")")
HEAD = re.compile(r"^ *(?:(?:abbrev|unfoldable|pub|private) )*(" + NAME + r"(?: " + NAME + r")*) : (.*)")
RECORD = re.compile(r"^(?:pub )?(?:record|data|module) ")
MADE = re.compile(r"(tie|goal)\.")
DOCUMENTS = ["README.md", "docs/DECISIONS.md", "docs/FIGURES.md", "docs/MAP.md", "docs/PANEL.md", "host/README.md"]


def files(root):
    for folder, dirs, names in os.walk(os.path.join(root, "crates")):
        dirs[:] = sorted(d for d in dirs if d not in ("out", "must-fail"))
        for n in sorted(names):
            if n.endswith((".antt", ".rt")):
                yield os.path.join(folder, n)


def snake(name):
    if name[0].isupper():
        return name.replace("-", "_")
    return re.sub(r"([a-z0-9])([A-Z])", r"\1_\2", name).replace("-", "_").lower()


def defined(text):
    """The names that a file of specs/ or proofs/ defines: definitions, lemmas, fields and constructors."""
    for line in text.splitlines():
        m = HEAD.match(line)
        if m and not line.lstrip().startswith("--") and not RECORD.match(line) and not MADE.match(m.group(2)):
            yield from m.group(1).split()


def renamed(texts):
    """Each name that is spelled anew, with its new spelling."""
    names = {}
    for path, text in texts.items():
        if path.endswith(".antt"):
            for n in defined(text):
                if snake(n) != n:
                    names[n] = snake(n)
    for old, new in names.items():
        twin = [o for o, n in names.items() if n == new and o != old]
        if "-" in old and twin:
            names[old] = new + "_lem"
    return names


# Definitions in capitals that are no number, or that a clause cites beside a constant of the same name, which would be read in its place.
CAPITALS = {
    **{n: n.lower().replace("-", "_") for n in ("ABE", "AFE", "WDFEn", "BMB", "RB", "MD-H", "M-MS", "RPT1", "RPT2", "RPT3", "RPT4", "RPT5", "RPT6")},
    **{n: n.lower().replace("-", "_") for n in ("IMAGE-LEN", "LIMIT", "MD-H-wins")},
}

# Lemmas that were in snake case already and whose name a definition gets now, by the files that cite both.
LEMMAS = {
    "crates/edges/proofs/Readings.antt": ("all_hold", "same_bytes", "same_outcome"),
    "crates/image/proofs/Parts.antt": ("keys_in", "power_in"),
    "crates/image/proofs/decode_keys/Proof.antt": ("keys_in",),
    "crates/image/proofs/decode_power/Proof.antt": ("power_in",),
    "crates/notation/proofs/Parts.antt": ("number_by", "end_by"),
    "crates/series/proofs/supply_series/Proof.antt": ("one_more",),
}


def clause_lines(text):
    """Whether each line of a source file is of a ghost item or a clause, and so may cite a definition."""
    marks, depth, ghost = [], 0, False
    for line in text.splitlines(keepends=True):
        bare = line.strip()
        if not ghost and re.match(r"(?:ghost\b|requires\b|ensures\b)", bare):
            ghost, depth = True, 0
        marks.append(ghost)
        if ghost:
            depth += line.count("{") - line.count("}")
            if depth <= 0 and re.search(r"[{};]", line):
                ghost = False
    return marks


def turn(text, names):
    return WORD.sub(lambda m: names.get(m.group(1), m.group(1)), text)


def turn_quoted(text, names):
    return re.sub(r"`([^`\n]*)`", lambda m: "`" + turn(m.group(1), names) + "`", text)


def turn_line(line, names):
    """A line of antt; a name behind tie. or goal. is the prover's, and a comment cites names between backquotes."""
    m = re.search(r"(?:^|\s)--(?: |$)", line)
    code, comment = (line[: m.start()], line[m.start() :]) if m else (line, "")
    pieces = re.split(r"((?:tie|goal)\.[\w'\-\u2080-\u2089]+)", code)
    return "".join(p if i % 2 else turn(p, names) for i, p in enumerate(pieces)) + turn_quoted(comment, names)


def main(argv):
    root = os.getcwd()
    if not os.path.isdir(os.path.join(root, "crates")):
        raise SystemExit("spelling: run it at the top of the repository")
    texts = {}
    for p in [*files(root), *(os.path.join(root, d) for d in DOCUMENTS)]:
        with open(p, encoding="utf-8") as f:
            texts[p] = f.read()
    names = renamed(texts)
    if "--list" in argv:
        for old, new in sorted(names.items()):
            print(f"{old} -> {new}")
        return
    for path, text in texts.items():
        lines = text.splitlines(keepends=True)
        if path.endswith(".antt"):
            here = names | CAPITALS | {n: n + "_lem" for n in LEMMAS.get(os.path.relpath(path, root), ())}
            new = "".join(turn_line(l, here) for l in lines)
        elif path.endswith(".rt"):
            new = "".join(turn_line(l, names | CAPITALS) if on else l for l, on in zip(lines, clause_lines(text)))
        else:
            new = turn_quoted(text, names)
        if new != text:
            with open(path, "w", encoding="utf-8") as f:
                f.write(new)


if __name__ == "__main__":
    main(sys.argv[1:])
