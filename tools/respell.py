#!/usr/bin/env python3
"""Brings the repository's own definitions and lemmas to snake case, in specs, proofs and the clauses of src/.

usage: python3 tools/respell.py            at the top, once, right after the kit's port.py
       python3 tools/respell.py --show     says what it would rename, and which names would fall together

It renames what an .antt file of specs/ or proofs/ declares: `isBlank` becomes `is_blank`, `span-stop` `span_stop`. Names that begin
with a capital, and functions, fields, types and strings of src/ keep their spelling. Where two names would fall together, the lemma
gets `_lem`, as the kit's guide says.
"""

import os
import re
import sys

# The characters of a name of antt's.
WORD = re.compile(r"[A-Za-z0-9_'\-\u2080-\u2089\u2032\u03bc\u2124\u2115]+")
DECLARED = re.compile(r"^\s*(?:(?:pub|unfoldable|abbrev|opaque)\s+)*((?:[^\s:(){}\[\],;=]+ )+):(?: |$)", re.M)
# What the kit generates or wants in these spellings stands in proof files of functions, which this reads for names but not for declarations.
OF_FUNCTIONS = re.compile(r"crates/\w+/proofs/.+/(Proof|Invariants|Answers)\.antt")


def files(ending):
    for folder, dirs, names in os.walk("crates"):
        dirs[:] = sorted(d for d in dirs if d != "out")
        for name in sorted(names):
            if name.endswith(ending):
                yield os.path.join(folder, name)


def read(path):
    with open(path, encoding="utf-8") as f:
        return f.read()


def snake(name):
    parts = []
    for part in name.split("-"):
        part = re.sub(r"(?<=[a-z0-9])([A-Z])", lambda m: "_" + m.group(1).lower(), part) if part[:1].islower() else part
        parts.append(part)
    return "_".join(parts)


def declared():
    """Each name that a file of specs or of lemmas declares, and whether it is a definition (not a lemma)."""
    found = {}
    for path in files(".antt"):
        if OF_FUNCTIONS.fullmatch(path):
            continue
        for m in DECLARED.finditer(read(path)):
            for name in m.group(1).split():
                if WORD.fullmatch(name):
                    found[name] = found.get(name, True) and "-" not in name
    return found


def renaming():
    names = declared()
    every = set()
    for path in files(".antt"):
        # a definition may have the name of the function that computes it
        if not OF_FUNCTIONS.fullmatch(path):
            every.update(WORD.findall(read(path)))
    made, clashes = {}, []
    wanted = {}
    for name in names:
        if not name[:1].islower():
            continue
        new = snake(name)
        if new != name:
            wanted.setdefault(new, []).append(name)
    for new, olds in sorted(wanted.items()):
        taken = new in every
        for old in sorted(olds, key=lambda it: "-" in it):
            to = new
            if taken and "-" not in old and new in names and new not in made:
                # a lemma that has its function's name already
                made[new] = new + "_lem"
                clashes.append((new, new, made[new]))
            elif taken:
                to = new + "_lem" if "-" in old else new + "_of"
                clashes.append((old, new, to))
            taken = True
            made[old] = to
    return made, clashes


def borrowed(text):
    """The names that a file takes from the kit's libraries: they are not this repository's to rename."""
    found = set()
    for m in re.finditer(r"^\s*(?:ghost |pub )*use ([^\s{]+)\.\{([^}]*)\}", text, re.M):
        own = re.match(r"Rattle\.(\w+)\.", m.group(1))
        if not (own and os.path.isdir(os.path.join("crates", own.group(1)))):
            found.update(WORD.findall(m.group(2)))
    return found


def clauses(text):
    """The parts of a source file that are antt's: ghost use lines and what stands in the braces of clauses."""
    spans = [m.span() for m in re.finditer(r"^\s*ghost use [^;]*;", text, re.M)]
    for m in re.finditer(r"^[ \t]*(?:pub )?(?:requires|ensures|ghost)\b[^\n{]*\{", text, re.M):
        depth, i = 1, m.end()
        while depth:
            depth += {"{": 1, "}": -1}.get(text[i], 0)
            i += 1
        spans.append((m.start(), i))
    return sorted(spans)


def main():
    made, clashes = renaming()
    for old, new, to in clashes:
        print(f"falls together: {old} -> {to}, since {new} is there")
    if "--show" in sys.argv:
        for old, new in sorted(made.items()):
            print(old, new)
        return

    def turn(text, kept):
        return WORD.sub(lambda m: m.group(0) if m.group(0) in kept else made.get(m.group(0), m.group(0)), text)

    changed = 0
    for path in files(".antt"):
        text = read(path)
        kept = borrowed(text)
        # strings keep what they hold
        new = "".join(it if it.startswith('"') else turn(it, kept) for it in re.split(r'("(?:[^"\\\n]|\\.)*")', text))
        if new != text:
            changed += 1
            with open(path, "w", encoding="utf-8") as f:
                f.write(new)
    for path in files(".rt"):
        text, at, parts = read(path), 0, []
        kept = borrowed(text)
        for start, end in clauses(text):
            if start < at:
                continue
            parts += [text[at:start], turn(text[start:end], kept)]
            at = end
        new = "".join(parts) + text[at:]
        if new != text:
            changed += 1
            with open(path, "w", encoding="utf-8") as f:
                f.write(new)
    print(f"{len(made)} names, {changed} files")


main()
