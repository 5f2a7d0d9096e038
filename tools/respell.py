#!/usr/bin/env python3
"""Brings the names of definitions and lemmas to one spelling: words in snake case, types and modules in camel case.

usage: tools/respell.py        at the top of the repository, once, after port.py of the toolchain

A name that is declared in specs/ or proofs/ (also a field, a constructor, a bound name) and has a capital inside or a dash is written in snake case
wherever it stands: in specs/, proofs/, clauses, must-fail edits and docs/. Where two names fall together the lemma gets `_lem`, or a name is given below.
Names of the language's library, of functions, constants and types of src/, strings, inputs and outputs stay.
"""

import glob
import os
import re

NAME = r"[A-Za-z_αβκλμ][A-Za-z0-9_'₀-₉-]*"
TOKEN = re.compile(NAME)

# Names that would fall together with another that means something else.
GIVEN = {
    "nodeAt": "node_of",
    "takeAll": "take_names",
    "call_ok": "call_ok_lem",
    "in_place": "in_place_lem",
    "end_by": "end_by_lem",
    "returns_as": "returns_as_lem",
    "pairs_of": "pairs_of_lem",
    "found_as": "found_as_lem",
    "last_turn": "last_turn_lem",
    "step_lines": "step_lines_lem",
}


def files(ends):
    for folder, dirs, names in os.walk("crates"):
        dirs[:] = sorted(d for d in dirs if d != "out")
        for name in sorted(names):
            if name.endswith(ends):
                yield os.path.join(folder, name)


def read(path):
    with open(path, encoding="utf-8") as f:
        return f.read()


def declared(text, proof):
    """The names that a file of specs/ or proofs/ declares or binds."""
    text = re.sub(r"--.*", "", text)
    if not proof:
        for line in text.split("\n"):
            for form in (r"\s*(?:abbrev |unfoldable |pub |record |data )*([A-Za-z][A-Za-z0-9_'₀-₉-]*)\s*:\s", r"\s*(?:abbrev |unfoldable |pub )*([A-Za-z][A-Za-z0-9_'₀-₉-]*)( .*)? ="):
                m = re.match(form, line)
                if m:
                    yield m.group(1)
            m = re.match(r"\s+([A-Za-z][A-Za-z0-9_'₀-₉ -]*) : ", line)
            if m:
                yield from m.group(1).split()
    for m in re.finditer(r"\blet ([A-Za-z][A-Za-z0-9_'₀-₉-]*)", text):
        yield m.group(1)
    for m in re.finditer(r"λ ([^.]*)\. ", text):
        yield from TOKEN.findall(m.group(1))
    for m in re.finditer(r"[({]([A-Za-z][A-Za-z0-9_'₀-₉ -]*?) ?: ", text):
        yield from m.group(1).split()


def snake(name):
    return re.sub(r"([a-z0-9])([A-Z])", lambda m: m.group(1) + "_" + m.group(2).lower(), name).replace("-", "_")


def names():
    """From each name that changes to what it becomes."""
    all_names = set()
    for path in files(".antt"):
        all_names.update(declared(read(path), path.endswith("Proof.antt")))
    turned = {n: snake(n) for n in all_names if n[0].islower() and (re.search("[a-z0-9][A-Z]", n) or "-" in n)}
    taken = {turned[n] for n in turned if "-" not in n} | {n for n in all_names if n not in turned}
    for n in turned:
        if "-" in n and turned[n] in taken:
            turned[n] += "_lem"
    turned.update(GIVEN)
    return turned


def respelled(text, turned):
    return TOKEN.sub(lambda m: turned.get(m.group(), m.group()), text)


def source(text, turned):
    """A file of src/: strings stay, and names with a dash are none of its own."""
    camel = {n: t for n, t in turned.items() if "-" not in n and n not in GIVEN or n in ("nodeAt", "takeAll")}
    parts = re.split(r'("(?:[^"\\\n]|\\.)*")', text)
    return "".join(p if i % 2 else respelled(p, camel) for i, p in enumerate(parts))


def page(text, turned):
    """A page of docs/: what stands in backquotes."""
    marked = {n: t for n, t in turned.items() if n not in GIVEN or n in ("nodeAt", "takeAll")}
    return re.sub(r"`[^`\n]+`", lambda m: respelled(m.group(), marked), text)


def write(path, text):
    if text != read(path):
        with open(path, "w", encoding="utf-8") as f:
            f.write(text)


def main():
    turned = names()
    for path in list(files(".antt")):
        write(path, respelled(read(path), turned))
    for path in list(files(".rt")):
        write(path, source(read(path), turned))
    for path in list(files(".edit")):
        text = read(path)
        write(path, respelled(text, turned) if "file: specs/" in text or "file: proofs/" in text else source(text, turned))
    for path in ["README.md"] + sorted(glob.glob("docs/*.md")):
        write(path, page(read(path), turned))
    print(f"{len(turned)} names")


if __name__ == "__main__":
    main()
