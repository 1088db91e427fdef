#!/usr/bin/env python3
"""Brings this repository's own names to snake case: the names of tools/respelled.tsv, in .antt, .rt and .edit files and in the pages.

usage: python3 tools/respell.py [FOLDER]    run once, behind port.py, at the top of the repository (or of FOLDER)

A line of the table is an old name, a tab, the new name; a third word `lemma` means: only where that lemma is declared or imported,
since a definition takes the name. Plain types get the derives that let them be copied, as the older language copied them.
"""
import os
import re
import sys

ROOT = os.path.abspath(sys.argv[1] if len(sys.argv) > 1 else ".")
TABLE = os.path.join(os.path.dirname(os.path.abspath(__file__)), "respelled.tsv")
WORD = re.compile(r"[A-Za-z_][\w'-]*")
DASHED = re.compile(r"^\s*(ghost use|requires|ensures)\b|^(old|new): +(requires|ensures|ghost use)\b")
PAGES = ["README.md", "docs/SPEC.md", "docs/TRUST.md", "docs/GUIDE.md", "docs/DECISIONS.md"]

names, lemmas = {}, {}
with open(TABLE, encoding="utf-8") as table:
    for row in table:
        words = row.rstrip("\n").split("\t")
        (lemmas if len(words) == 3 else names)[words[0]] = words[1]


def turned(text, known):
    return WORD.sub(lambda m: known.get(m.group(0), m.group(0)), text)


def sources(ends):
    for folder, dirs, files in os.walk(os.path.join(ROOT, "crates")):
        dirs[:] = sorted(d for d in dirs if d != "out")
        for f in sorted(files):
            if f.endswith(ends):
                yield os.path.join(folder, f)


def read(p):
    with open(p, encoding="utf-8") as f:
        return f.read()


def module(p):
    """The path by which others import a file of specs/ or proofs/."""
    crate, rest = os.path.relpath(p, os.path.join(ROOT, "crates")).split(os.sep, 1)
    return f"Rattle.{crate}." + rest[: -len(".antt")].replace(os.sep, ".")


def declares(text, name):
    return re.search(r"^\s*(?:pub |abbrev |unfoldable )*" + re.escape(name) + r" :", text, re.M)


texts = {p: read(p) for p in sources(".antt")}
homes = {n: {module(p) for p, t in texts.items() if "/proofs/" in p and declares(t, n)} for n in lemmas}

for p, t in texts.items():
    here = {}
    for n, new in lemmas.items():
        imported = any(m.group(1) in homes[n] and n in re.split(r"[,\s]+", m.group(2)) for m in re.finditer(r"^use ([^\s{};]+)\.\{([^}]*)\}", t, re.M))
        if module(p) in homes[n] or imported:
            here[n] = new
    out = t
    if here:
        out = re.sub(r"(?<![\w.'-])[A-Za-z_][\w'-]*", lambda m: here.get(m.group(0), m.group(0)), out)
    out = turned(out, names)
    if out != t:
        with open(p, "w", encoding="utf-8") as f:
            f.write(out)

plain = {n: s for n, s in names.items() if "-" not in n}
for p in sources((".rt", ".edit")):
    t = read(p)
    of_antt = p.endswith(".edit") and re.search(r"^file: .*\.antt$", t, re.M)
    out, clause = [], False
    for line in t.split("\n"):
        clause = bool(DASHED.match(line)) or (clause and not line.rstrip().endswith(("}", ";", "{")))
        out.append(turned(line, names if of_antt or clause else plain))
    new = "\n".join(out).replace("#[derive(Drop)]", "#[derive(Clone, Copy)]")
    if new != t:
        with open(p, "w", encoding="utf-8") as f:
            f.write(new)

for page in PAGES:
    p = os.path.join(ROOT, page)
    if os.path.exists(p):
        t = read(p)
        new = re.sub(r"`[^`\n]+`", lambda m: turned(m.group(0), names), t)
        if new != t:
            with open(p, "w", encoding="utf-8") as f:
                f.write(new)
