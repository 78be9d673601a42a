#!/usr/bin/env python3
"""Spells definitions, constructors and lemmas in snake case: breakAt becomes break_at, and lift-listRow becomes lift-list_row.

usage: python3 tools/snake_case.py      at the top of the repository, once; it rewrites the files of crates/ and the pages in place

A dash joins the parts of a lemma's name and stays. Types and modules begin with a capital and are left alone, and so are the
functions of src/, which have snake case already. A lemma whose name would fall together with that of a definition that its file
cites has a dash for its underscores (DASHED); OTHER has a name that falls together with a field's.
"""
import glob
import re

TOKEN = re.compile(r"(?<![A-Za-z0-9_'-])[A-Za-z_][A-Za-z0-9_'-]*")
CAMEL = re.compile(r"^[a-z][a-z0-9]*(?:[A-Z][a-z0-9]*)+'*$")
DASHED = ["each_all", "entry_next", "made_code", "cleared_by", "kept_in", "join_names", "kept_row", "equal_words", "no_table"]
OTHER = {"isFound": "has_form"}
LEMMA = re.compile(r"(?<![A-Za-z0-9_'.-])(?:%s)(?![A-Za-z0-9_'-]|\.[a-zA-Z])" % "|".join(DASHED))


def snake(token):
    if token in OTHER:
        return OTHER[token]
    parts = token.split("-")
    return "-".join(re.sub("[A-Z]", lambda m: "_" + m.group(0).lower(), p) if CAMEL.match(p) else p for p in parts)


def files(*ends):
    for end in ends:
        yield from sorted(p for p in glob.glob("crates/**/*" + end, recursive=True) if "/out/" not in p)


def rewrite(path, change):
    with open(path, encoding="utf-8") as f:
        text = f.read()
    new = change(text)
    if new != text:
        with open(path, "w", encoding="utf-8") as f:
            f.write(new)


def main():
    known = set()
    for path in files(".antt", ".rt"):
        with open(path, encoding="utf-8") as f:
            known.update(t for t in TOKEN.findall(f.read()) if snake(t) != t)
    for path in files(".antt"):
        rewrite(path, lambda s: LEMMA.sub(lambda m: m.group(0).replace("_", "-"), s) if "/proofs/" in path else s)
    spell = lambda s: TOKEN.sub(lambda m: snake(m.group(0)) if m.group(0) in known else m.group(0), s)
    for path in [*files(".antt", ".rt", ".edit"), "README.md", *sorted(glob.glob("docs/*.md"))]:
        rewrite(path, spell)


main()
