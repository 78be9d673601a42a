#!/usr/bin/env python3
"""Makes the list of lines with annotations that the cell program is run on, each with its answer, after ./build.sh.

  sample_annotations.py [--oracle target/oracle] [--each N] > LIST        a line, a tab, the answer

First come the lines of `written` below, for each rule and each position; then, of random and of all small lines (gen.py), the shortest that
have a trait of `traits` which no line before them has, up to N for each command; then those of `borders`. The answer is the Rust's where it has one (compare.py). It has
none where a row breaks, where brackets do not fit, and where a joined quantifier's annotations have a dangling index (docs/DIFFERENCES.md):
there it is that of the model of crates/cases, which must agree with the Rust on all others. Counts go to standard error.
"""
import argparse
import collections
import sys

import compare
import gen
import model
from model import cases

sys.setrecursionlimit(10000)
COMMANDS = ["shift", "free", "bind", "fill", "prune", "point", "member"]
QUANTIFIED = (851, 852, 801, 802, 803)

# ----- written lines

WALKED = [
    "[862 2 4 1 [2 0] 5 0 [101 [2 0] [2 2]]]", "[852 1 9 [862 1 4 1 [2 0] [101 [2 0] [2 1]]]]", "[861 2 4 1 [2 1] 5 1 [2 1] [101 [2 0] [2 3]]]",
    "[862 1 4 1 [873 0 1 5 1 [2 0] [9 [2 1]] [201 [2 0] [2 1]]] [9 [2 1]]]", "[861 1 4 1 [5 [862 1 5 1 [871 0 1 6 1 [2 1] [610] [2 1]] [9 [2 1]]]] [9 [2 2]]]",
    "[873 0 2 4 0 5 1 [2 3] [9 [2 2]] [201 [2 1] [2 4]]]", "[872 0 1 9 1 [1 4] [101 [1 4] [2 0]] [1 4]]", "[862 1 4 1 [1 7] [11 7 1 [1 7]]]",
    "[801 0 2 4 5 [861 2 6 0 7 1 [2 1] [9 [2 3]]] [871 0 1 8 1 [2 2] [610] [2 3]]]", "[862 3 4 1 [2 2] 4 1 [2 2] 4 1 [3 2] [7 4]]"]

JOINED = [
    # what the inner annotation is: closed, the front, outside, the target with what replaces it
    ("[2 1]", "[1 8]"), ("[2 1]", "[2 1]"), ("[2 1]", "[2 2]"), ("[2 1]", "[2 0]"), ("[2 2]", "[2 0]"), ("[1 7]", "[2 0]"), ("[3 5]", "[2 3]"),
    ("[2 2]", "[803 0 1 7 [9 [2 1]] [2 0]]"), ("[1 7]", "[803 0 1 7 [9 [2 2]] [2 0]]"), ("[1 7]", "[803 0 1 7 [9 [2 3]] [2 0]]"),
    ("[1 7]", "[873 0 1 7 1 [2 1] [610] [2 0]]"), ("[1 7]", "[873 0 1 7 1 [2 2] [610] [2 0]]"), ("[873 0 1 7 1 [2 2] [610] [2 0]]", "[2 0]"),
    ("[873 0 1 7 1 [2 1] [610] [2 0]]", "[2 0]"), ("[873 0 1 7 1 [2 0] [610] [2 0]]", "[2 2]")]


def written():
    # the decisions on annotations
    yield "[shift 0 [862 2 4 0 5 1 [1 7] [610]]]"
    yield "[shift 0 [862 1 4 0 [610]]]"
    yield "[point [852 2 4 5 [351 2 [101 [2 0] [2 1]] [862 1 6 1 [2 0] [610]]]]]"
    yield "[point [852 2 4 5 [351 2 [101 [2 0] [2 1]] [862 1 6 1 [2 1] [101 [2 0] [2 1]]]]]]"
    # the smallest lines on which the Rust differs
    for i in (1, 2):
        yield "[point [851 2 4 5 [251 [101 [2 0] [401]] [861 1 6 1 [2 %d] [610]]]]]" % i
        yield "[member [107 [401] [803 0 2 4 5 [862 1 6 1 [2 %d] [610]] [2 0]]]]" % i
    for f in WALKED:
        for by in (-1, 1, 3):
            yield "[shift %d %s]" % (by, f)
        yield "[bind [4 7] %s]" % f
        yield "[free [[4 [873 0 1 5 1 [2 0] [610] [2 1]]] [7 [2 0]]] %s]" % f
    # every mask of places and of annotations
    for n in (1, 2):
        for noted in range(1, 2 ** n):
            ds = " ".join("%d 1 [2 %d]" % (4 + j, j) if noted >> j & 1 else "%d 0" % (4 + j) for j in range(n))
            body = "[10 %d %s [803 0 1 9 [862 1 8 1 [2 1] [610]] [2 0]]]" % (n + 2, " ".join("[2 %d]" % j for j in range(n + 1)))
            for mask in range(2 ** n):
                places = " ".join("[201 [2 0] [1 7]]" if mask >> j & 1 else "[]" for j in range(n))
                yield "[fill [%s] [86%d %d %s %s]]" % (places, 1 + mask % 2, n, ds, body)
                used = " ".join(["[2 %d]" % j for j in range(n) if mask >> j & 1] + ["[2 %d]" % n])
                yield "[prune [86%d %d %s [10 %d %s]]]" % (1 + mask % 2, n, ds, len(used.split("] [")), used)
    yield "[fill [[] []] [862 1 4 1 [2 0] [610]]]"
    yield "[fill [] [861 1 4 1 [2 0] [610]]]"
    yield "[fill [[2 0]] [9 [873 0 1 4 1 [2 0] [610] [2 0]]]]"
    yield "[prune [9 [873 0 1 4 1 [2 0] [610] [2 0]]]]"
    yield "[prune [862 1 4 1 [2 0] [610]]]"
    yield "[prune [861 3 4 0 5 1 [2 0] 6 0 [862 1 7 1 [2 2] [9 [2 0]]]]]"
    # the join
    for op, form in ((852, "[852 2 4 5 [351 2 [101 [2 0] %s] %s]]"), (851, "[851 2 4 5 [251 [101 %s [2 0]] %s]]")):
        for e, note in JOINED:
            yield "[point %s]" % (form % (e, "[%d 1 6 1 %s [101 [2 0] [2 2]]]" % (op + 10, note)))
    for e, note in JOINED:
        if e in ("[1 7]", "[3 5]", "[2 2]"):
            element = e.replace("[2 2]", "[2 0]")
            yield "[member [107 %s [803 0 2 4 5 [862 1 6 1 %s [101 [2 0] [2 2]]] [2 0]]]]" % (element, note)
            yield "[member [107 %s [873 0 2 4 1 [2 0] 5 0 [862 2 6 1 %s 7 0 [101 [2 1] [2 3]]] [2 0]]]]" % (element, note)
            yield "[member [107 %s [873 0 2 4 0 5 1 [2 1] [862 1 6 1 %s [9 [2 0]]] [2 1]]]]" % (element, note)
    for f in ["[852 3 4 5 6 [351 2 [101 [2 1] [1 7]] [862 1 7 1 [2 3] [610]]]]", "[852 1 4 [351 2 [101 [2 0] [1 7]] [862 1 6 1 [2 1] [610]]]]",
              "[852 2 4 5 [351 2 [101 [2 0] [1 7]] [861 1 6 1 [2 2] [610]]]]", "[862 2 4 1 [2 0] 5 1 [2 1] [351 2 [101 [2 0] [1 7]] [852 1 6 [9 [2 0]]]]]",
              "[862 2 4 1 [2 0] 5 1 [2 1] [351 2 [101 [2 0] [1 7]] [862 1 6 1 [2 2] [9 [2 0]]]]]", "[862 2 4 0 5 1 [2 0] [351 2 [101 [2 0] [1 7]] [9 [2 1]]]]",
              "[862 2 4 0 5 1 [2 0] [351 2 [101 [2 1] [1 7]] [9 [2 0]]]]", "[861 1 4 1 [2 0] [8 [101 [2 0] [1 7]]]]", "[862 1 4 1 [2 0] [101 [2 0] [2 0]]]",
              "[862 1 4 1 [2 0] [101 [2 0] [873 0 1 6 1 [2 0] [610] [2 0]]]]", "[852 2 4 5 [351 2 [101 [2 0] [1 7]] [862 2 6 1 [2 2] 7 1 [2 1] [610]]]]",
              "[852 4 2 3 4 5 [351 2 [101 [2 0] [2 65535]] [862 1 6 1 [803 0 2 8 9 [610] [2 2]] [610]]]]",
              "[852 4 2 3 4 5 [351 2 [101 [2 0] [2 65535]] [862 1 6 1 [803 0 2 8 9 [610] [201 [2 2] [2 3]]] [610]]]]",
              "[861 3 4 0 5 1 [2 4] 6 0 [352 3 [7 1] [8 [101 [2 1] [3 5]]] [861 1 7 1 [2 1] [610]]]]"]:
        yield "[point %s]" % f
    # declarations kept behind a front: their annotations stand outside the whole quantifier and stay as they are
    for i in (0, 1, 2):
        yield "[point [862 3 4 0 5 0 6 1 [2 %d] [351 2 [101 [2 1] [1 7]] [101 [2 0] [2 2]]]]]" % i
        yield "[point [861 3 4 1 [2 %d] 5 1 [1 8] 6 1 [803 0 1 9 [9 [2 %d]] [2 0]] [251 [101 [2 3] [2 1]] [101 [2 0] [2 2]]]]]" % (i, i + 1)
        yield "[member [107 [1 7] [873 0 3 4 0 5 0 6 1 [2 %d] [101 [2 0] [2 2]] [2 1]]]]" % i
    yield "[member [107 [201 [1 7] [2 0]] [873 0 4 4 1 [2 1] 5 0 6 1 [2 2] 7 0 [101 [2 1] [2 3]] [201 [2 2] [2 0]]]]]"
    yield "[member [107 [1 7] [873 0 1 4 1 [2 0] [610] [3 5]]]]"
    yield "[member [107 [1 7] [873 0 1 4 1 [2 0] [610] [2 0]]]]"
    yield "[member [107 [201 [1 7] [2 0]] [873 0 3 4 0 5 1 [2 1] 6 1 [2 0] [9 [2 0]] [201 [2 2] [2 0]]]]]"
    yield "[member [107 [1 7] [871 0 1 4 1 [2 0] [610] [2 0]]]]"
    yield "[member [107 [873 0 1 4 1 [2 0] [610] [2 0]] [1 7]]]"
    # limits: 32 declarations, joined to 32 and to 33; depth; an index and a name at 65,535; the words of a result
    all32 = " ".join("4 1 [2 7]" for _ in range(32))
    for line in ("[shift 1 [862 32 %s [9 [2 39]]]]", "[prune [861 32 %s [9 [2 31]]]]", "[bind [7 8] [862 32 %s [610]]]", "[point [862 32 %s [101 [2 0] [1 7]]]]"):
        yield line % all32
    yield "[fill [%s] [862 32 %s [9 [2 31]]]]" % (" ".join(["[1 5]"] * 31 + ["[]"]), all32)
    yield "[shift 0 [861 33 %s 4 1 [2 7] [610]]]" % all32
    for m in (16, 17):
        for i in (16, 17):
            yield "[point [852 17 %s [351 2 [101 [2 0] [1 7]] [862 %d %s 6 1 [2 %d] [9 [2 0]]]]]]" % (" ".join(["4"] * 17), m, " ".join(["5 0"] * (m - 1)), i)
    nots = lambda n, f: "[8 " * n + f + "]" * n
    for k in (61, 62, 63):
        yield "[shift 1 %s]" % nots(k, "[862 1 4 1 [2 0] [610]]")
        yield "[shift 0 %s]" % nots(k - 1, "[861 1 4 1 [751 [401]] [610]]")
    for e in ("[751 [2 0]]", "[751 [751 [2 0]]]"):
        yield "[fill [%s] [852 1 4 %s]]" % (e, nots(61, "[862 1 5 1 [2 0] [610]]"))
        yield "[free [[4 %s]] %s]" % (e, nots(61, "[862 1 5 1 [1 4] [610]]"))
    for by, i in ((1, 65534), (1, 65535), (-1, 0), (-1, 65535)):
        yield "[shift %d [862 1 65535 1 [2 %d] [610]]]" % (by, i)
    for n in (8147, 8148):
        yield "[point [852 20 %s [351 2 [101 [2 0] [1 7]] [862 1 6 1 [4 %d %s] [610]]]]]" % (" ".join(["4"] * 20), n, " ".join(["[401]"] * n))
    # where rows break; the rows have no inner brackets, so an accepted one is 8
    for row in ["862 1 4 2 401 610", "861 2 4 0 5 0 610", "861 2 4 0 5 1 401 610", "862 2 4 1 401 5 2 610", "862 2 4 1 401 5 0 610", "862 0 610", "861 33 4 1", "862 2 4 0 65536 1 401 610",
                "862 65536 4 1 401 610", "862 1 65536 1 401 610", "862 1 4 1 610 610", "862 1 4 1 999 610", "862", "862 1", "862 1 4", "862 1 4 1", "862 1 4 1 401", "862 1 4 1 401 610", "862 1 4 1 401 610 0", "862 1 4 1 401 401",
                "863 1 4 1 401 610", "860 1 4 610", "870 0 1 4 1 401 610 401", "874 0 1 4 1 401 610 401", "873 4 1 4 1 401 610 401", "873 0 0 610 401", "871 0 1 4 0 610 401", "872 0 1 4 1 401 401 401", "873 0 1 4 1 401 610 610",
                "873 3 1 4 1 401 610 401", "873 3 2 4 1 401 5", "862 1 4 1 871 0 1 5 0 610 401 610", "862 1 4 1 871 0 1 5 1 401 610 401 610", "861 4294967295", "862 1 4 4294967295", "862 2 4 0 5 4294967295", "862 3 4 0 5 0 6 0",
                "862 3 4 0 5 0 6 1", "862 3 4 0 5 1 401 6 2", "862 2 4 1 2 65536 5 0 610", "861 32 %s610" % ("4 0 " * 31 + "5 1 401 "), "861 32 %s610" % ("4 0 " * 32)]:
        yield "[shift 0 [%s]]" % row
    for row in ["862 1 4 0 610", "873 0 1 4 1 401 610 401", "861 1 4 2", "9 873 0 1 4 0 610 401", "861 2 4 1 401 5 1 401"]:
        for command in ("prune", "point", "member"):
            yield "[%s [%s]]" % (command, row)
    for row in ["4 873 0 1 5 0 610 401", "4 873 0 1 5 2", "4 862 1 5 1 401 610", "4 873 0 1 5 1 401 610", "4 873 0 1 5 1 401 610 401 5"]:
        yield "[free [%s] [610]]" % row
    for row in ["1 873 0 1 5 0 610 401", "0 1 871 0 1 5 3", "1 873 0 1 5 1 401 610", "0 0 1 873 0 1 5 1 401 610 401 2", "1 862 1 4 1 401 610"]:
        yield "[fill [%s] [862 1 4 1 [401] [610]]]" % row
    for row in ["62*8 862 1 4 1 751 401 610", "62*8 862 1 4 1 4 1 401 610", "63*8 862 1 4 1 401 610", "62*8 862 1 4 1 873 0 1 5 1 401 610 401 610", "61*8 862 2 4 0 5 1 761 4 1", "61*8 862 2 4 1 761 4 0 5 1 761 4 1",
                "351 8184 8183*610 861 2", "351 8185 8184*610 861 1 4 1 2 0", "351 8183 8182*610 861 2 4 1 401 5 1", "351 8182 8181*610 9 873 0 1 4 1 2"]:
        yield "[shift 0 [%s]]" % " ".join(map(str, cases.w(row)))
    # brackets that do not fit: 8, after 2
    for f in ["[862 1 4 1 2 0 [610]]", "[862 1 [4 1 [2 0]] [610]]", "[862 1 4 [1] [2 0] [610]]", "[862 1 4 [1 [2 0]] [610]]", "[862 1 4 1 [[2 0]] [610]]", "[862 1 4 1 [2 0] 610]", "[862 [1 4] 1 [2 0] [610]]",
              "[862 2 4 [0] 5 1 [2 0] [610]]", "[862 2 4 [] 5 1 [2 0] [610]]", "[862 1 4 [] 1 [2 0] [610]]", "[861 1 4 1 [2 0 610]]", "[873 0 1 4 1 [2 0] [610 401]]", "[862 1 4 1 [2] 0 [610]]", "[862 1 4 2 [2 0 [610]]]"]:
        yield "[shift 0 %s]" % f


# ----- lines at the edges where a result is checked, and where a head has a row of another length


def nots(n, f):
    return "[8 " * n + f + "]" * n


def expression(depth):
    return "[751 " * (depth - 1) + "[2 4]" + "]" * (depth - 1)


def wide(n):
    """An annotation of n words."""
    return "[4 %d %s]" % ((n - 2) // 2, " ".join(["[1 7]"] * ((n - 2) // 2))) if n % 2 == 0 else "[751 %s]" % wide(n - 1)


def borders():
    """Fill and one point on rows as deep as results are sure to be forms, one less and one more (docs/DECISIONS.md 34, 47), by the depth of the body
    and by that of an annotation; replacing words over 63,487; rows and heads of 255 to 257 words (docs/DECISIONS.md 60)."""
    for e in (1, 2, 3, 5, 8, 9, 33):
        for more in (-1, 0, 1):
            body = nots(62 - e + more, "[9 [2 0]]")          # the row is 65 - e + more deep
            if 62 - e + more <= 61:
                yield "[fill [[] %s] [862 2 4 1 [2 0] 5 0 %s]]" % (expression(e), body)
                yield "[fill [%s] [861 1 4 1 [2 0] %s]]" % (expression(e), body)
            note = "[5 %s]" % nots(61 - e + more, "[610]")     # and so is this one
            yield "[fill [[] %s] [862 2 4 1 %s 5 0 [9 [2 0]]]]" % (expression(e), note)
            yield "[point [862 2 4 1 %s 5 0 [351 2 [101 [2 1] %s] [9 [2 1]]]]]" % (note, expression(e))
    for e in (1, 3, 4, 5, 8):
        for n in range(56, 62):
            yield "[point [862 2 4 1 [2 0] 5 0 [351 2 [101 [2 0] %s] %s]]]" % (expression(e), nots(n - 2, "[9 [2 0]]"))
            if e in (3, 4):
                yield "[point [861 2 4 0 5 1 [2 0] [251 [101 [2 1] %s] %s]]]" % (expression(e), nots(n - 2, "[9 [2 1]]"))
    for v in (63486, 63487, 63488, 65535):
        for f in ("[fill [[] [2 %d]] [862 2 4 1 [2 0] 5 0 [862 1 6 1 [2 0] [9 [2 1]]]]]", "[point [862 2 4 0 5 1 [2 0] [351 2 [101 [2 0] [2 %d]] [852 1 6 [9 [2 1]]]]]]"):
            yield f % v
    for n in range(253, 259):
        yield "[prune [862 2 4 1 %s 5 0 [9 [2 1]]]]" % wide(n - 9)                                           # rows of n words
        yield "[fill [[] [1 5]] [861 2 4 1 %s 5 0 [9 [2 0]]]]" % wide(n - 9)
        yield "[point [862 2 4 1 %s 5 0 [351 2 [101 [2 0] [1 7]] [9 [2 1]]]]]" % wide(n - 11)                 # heads of n - 5 words and more
        yield "[point [862 2 4 1 %s 5 0 [351 2 [101 [2 0] [1 7]] [9 [2 1]]]]]" % wide(n - 6)
        yield "[point [862 2 4 1 %s 5 0 [351 2 [101 [2 0] [1 7]] [862 1 6 1 [1 8] [9 [2 1]]]]]]" % wide(n - 6)
        yield "[member [107 [1 7] [873 0 2 4 1 %s 5 0 [9 [2 1]] [2 0]]]]" % wide(n - 6)


# ----- traits of the other lines


def small(n):
    return min(n, 3)


def walk(f, k, within, out):
    """Quantifiers by their flags and by what they stand in; indices of annotations by the binders round them."""
    t, own, decls, kids = f
    flags = tuple(note is not None for _, note in decls)
    if any(flags):
        out.add(("flags", t, flags if len(flags) < 3 else (len(flags), sum(flags))))
        out.add(("stands", t, within[-2:]))
    for _, note in decls:
        if note:
            out.add(("annotation", t, note[0] // 100))
            for i in cases.dangling(note):
                out.add(("mentions", "bound" if i < k else "dangling", i < len(decls), small(i)))
            walk(note, k, within + ("annotation",), out)
    for j, c in enumerate(kids):
        walk(c, k + len(decls), within + ((t, j),) if t in QUANTIFIED else within, out)


def traits(line, answer):
    op, by, lst, form = model.read(line)
    out = {op, answer[:5] if answer.startswith("[no") else "form"}
    if answer.startswith("[no"):
        return {(op, x) for x in out}
    f = cases.form(model.flat(form))
    walk(f, 0, (), out)
    new = cases.form(model.flat(model.group(answer, 0)[0]))
    quantified = f[3][1] if op == "member" else f
    out.add(("becomes", cases.tag_of(quantified), cases.tag_of(new)))
    before, after = ([note is not None for _, note in x[2]] for x in (quantified, new))
    if op in ("fill", "prune", "point", "member"):
        out.add(("declares", tuple(before[:3]), tuple(after[:3])))
    if op == "fill":
        out.add(("mask", tuple(before[:3]), tuple(bool(p) for p in lst[:3])))
        out.add(("put", any("[87" in model.spelled(p) for p in lst if p), any(after)))
    if op in ("point", "member"):
        met, join = [], cases.join

        def watched(o, front, got):
            notes = [note for _, note in got[2] if note]
            about = {("front" if i < len(front) else "outside") for note in notes for i in cases.dangling(note)}
            met.append((got[0] == o, got[0] in (851, 852), bool(notes), tuple(sorted(about)), any(note for _, note in front), small(len(front))))
            return join(o, front, got)

        cases.join = watched
        model.answer(line)
        cases.join = join
        out.update(("join", op) + m for m in met)
    if op in ("shift", "free", "bind"):
        out.add(("changed", model.spelled(form) != answer))
    return {(op, x) for x in out}


def candidates(command):
    for a, fuel, count in ((80, 3, 2500), (60, 6, 1500)):
        yield from gen.lines("annotations %d" % fuel, count, [command], fuel, annotations=a)


def main():
    a = argparse.ArgumentParser()
    a.add_argument("--oracle", default="target/oracle")
    a.add_argument("--each", type=int, default=15)
    o = a.parse_args()
    lines = list(dict.fromkeys(written()))
    first = len(lines)
    small_lines = collections.defaultdict(list)
    for line in gen.exhaustive_annotations():
        small_lines[line[1:].split(" ", 1)[0]].append(line)
    more = [l for c in COMMANDS for l in list(candidates(c)) + small_lines[c][::7] if "[86" in l or "[87" in l]
    lines = list(dict.fromkeys(lines + more + list(borders())))
    asked = [compare.with_all_places(l).replace("[point ", "[pointd ", 1).replace("[member ", "[memberd ", 1) for l in lines]
    counts, answers = collections.Counter(), {}
    for line, rust in zip(lines, compare.ask([o.oracle], asked)):
        mine = model.answer(line)
        if mine.startswith(("[no 2 ", "[no 8]", "[no 1]")):
            source = "model, " + mine[:5]
        elif model.joins_dangling(line):
            source = "model, joins"
        else:
            want = compare.expected(line, rust)
            source = "Rust" if want is not None else "model, not in the Rust"
            assert want in (None, mine), (line, rust, mine)
        answers[line] = mine, source
    chosen, seen = lines[:first], set()
    for line in chosen:
        if not answers[line][0].startswith(("[no 2", "[no 8")):
            seen |= traits(line, answers[line][0])
    taken = collections.Counter()
    for line in sorted(dict.fromkeys(more), key=len):
        command = line[1:].split(" ", 1)[0]
        if taken[command] < o.each:
            new = traits(line, answers[line][0])
            if new - seen:
                seen |= new
                taken[command] += 1
                chosen.append(line)
    edges = [l for l in dict.fromkeys(borders()) if l not in chosen]
    chosen += edges
    for line in chosen:
        answer, source = answers[line]
        counts[source] += 1
        print("%s\t%s" % (line, answer))
    for key in sorted(counts):
        print("%-24s %d" % (key, counts[key]), file=sys.stderr)
    print("%d written lines, %d others: %s; %d at edges" % (first, len(chosen) - first - len(edges), dict(taken), len(edges)), file=sys.stderr)


if __name__ == "__main__":
    main()
