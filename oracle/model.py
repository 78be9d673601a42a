#!/usr/bin/env python3
"""The model of crates/cases as a line program: it answers the cell program's eight commands, spelling included.

  model.py < LINES        an answer for each line
  model.py --own < LINES  the oracle's commands dangling, lift and offer too

It shares nothing with the program or its definitions, and is slow (some 3,000 lines a second).
"""
import os
import re
import sys

sys.path.insert(0, os.path.join(os.path.dirname(os.path.abspath(__file__)), "../crates/cases"))
import cases

sys.setrecursionlimit(200000)
ARGUMENTS = {op: {"offset": "ng", "": "g"}.get(args, "gg") for op, (args, _) in cases.COMMANDS.items()}
TOKEN = re.compile(r"\[|\]| |(?:0|[1-9][0-9]*)(?![0-9])")


class Misspelled(Exception):
    """refusal 8"""


def group(text, at):
    """The bracket group that starts here, as a list of words and groups, and where it ends."""
    stack, before = [], " "
    while True:
        m = TOKEN.match(text, at)
        if not m:
            raise Misspelled
        x, at = m.group(), m.end()
        # a word or an opening bracket stands at the start of its group or after a space, a space after a word or a closing bracket
        if before == " " and x in " ]" or before == "[" and x == " " or before not in " [" and x not in " ]":
            raise Misspelled
        if x == "[":
            stack.append([])
        elif x == "]":
            whole = stack.pop()
            if not stack:
                return whole, at
            stack[-1].append(whole)
        elif x != " ":
            if not stack or int(x) > cases.ANY:
                raise Misspelled
            stack[-1].append(int(x))
        before = x


def flat(g):
    out, stack = [], [iter(g)]
    while stack:
        for x in stack[-1]:
            if isinstance(x, list):
                stack.append(iter(x))
                break
            out.append(x)
        else:
            stack.pop()
    return out


def place_row(g):
    out = []
    for x in g:
        out += [x] if not isinstance(x, list) else [1] + flat(x) if x else [0]
    return out


def nested(f):
    """The node as a bracket group: an annotation is a node of its own behind its flag."""
    t, own, decls, kids = f
    tag = cases.tag_of(f)
    out = [tag] + own + ([len(decls)] if decls else [])
    for name, note in decls:
        out.append(name)
        if tag in cases.PLAIN:
            out += [1, nested(note)] if note else [0]
    return out + [nested(k) for k in kids]


def spelled(g):
    return "[%s]" % " ".join(spelled(x) if isinstance(x, list) else str(x) for x in g)


def read(line):
    """The command, its offset, its list and its form."""
    head = re.match(r"\[([a-z]+)(?= )", line)
    if len(line) > 65535 or not head or head.group(1) not in ARGUMENTS:
        raise Misspelled
    op, at, by, groups = head.group(1), head.end(), 0, []
    for kind in ARGUMENTS[op]:
        if line[at:at + 1] != " ":
            raise Misspelled
        at += 1
        if kind == "n":
            m = re.compile(r"(-[1-9][0-9]*|0|[1-9][0-9]*)(?![0-9])").match(line, at)
            if not m or not -2 ** 31 <= int(m.group()) < 2 ** 31:
                raise Misspelled
            by, at = int(m.group()), m.end()
        else:
            if line[at:at + 1] != "[":
                raise Misspelled
            g, at = group(line, at)
            groups.append(g)
    if line[at:] != "]":
        raise Misspelled
    return op, by, groups[0] if len(groups) > 1 else [], groups[-1]


def rows(op, lst, form):
    """The words of the list and of the form, where 1, 2 and the late 8 do not refuse them."""
    row = flat(form)
    f = cases.form(row, cases.COMMANDS[op][1])
    if nested(f) != form:
        raise Misspelled
    listed = place_row(lst) if op == "fill" else flat(lst)
    if op == "bind" and (len(listed) <= cases.WORDS and listed != lst):
        raise Misspelled
    if op in ("free", "fill"):
        entries = cases.entries(listed, "pairs" if op == "free" else "places")
        if lst != ([[w, nested(e)] for w, e in entries] if op == "free" else [nested(e) if e else [] for e in entries]):
            raise Misspelled
    return listed, row, f


def refused(x):
    return "[no 2 %d]" % x.p if x.k == 2 else "[no %d]" % x.k


def answer(line):
    try:
        op, by, lst, form = read(line)
        listed, row, f = rows(op, lst, form)
        words = cases.call(op, cases.WORDS, 16384, by, listed, row)
    except Misspelled:
        return "[no 8]"
    except cases.No as x:
        return refused(x)
    return spelled(nested(cases.form(words, cases.sort_of(words))))


def joins_dangling(line):
    """Whether one point or membership puts declarations round the body's own quantifier of the same operator, an annotation of which has a
    dangling index."""
    if "[861 " not in line and "[862 " not in line:
        return False
    met, join = [], cases.join

    def watched(op, front, new):
        met.append(new[0] == op and any(cases.dangling(note) for _, note in new[2] if note))
        return join(op, front, new)

    cases.join = watched
    try:
        answer(line)
    finally:
        cases.join = join
    return any(met)


def own(line):
    """The answer to one of the oracle's commands: the dangling set, a lifted form, or whether each offer is accepted and what the places hold."""
    head, rest = line[1:-1].split(" ", 1)
    if head == "dangling":
        return spelled(cases.dangling(cases.form(flat(group(rest, 0)[0]))))
    n, _, rest = rest.partition(" ")
    if head == "lift":
        part = cases.lift(flat(group(rest, 0)[0]), int(n), cases.WORDS)
        return spelled(nested(cases.form(part))) if part else "[no 7]"
    forms = [flat(g) for g in group("[%s]" % rest, 0)[0]]
    said, places = [], [[]] * int(n)
    for k in range(len(forms)):
        numbers, _, filled = cases.offers(int(n), False, forms[:k + 1])
        said.append(int(numbers[-2] == 0))
        if said[-1]:
            # the place that is new holds a part of this form
            j, start, end = next(p for p in filled if not places[p[0]])
            places[j] = nested(cases.form(forms[k][start:end], "E"))
    return spelled([said, places])


def main():
    extra = ("[dangling ", "[lift ", "[offer ") if sys.argv[1:] == ["--own"] else ()
    for line in sys.stdin:
        line = line.rstrip("\n")
        print(own(line) if extra and line.startswith(extra) else answer(line))


if __name__ == "__main__":
    main()
