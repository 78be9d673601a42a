#!/usr/bin/env python3
"""Makes the list of lines of the command named that the cell program is run on, each with its answer.

  sample_named.py [--forms N] [--refused N] > LIST        a line, a tab, the answer

First come the lines of WORKED, whose answers were written by hand, then those of `written`, for each tag, each place of a tag 2 and each limit;
then, of random lines (named.py), the shortest that have a trait of `traits` which no line before them has, up to N that are answered by a form and
N that are refused. The answers are those of the model of crates/cases, which must agree with the ones by hand. Counts go to standard error.
"""
import argparse
import collections
import sys

import model
import named
from model import cases

sys.setrecursionlimit(10000)

WORKED = [
    # an annotation is looked up outside its quantifier
    ("[862 1 4 1 [1 4] [9 [1 4]]]", "[862 1 4 1 [1 4] [9 [2 0]]]"),
    ("[852 1 4 [862 1 4 1 [1 4] [9 [1 4]]]]", "[852 1 4 [862 1 4 1 [2 0] [9 [2 0]]]]"),
    ("[852 2 5 4 [861 2 4 0 5 1 [201 [1 4] [1 5]] [101 [1 4] [1 5]]]]", "[852 2 5 4 [861 2 4 0 5 1 [201 [2 0] [2 1]] [101 [2 1] [2 0]]]]"),
    ("[873 0 1 4 1 [873 0 1 4 1 [1 4] [9 [1 4]] [1 4]] [9 [1 4]] [1 4]]", "[873 0 1 4 1 [873 0 1 4 1 [1 4] [9 [2 0]] [2 0]] [9 [2 0]] [2 0]]"),
    ("[861 2 4 1 [1 5] 5 1 [1 4] [101 [1 4] [1 5]]]", "[861 2 4 1 [1 5] 5 1 [1 4] [101 [2 1] [2 0]]]"),
    ("[871 3 1 4 1 [1 5] [9 [1 4]] [1 5]]", "[871 3 1 4 1 [1 5] [9 [2 0]] [1 5]]"),
    # the innermost first; within one quantifier the last first
    ("[852 1 4 [9 [1 4]]]", "[852 1 4 [9 [2 0]]]"),
    ("[852 2 4 5 [101 [1 4] [1 5]]]", "[852 2 4 5 [101 [2 1] [2 0]]]"),
    ("[852 2 4 4 [9 [1 4]]]", "[852 2 4 4 [9 [2 0]]]"),
    ("[852 3 4 5 4 [101 [1 4] [1 5]]]", "[852 3 4 5 4 [101 [2 0] [2 1]]]"),
    ("[852 3 4 4 5 [101 [1 4] [1 5]]]", "[852 3 4 4 5 [101 [2 1] [2 0]]]"),
    ("[851 1 4 [852 1 4 [9 [1 4]]]]", "[851 1 4 [852 1 4 [9 [2 0]]]]"),
    ("[851 2 4 5 [852 1 4 [101 [1 4] [1 5]]]]", "[851 2 4 5 [852 1 4 [101 [2 0] [2 1]]]]"),
    ("[851 2 4 5 [852 2 6 4 [10 4 [1 4] [1 5] [1 6] [1 7]]]]", "[851 2 4 5 [852 2 6 4 [10 4 [2 0] [2 2] [2 1] [1 7]]]]"),
    ("[803 0 2 1 2 [101 [1 1] [1 2]] [201 [1 2] [1 1]]]", "[803 0 2 1 2 [101 [2 1] [2 0]] [201 [2 0] [2 1]]]"),
    # bound in one child, free in the next
    ("[351 2 [852 1 4 [9 [1 4]]] [9 [1 4]]]", "[351 2 [852 1 4 [9 [2 0]]] [9 [1 4]]]"),
    ("[852 1 5 [351 3 [9 [1 4]] [851 1 4 [101 [1 4] [1 5]]] [101 [1 4] [1 5]]]]", "[852 1 5 [351 3 [9 [1 4]] [851 1 4 [101 [2 0] [2 1]]] [101 [1 4] [2 0]]]]"),
    ("[852 1 4 [351 2 [851 1 4 [9 [1 4]]] [9 [1 4]]]]", "[852 1 4 [351 2 [851 1 4 [9 [2 0]]] [9 [2 0]]]]"),
    ("[101 [803 0 1 4 [610] [1 4]] [1 4]]", "[101 [803 0 1 4 [610] [2 0]] [1 4]]"),
    # names of 7 and 11 are kept
    ("[852 1 4 [351 3 [7 4] [11 4 1 [1 4]] [11 4 0]]]", "[852 1 4 [351 3 [7 4] [11 4 1 [2 0]] [11 4 0]]]"),
    # free everywhere
    ("[1 4]", "[1 4]"), ("[1 2]", "[1 2]"), ("[1 65535]", "[1 65535]"), ("[610]", "[610]"), ("[852 1 4 [9 [1 5]]]", "[852 1 4 [9 [1 5]]]"),
    ("[852 1 65535 [101 [1 65535] [1 65534]]]", "[852 1 65535 [101 [2 0] [1 65534]]]"), ("[852 2 0 1 [101 [1 0] [1 1]]]", "[852 2 0 1 [101 [2 1] [2 0]]]"),
    # a literal, a count, a declared name and a name may be 2
    ("[852 2 2 2 [351 2 [101 [1 2] [3 2]] [10 2 [1 2] [4 2 [3 2] [1 2]]]]]", "[852 2 2 2 [351 2 [101 [2 0] [3 2]] [10 2 [2 0] [4 2 [3 2] [2 0]]]]]"),
    ("[862 2 2 1 [3 2] 2 0 [9 [803 2 2 2 2 [7 2] [301 2 [1 2] [1 2]]]]]", "[862 2 2 1 [3 2] 2 0 [9 [803 2 2 2 2 [7 2] [301 2 [2 0] [2 0]]]]]"),
    # any tag 2 is 2
    ("[2 0]", "[no 2 0]"), ("[852 1 4 [9 [2 0]]]", "[no 2 4]"), ("[9 [2 65536]]", "[no 2 1]"), ("[862 1 4 1 [2 0] [610]]", "[no 2 4]"),
    ("[101 [1 4] [2 0]]", "[no 2 3]"), ("[101 [3 2] [4 1 [2 0]]]", "[no 2 5]"), ("[803 0 1 4 [610] [2 0]]", "[no 2 5]"), ("[852 1 4 [7 2]]", "[852 1 4 [7 2]]"),
    ("[9 [2]]", "[no 2 1]"), ("[9 2 0]", "[no 2 1]"),
    # refused as by every other command
    ("[]", "[no 2 0]"), ("[852 1 4]", "[no 2 3]"), ("[852 0 [610]]", "[no 2 1]"), ("[9 [1 65536]]", "[no 2 2]"), ("[101 [1 4] [610]]", "[no 2 3]"), ("[9 1 4]", "[no 8]"),
    ("[9 [[1 4]]]", "[no 8]"), ("[852 [1] 4 [610]]", "[no 8]"), ("[9 [1 4] []]", "[no 8]"), ("[9 [1 [4]]]", "[no 8]"), ("[852 1 [4 [610]]]", "[no 8]")]


def tags():
    """Each tag, with an occurrence that is bound and one that is free where it has room for them."""
    for sort, shapes in cases.SHAPES.items():
        for tag, (asked, kids) in shapes.items():
            if tag == 2:
                continue
            for name in (4, 5) if tag in (1, 7) else (4,):
                own, quantified = [], False
                for low, _, what in asked:
                    if what in ("D", "A"):
                        own += [2] + ([5, 6] if what == "D" else [5, 1, [1, 4], 6, 0])
                        quantified = True
                    elif what in ("E", "P"):
                        own.append(3)
                        kids = what * 3
                    else:
                        own.append(name if tag in (1, 7, 11) else 2)
                make = {"E": lambda j: [1, 4 + j % 3], "P": lambda j: [101, [1, 4 + j % 3], [1, 5]]}
                f = [tag] + own + [make[k](j) for j, k in enumerate(kids)]
                inner = [852, 2, 4, 6, f if sort == "P" else [9, f]]
                yield inner if not quantified else [851, 1, 4, [351, 2, f if sort == "P" else [9, f], [101, [1, 5], [1, 6]]]]


def twos():
    """A tag 2 in each place of an expression: each child of each kind of node, first and last; an annotation, first and last; the whole form."""
    heads = [[9], [4, 1], [4, 2, [1, 4]], [5, [101, [1, 4]]], [6], [6, [1, 4]], [201], [227, [1, 4]], [301, 2], [307, 3, [1, 4], [401]], [751], [757], [761], [764], [10, 1], [10, 2, [1, 4]],
             [11, 2, 1], [11, 4, 2, [1, 2]], [101], [112, [3, 2]], [801, 0, 1, 2, [610]], [803, 2, 2, 2, 2, [7, 2]], [802, 3, 1, 4, [9]], [8, [9]], [251, [610], [9]], [252, [9]], [351, 2, [9]],
             [352, 2, [7, 2], [9]], [851, 2, 2, 2, [9]], [852, 1, 2, [9]], [861, 1, 2, 1], [862, 2, 2, 0, 2, 1], [862, 2, 2, 1, [1, 2], 2, 1], [871, 2, 1, 2, 1], [873, 0, 2, 2, 1, [3, 2], 2, 1],
             [872, 0, 1, 2, 1, [1, 2], [610]], [861, 1, 2, 1, [1, 2], [9]]]
    for head in heads:
        for index in ("2 0", "2"):
            yield "[named [%s %s]]" % (" ".join(map(str, model.flat(head))), index)
    for f in ("[6 [2 0] [1 4]]", "[301 2 [2 0] [2 1]]", "[861 1 4 1 [2 0] [9 [2 0]]]", "[351 2 [9 [1 4]] [852 1 4 [101 [1 4] [803 0 1 5 [9 [1 5]] [2 1]]]]]",
              "[852 1 4 [852 1 5 [862 1 6 1 [751 [2 0]] [9 [1 6]]]]]", "[873 1 2 4 0 5 1 [2 3] [9 [1 4]] [1 5]]", "[4 3 [3 2] [1 2] [2 2]]", "[10 2 [4 2 [3 2] [3 2]] [2 2]]"):
        yield "[named %s]" % f


def limits():
    """The limits: 32 and 33 declarations, names at 65,535, depth 64, open declarations, 8,192 words, and lines."""
    show = model.spelled
    ask = lambda f: "[named %s]" % show(f)
    for same in (True, False):
        names = [4] * 32 if same else list(range(4, 36))
        uses = [10, 4, [1, 4], [1, 5], [1, 35], [1, 36]]
        yield ask([852, 32] + names + [uses])
        yield ask([851, 32] + names + [[852, 32] + names[::-1] + [uses]])
        yield ask([803, 0, 32] + names + [uses, [1, 4]])
        yield ask([862, 32] + [x for n in names[:-1] for x in (n, 0)] + [names[-1], 1, [1, 4], uses])
    yield ask([852, 33] + [4] * 33 + [[610]])
    yield ask([852, 2, 4, 65536, [9, [1, 4]]])
    for n in (61, 62, 63):
        f = [9, [1, 4]]
        for j in range(n):
            f = [851 + j % 2, 1, 4 + j % 3, f]
        yield ask(f)
        yield ask([8, f])
    for n in (61, 62):
        yield "[named [%s862 1 4 1 [751 [1 4]] [9 [1 4]]%s]" % ("8 [" * n, "]" * (n + 1))
    # 61 quantifiers of 32 declarations, and occurrences of the first, the last and others
    names = [n * 33 % 65521 for n in range(1952)]
    f = [10, 9] + [[1, names[i]] for i in (0, 31, 32, 1000, 1919, 1920, 1950, 1951)] + [[1, 65535]]
    for level in reversed(range(61)):
        f = [851, 32] + names[32 * level:32 * level + 32] + [f]
    yield ask(f)
    for words, last in ((8192, [1, 5]), (8192, [2, 5]), (8193, [1, 5])):
        many = (words - 7) // 2
        yield ask([852, 1, 4, [10, many + (words - 7) % 2 + 1] + [[401]] * ((words - 7) % 2) + [[1, 4]] * many + [last]])
    yield from ("[named]", "[named ]", "[named [1 4] [1 4]]", "[named 0 [1 4]]", "[named [] [1 4]]", "[Named [1 4]]", "[names [1 4]]", "[name [1 4]]", "[namedd [1 4]]", "[name d [1 4]]",
                "named [1 4]", "[named [1 4]", "[named [1 4]]]", "[named [1 04]]", "[named [1  4]]", "[named  [1 4]]", "[named [ 1 4]]", "[named [1 4 ]]", "[named [1 -4]]", "[named [1 4]] ",
                "[named [1 4294967296]]", "[named [3 4294967295]]", "[named [3 4294967296]]", "[named 1]", "[[named [1 4]]]", "[named[1 4]]")


def written():
    for f in tags():
        yield "[named %s]" % model.spelled(f)
    yield from twos()
    yield from limits()


# ----- random lines


def sort(word):
    """A word as a tag, without the difference between tags of one shape."""
    return word if word < 12 else word // 50 if word < 1000 else "no tag"


def traits(line, answer):
    """What the line shows: of an answer each occurrence with its place and what binds it, of a refusal where it breaks."""
    if answer.startswith("[no 2 "):
        row, p = model.flat(model.group(line[len("[named "):-1], 0)[0]), int(answer[6:-1])
        return {("breaks after", *map(sort, row[max(p - 1, 0):p]), "at", *map(sort, row[p:p + 1]))}
    if answer.startswith("[no "):
        return {answer}
    out = set()

    def go(f, scope, above):
        t, own, decls, kids = f
        if t == 1:
            bearers = [(i, op) for i, (name, op, _) in enumerate(reversed(scope)) if name == own[0]]
            out.add(("under", sort(above) if isinstance(above, int) else above, bool(bearers)))
            out.add(("bound", min(bearers[0][0], 6), bearers[0][1], min(len(bearers), 3)) if bearers else ("free", min(len(scope), 4)))
            if len(bearers) > 1:
                serials = [s for name, _, s in scope if name == own[0]]
                out.add(("shadowed", serials[-1] == serials[-2], bearers[0][1], bearers[1][1], min(bearers[1][0] - bearers[0][0], 6)))
        if t in (7, 11):
            out.add((t, own[0] in [name for name, _, _ in scope]))
        names = {name for name, _ in decls}
        for name, note in decls:
            if note:
                used = set(named.names_in(note))
                out.add(("annotation", t, bool(used & names), bool(used & {name for name, _, _ in scope})))
                go(note, scope, (t, "annotation"))
        inside = scope + [(name, t, len(scope)) for name, _ in decls]
        for k in kids:
            go(k, inside, t)

    go(cases.form(model.flat(model.group(line[len("[named "):-1], 0)[0]), "N"), [], 0)
    return out


def main():
    a = argparse.ArgumentParser()
    a.add_argument("--forms", type=int, default=160)
    a.add_argument("--refused", type=int, default=40)
    o = a.parse_args()
    for form, by_hand in WORKED:
        assert model.answer("[named %s]" % form) == by_hand, (form, by_hand, model.answer("[named %s]" % form))
    lines = list(dict.fromkeys(["[named %s]" % form for form, _ in WORKED] + list(written())))
    first, seen = len(lines), set()
    for line in lines:
        seen |= traits(line, model.answer(line))
    left = {False: o.forms, True: o.refused}
    for line in sorted((text for _, text in named.lines("sample", 8000) if len(text) < 400), key=len):
        answer = model.answer(line)
        refused = answer.startswith("[no ")
        if left[refused]:
            new = traits(line, answer)
            if new - seen:
                seen |= new
                left[refused] -= 1
                lines.append(line)
    counts = collections.Counter()
    for line in lines:
        answer = model.answer(line)
        counts["form" if not answer.startswith("[no ") else answer[:5]] += 1
        print("%s\t%s" % (line, answer))
    print("%d written lines, %d others: %s" % (first, len(lines) - first, dict(counts)), file=sys.stderr)


if __name__ == "__main__":
    main()
