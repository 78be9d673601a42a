#!/usr/bin/env python3
"""Makes the list of lines of the command fill with more, as many or fewer places than declarations that the cell
program is run on, each with its answer, after ./build.sh.

  sample_places.py [--oracle target/oracle] > LIST        a line, a tab, the answer

First come the lines of WORKED, whose answers were written by hand, then those of `written`. The answer is the Rust's where it has one, asked
with the missing places put in (compare.py), else that of the model of crates/cases, which must agree with the Rust and with the answers by
hand. Counts go to standard error.
"""
import argparse
import collections
import sys

import compare
import model
from model import cases

sys.setrecursionlimit(10000)

WORKED = [
    # the first of two places, the other one missing; no place; as many; one more
    ("[fill [[1 5]] [852 2 4 5 [101 [2 1] [2 2]]]]", "[852 1 5 [101 [1 5] [2 1]]]"),
    ("[fill [] [852 2 4 5 [101 [2 1] [2 2]]]]", "[852 2 4 5 [101 [2 1] [2 2]]]"),
    ("[fill [[]] [852 2 4 5 [101 [2 1] [2 2]]]]", "[852 2 4 5 [101 [2 1] [2 2]]]"),
    ("[fill [[] []] [852 2 4 5 [101 [2 1] [2 2]]]]", "[852 2 4 5 [101 [2 1] [2 2]]]"),
    ("[fill [[1 5] []] [852 2 4 5 [101 [2 1] [2 2]]]]", "[852 1 5 [101 [1 5] [2 1]]]"),
    ("[fill [[1 5] [1 6]] [852 2 4 5 [101 [2 1] [2 2]]]]", "[101 [1 5] [2 0]]"),
    ("[fill [[] [] []] [852 2 4 5 [101 [2 1] [2 2]]]]", "[no 5]"),
    ("[fill [[1 5] [] []] [852 2 4 5 [101 [2 1] [2 2]]]]", "[no 5]"),
    # what is put in is lifted by the declarations that are kept, the missing ones among them
    ("[fill [[2 0]] [852 2 4 5 [101 [2 1] [2 0]]]]", "[852 1 5 [101 [2 1] [2 0]]]"),
    ("[fill [[2 0]] [851 3 4 5 6 [101 [2 2] [201 [2 1] [2 3]]]]]", "[851 2 5 6 [101 [2 2] [201 [2 1] [2 2]]]]"),
    ("[fill [[] [2 0]] [851 3 4 5 6 [101 [2 2] [201 [2 1] [2 0]]]]]", "[851 2 4 6 [101 [2 1] [201 [2 2] [2 0]]]]"),
    ("[fill [[2 0]] [852 2 4 5 [851 1 6 [10 3 [2 0] [2 1] [2 2]]]]]", "[852 1 5 [851 1 6 [10 3 [2 0] [2 1] [2 2]]]]"),
    # one declaration
    ("[fill [] [852 1 4 [9 [2 0]]]]", "[852 1 4 [9 [2 0]]]"),
    ("[fill [[1 5]] [852 1 4 [9 [2 0]]]]", "[9 [1 5]]"),
    ("[fill [[] []] [852 1 4 [9 [2 0]]]]", "[no 5]"),
    # with annotations: what is kept keeps its annotation
    ("[fill [[1 5]] [862 2 4 1 [1 6] 5 0 [101 [2 0] [2 1]]]]", "[852 1 5 [101 [2 0] [1 5]]]"),
    ("[fill [[1 5]] [862 2 4 0 5 1 [2 0] [101 [2 0] [2 1]]]]", "[862 1 5 1 [2 0] [101 [2 0] [1 5]]]"),
    ("[fill [] [862 2 4 1 [1 6] 5 0 [101 [2 0] [2 1]]]]", "[862 2 4 1 [1 6] 5 0 [101 [2 0] [2 1]]]"),
    ("[fill [[] [] []] [862 2 4 1 [1 6] 5 0 [101 [2 0] [2 1]]]]", "[no 5]"),
    # the list's 2, then 3, then 5; brackets that do not fit are 8 after that row's 2
    ("[fill [[610]] [852 2 4 5 [610]]]", "[no 2 1]"), ("[fill [[] [] [610]] [852 2 4 5 [610]]]", "[no 2 3]"), ("[fill [2] [852 2 4 5 [610]]]", "[no 2 0]"),
    ("[fill [] [610]]", "[no 3]"), ("[fill [[] []] [610]]", "[no 3]"), ("[fill [] [9 [803 0 2 4 5 [610] [2 0]]]]", "[no 3]"), ("[fill [] [9 [1 4] [610]]]", "[no 2 3]"),
    ("[fill [1 1 5] [852 2 4 5 [610]]]", "[no 8]"), ("[fill [[1 5]] [852 2 4 [5 [610]]]]", "[no 8]"), ("[fill [[1 5] ] [852 2 4 5 [610]]]", "[no 8]"),
    # a result outside the limits
    ("[fill [[2 65535]] [852 2 4 5 [9 [2 1]]]]", "[no 7]"), ("[fill [[2 65534]] [852 2 4 5 [9 [2 1]]]]", "[852 1 5 [9 [2 65535]]]")]


def quantified(op, n, body, noted=()):
    """A predicate of n declarations, those of the numbers in `noted` annotated."""
    if not noted:
        return "[%d %d %s %s]" % (op, n, " ".join(str(4 + j) for j in range(n)), body)
    return "[%d %d %s %s]" % (op + 10, n, " ".join("%d %s" % (4 + j, "1 [2 %d]" % j if j in noted else "0") for j in range(n)), body)


def fill(places, form):
    return "[fill [%s] %s]" % (" ".join(places), form)


def nots(n, form):
    return "[8 " * n + form + "]" * n


def written():
    # lists one shorter, as long and one longer, and none: all kept, all filled, only the first, only the last one
    for n in (1, 2, 31, 32):
        body = "[10 3 [2 0] [2 %d] [2 %d]]" % (n - 1, n)
        for k in dict.fromkeys((0, n - 1, n, n + 1)):
            masks = [["[]"] * k, ["[2 %d]" % j for j in range(k)]]
            masks += [["[1 9]"] + ["[]"] * (k - 1), ["[]"] * (k - 1) + ["[2 0]"]] if k else []
            for places in masks:
                yield fill(places, quantified(852, n, body))
                yield fill(places, quantified(851, n, "[852 1 3 %s]" % body, (0, n - 1)))
    # every mask of up to three places for three declarations
    for k in range(4):
        for mask in range(2 ** k):
            places = ["[201 [2 0] [1 %d]]" % j if mask >> j & 1 else "[]" for j in range(k)]
            yield fill(places, quantified(852 - k % 2, 3, "[10 4 [2 0] [2 1] [2 2] [2 3]]"))
            yield fill(places, quantified(851 + k % 2, 3, "[10 4 [2 0] [2 1] [2 2] [2 3]]", (mask % 3,)))
    # the depths of row and expression at which the result is checked, and the depth that is too much
    for deep in (1, 2, 3, 5, 6, 33):
        e = "[751 " * (deep - 1) + "[2 0]" + "]" * (deep - 1)
        for under in (61 - deep, 62 - deep, 63 - deep):
            if under >= 0:
                yield fill([e], quantified(852, 2, nots(under, "[9 [2 1]]")))
                yield fill([e], quantified(851, 2, nots(under, "[9 [2 1]]"), (1,)))
    # words about 63,487, beyond which a result is checked
    for word in (63486, 63487, 63488, 65503, 65504):
        yield fill(["[2 %d]" % word], quantified(852, 32, "[9 [2 31]]"))
    # rows about 256 words with annotations, about 1,024 without
    for words in (255, 256, 257):
        yield fill(["[1 5]"], "[862 2 4 0 5 1 [4 %d%s] [9 [2 1]]]" % (words - 11, " [401]" * (words - 11)))
    for words in (1023, 1024, 1025):
        yield fill(["[301 2 [2 0] [1 7]]"], "[852 2 4 5 [10 %d%s [2 1]]]" % (words - 7, " [401]" * (words - 8)))
    # lists of many places
    for k in (33, 64, 4000):
        yield fill(["[]"] * k, quantified(852, 32, "[9 [2 0]]"))


def main():
    a = argparse.ArgumentParser()
    a.add_argument("--oracle", default="target/oracle")
    o = a.parse_args()
    for line, by_hand in WORKED:
        assert model.answer(line) == by_hand, (line, by_hand, model.answer(line))
    lines = list(dict.fromkeys([line for line, _ in WORKED] + list(written())))
    counts = collections.Counter()
    for line, rust in zip(lines, compare.ask([o.oracle], [compare.with_all_places(l) for l in lines])):
        mine, source = model.answer(line), "model"
        if not mine.startswith(("[no 2 ", "[no 8]")):
            want = compare.expected(line, rust)
            assert want in (None, mine), (line, rust, want, mine)
            source = "model" if want is None else "Rust"
        counts[source] += 1
        counts["form" if not mine.startswith("[no ") else mine[:5]] += 1
        print("%s\t%s" % (line, mine))
    print("%d lines, %d by hand: %s" % (len(lines), len(WORKED), dict(counts)), file=sys.stderr)


if __name__ == "__main__":
    main()
