#!/usr/bin/env python3
"""The positions of the model in cases.py against the words that say what a position is, by trying every continuation.

Under small limits every acceptable row over a small alphabet is listed, from the grammar and without reading a row. The
beginnings of these rows are what can go on. So the position of a row is the length of its longest beginning that can go on. Each such
beginning is taken with every next word, alone and with words after it, and the model must give that position; it must accept exactly the
listed rows. The same is done for lists of pairs and of places, and for named rows, which have no tag 2. Rows with annotations are longer, so these are
tried again over fewer words.

  positions.py [WORDS [WORDS]]        prints the number of rows that were tried, and fails at the first difference; the second number is for
                                      the rows with annotations
"""
import functools
import itertools
import multiprocessing
import sys

import cases

DEPTH, NAME, DECLARATIONS = 3, 2, 2
IDENTIFIERS = 1, 2
NUMBERS = range(0, 16)
ALPHABET = sorted({*range(12), 101, 201, 251, 301, 351, 401, 610, 751, 803, 851, 862, 873, 999})


def together(parts):
    """Every row that is a row of each part, one after another."""
    return {sum(choice, ()) for choice in itertools.product(*parts)}


def several(sort, depth, most, n, whole=False):
    """Every row of n forms of the sort with at most so many words; or the forms of each row."""
    if n == 0:
        return {()}
    return {((a,) if whole else a) + b for a in forms(sort, depth, most - n + 1) for b in several(sort, depth, most - len(a), n - 1, whole)}


def declared(depth, most):
    """Every row of a count and so many declarations with annotations, one at least, with at most so many words."""
    for n in range(1, DECLARATIONS + 1):
        for names in itertools.product(range(NAME + 1), repeat=n):
            for flags in itertools.product((0, 1), repeat=n):
                for notes in several("E", depth, most - 1 - 2 * n, sum(flags), whole=True) if 1 in flags else ():
                    left = list(notes)
                    yield sum(((name, 1) + left.pop(0) if flag else (name, 0) for name, flag in zip(names, flags)), (n,))


@functools.lru_cache(None)
def forms(sort, depth, most):
    """Every form of the sort, at most so deep (a leaf is 1), with at most so many words: the two lists of tags, with those for annotations."""
    if depth == 0 or most < 1:
        return frozenset()
    names = [(n,) for n in range(NAME + 1)]
    heads = []      # the words before the children, and the sorts of the children
    if sort == "E":
        heads += [((t, n), "") for t in IDENTIFIERS for n, in names] + [((3, v), "") for v in ALPHABET] + [((401,), "")]
        heads += [((4, n), "E" * n) for n in NUMBERS] + [((301, n), "E" * n) for n in NUMBERS if n >= 2]
        heads += [((5,), "P"), ((6,), "EE"), ((201,), "EE"), ((751,), "E")]
        heads += [((803, f, n) + ds, "PE") for f in range(4) for n in range(1, DECLARATIONS + 1) for ds in together([names] * n)]
        heads += [((873, f) + ds, "PE") for ds in declared(depth - 1, most - 4) for f in range(4)]
    else:
        heads += [((610,), ""), ((8,), "P"), ((9,), "E"), ((101,), "EE"), ((251,), "PP")] + [((7, n), "") for n, in names]
        heads += [((10, n), "E" * n) for n in NUMBERS if n >= 1] + [((11, m, n), "E" * n) for m, in names for n in NUMBERS]
        heads += [((351, n), "P" * n) for n in NUMBERS if n >= 2]
        heads += [((851, n) + ds, "P") for n in range(1, DECLARATIONS + 1) for ds in together([names] * n)]
        heads += [((862,) + ds, "P") for ds in declared(depth - 1, most - 2)]
    out = set()
    for head, kids in heads:
        room = most - len(head)
        if room < len(kids) or not set(head) <= set(ALPHABET):
            continue
        if kids in ("PE",):
            out |= {head + p + e for p in forms("P", depth - 1, room - 1) for e in forms("E", depth - 1, room - len(p))}
        else:
            out |= {head + rest for rest in several(kids[:1], depth - 1, room, len(kids))}
    return frozenset(out)


def lists(kind, most):
    """Every list of the kind with at most so many words."""
    out = {()}
    if kind == "places":
        firsts = {(0,)} | {(1,) + e for e in forms("E", DEPTH, most - 1)}
    else:
        firsts = {(w,) + e for w in ALPHABET for e in forms("E", DEPTH, most - 1)}
    for a in firsts:
        if len(a) <= most:
            out |= {a + b for b in lists(kind, most - len(a))} if len(a) < most else {a}
    return out


def position(read, row):
    """The model's answer: a position, or None for a row that is accepted."""
    try:
        read(list(row))
    except cases.No as x:
        assert x.k == 2, (x.k, row)
        return x.p
    return None


def compare(name, words, accepted, read):
    cases.WORDS = words
    viable = {row[:n] for row in accepted for n in range(len(row) + 1)}
    tried = 0
    for begin in viable:
        want = None if begin in accepted else len(begin)
        rows = [(begin, want)]
        for w in ALPHABET:
            if begin + (w,) not in viable:
                rows += [((begin + (w,) + more)[:words], len(begin)) for more in ((), (401,), (0, 610)) if len(begin) < words]
        for row, want in rows:
            tried += 1
            got = position(read, row)
            assert got == want, "%s: %s breaks at %s, the model says %s" % (name, " ".join(map(str, row)), want, got)
    print("%s: %d acceptable rows, %d beginnings, %d rows tried" % (name, len(accepted), len(viable), tried))


def limits(alphabet, name, identifiers=(1, 2)):
    """The words that are tried, the largest name, and the tags of identifiers that rows may have; with the other limits, for the lists here and
    for the model."""
    global ALPHABET, NAME, IDENTIFIERS
    ALPHABET, NAME, IDENTIFIERS = alphabet, name, identifiers
    forms.cache_clear()
    cases.DEPTH, cases.NAME, cases.DECLARATIONS = DEPTH, NAME, DECLARATIONS
    cases.SHAPES = cases.shapes()


def both(name, words):
    expressions, predicates = forms("E", DEPTH, words), forms("P", DEPTH, words)
    compare(name + "expressions", words, expressions, lambda row: cases.form(row, "E"))
    compare(name + "predicates", words, predicates, lambda row: cases.form(row, "P"))
    return expressions | predicates


def forms_of_each_sort(words):
    compare("either", words, both("", words), cases.form)


def lists_of_places(words):
    compare("places", words, lists("places", words), lambda row: cases.entries(row, "places"))


def lists_of_pairs(words):
    # a pair's name may be any word, so there are many more lists of pairs; none of them has room for an annotation
    limits([w for w in ALPHABET if w not in (862, 873)], NAME)
    compare("pairs", words - 1, lists("pairs", words - 1), lambda row: cases.entries(row, "pairs"))


SHORT = [0, 1, 2, 5, 9, 401, 610, 862, 873]


def named_rows(words, longer):
    """Named rows of either sort: no tag is 2, but a name, a count, a literal may be."""
    for name, alphabet, most, largest in ("named", ALPHABET, words - 1, NAME), ("named, annotated", SHORT, longer - 1, 1):
        limits(alphabet, largest, (1,))
        compare(name, most, forms("E", DEPTH, most) | forms("P", DEPTH, most), lambda row: cases.form(row, "N"))


def annotated(words):
    limits([0, 1, 2, 4, 5, 9, 401, 610, 862, 873], 0)
    both("annotated, with sets: ", words - 2)
    limits(SHORT, 1)
    both("annotated: ", words)
    compare("annotated: places", words - 2, lists("places", words - 2), lambda row: cases.entries(row, "places"))


def main():
    """Each part in a process of its own, since the limits are the model's."""
    words, longer = (int(a) for a in (sys.argv[1:] + ["6", "12"][len(sys.argv[1:]):])[:2])
    limits(ALPHABET, NAME)
    each = (forms_of_each_sort, words), (lists_of_places, words), (lists_of_pairs, words), (annotated, longer), (named_rows, words, longer)
    parts = [multiprocessing.Process(target=part, args=most) for part, *most in each]
    for part in parts:
        part.start()
    for part in parts:
        part.join()
    sys.exit(any(part.exitcode for part in parts))


if __name__ == "__main__":
    main()
