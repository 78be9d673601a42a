#!/usr/bin/env python3
"""Damaged rows and the position at which each breaks: forms, lists of pairs and lists of places, of up to 8,192 words and up to 70 deep.
The model of crates/cases, which shares nothing with the program, predicts the position; the cell program must print it.

  python3 bench/damaged_rows.py SEED COUNT        in the repository's root, after rt run in crates/cell
  python3 bench/damaged_rows.py SEED COUNT --lines        prints some of the lines, each followed by its answer: the list that stands in crates/cell/stdin
  --annotations           half of the quantifiers have annotations, and the damages know their tags and flags
  --named                 named rows alone: forms of either sort without an index, and the damages put indices in
  --program PROGRAM       another program than crates/cell/out/cell

A row is sent without inner brackets, so that a row that is accepted is refused by 8, after its 2.
"""
import argparse
import collections
import random
import subprocess
import sys

sys.path.insert(0, "crates/cases")
import cases

sys.setrecursionlimit(10000)
EDGES = [0, 1, 2, 3, 4, 31, 32, 33, 64, 65535, 65536, 8188, 8189, 8190, 8191, 8192, 8193, 2 ** 31, 2 ** 32 - 1]
TAGS = [t for sort in "EP" for t in cases.SHAPES[sort] if t not in cases.PLAIN]
ANNOTATIONS = NAMED = False


def expression(depth, words):
    """An expression of about so many words, at most so deep if it is not 1."""
    if words < 3 or depth < 2:
        return random.choice([[1, random.randrange(65536)], [2 - NAMED, random.randrange(65536)], [3, random.randrange(2 ** 32)], [401 + random.randrange(12)], [4, 0]])
    r = random.random()
    if r < 0.3:
        a = random.randrange(1, words)
        return [random.choice([6, 201, 213, 227])] + expression(depth - 1, a) + expression(depth - 1, words - 1 - a)
    if r < 0.5:
        return [random.choice([751, 757, 761, 764])] + expression(depth - 1, words - 1)
    if r < 0.65:
        return [5] + predicate(depth - 1, words - 1)
    if r < 0.85:
        tag, least = random.choice([(4, 0), (301, 2), (307, 2)])
        return [tag] + several(expression, depth, words, least)
    names = [random.randrange(65536) for _ in range(random.choice([1, 1, 2, 3, 32]))]
    if ANNOTATIONS and random.random() < 0.5:
        head = [random.choice([871, 872, 873]), random.randrange(4)] + annotated(names, depth, words)
        a = random.randrange(1, max(2, words - len(head)))
        return head + predicate(depth - 1, a) + expression(depth - 1, words - len(head) - a)
    a = random.randrange(1, max(2, words - 3 - len(names)))
    return [random.choice([801, 802, 803]), random.randrange(4), len(names)] + names + predicate(depth - 1, a) + expression(depth - 1, words - 3 - len(names) - a)


def annotated(names, depth, words):
    """The names with annotations, which have about half of the words; at times none has one."""
    must = random.choice([random.randrange(len(names)), 0, len(names) - 1]) if random.random() < 0.98 else None
    out = [len(names)]
    for j, name in enumerate(names):
        out += [name, 1] + expression(depth - 1, random.randrange(1, 2 + words // 2 // len(names))) if j == must or must is not None and random.random() < 0.4 else [name, 0]
    return out


def predicate(depth, words):
    if depth < 2 or words < 2:
        return random.choice([[610], [611], [7, random.randrange(65536)], [11, 4, 0]])
    r = random.random()
    if r < 0.25:
        a = random.randrange(1, words)
        return [random.randrange(101, 113)] + expression(depth - 1, a) + expression(depth - 1, words - 1 - a)
    if r < 0.4:
        return [8] + predicate(depth - 1, words - 1)
    if r < 0.5:
        return [9] + expression(depth - 1, words - 1)
    if r < 0.6:
        a = random.randrange(1, words)
        return [random.choice([251, 252])] + predicate(depth - 1, a) + predicate(depth - 1, words - 1 - a)
    if r < 0.75:
        return [random.choice([351, 352])] + several(predicate, depth, words, 2)
    if r < 0.85:
        return random.choice([[10] + several(expression, depth, words, 1), [11, 7] + several(expression, depth, words, 0)])
    names = [random.randrange(65536) for _ in range(random.choice([1, 2, 32]))]
    if ANNOTATIONS and random.random() < 0.5:
        head = [random.choice([861, 862])] + annotated(names, depth, words)
        return head + predicate(depth - 1, words - len(head))
    return [random.choice([851, 852]), len(names)] + names + predicate(depth - 1, words - 2 - len(names))


def several(make, depth, words, least):
    n = max(least, random.choice([2, 3, 5, words // 3]))
    out = [n]
    for i in range(n):
        out += make(depth - 1, max(1, (words - len(out)) // (n - i)) if random.random() < 0.8 else 1)
    return out


def chain(words):
    """A chain of nots or of unary expressions, up to 70 deep, round something small."""
    n = random.randrange(50, 70)
    if ANNOTATIONS and random.random() < 0.4:
        # the annotation is what is deep
        note = [random.choice([751, 764])] * random.randrange(0, 70 - n + 2) + random.choice([expression(2, 5), [4, random.randrange(3)], [401]])
        return [8] * n + random.choice([[861, 1, 4, 1], [9, 872, 0, 1, 4, 1], [862, 2, 4, 0, 5, 1]]) + note + random.choice([[610], [610, 401], []])
    if random.random() < 0.5:
        return [8] * n + predicate(2, 5)
    return [9] + [random.choice([751, 764])] * n + random.choice([expression(2, 5), [4, random.randrange(3)], [301, 2]])


def padded(words):
    """A row as long as a row may be, or nearly: many small children, one of them larger."""
    n = cases.WORDS - random.randrange(3, 12)
    row = random.choice([[10, n], [9, 4, n], [8, 11, 7, n], [252, 610, 10, n], [10, n - 3]])
    if ANNOTATIONS:
        n = cases.WORDS - random.randrange(12, 24)
        row = random.choice([[861, 1, 4, 1, 4, n], [862, 2, 4, 1, 401, 5, 1, 4, n], [9, 871, 0, 1, 4, 1, 4, n], [862, 3, 4, 0, 5, 1, 4, n], [9, 4, n], [9, 4, n], [351, n]])
        one = [610] if row[0] == 351 else [401]
        while len(row) < cases.WORDS - random.randrange(0, 20):
            row += one if random.random() < 0.995 or one == [610] else random.choice([[1, 5], [4, 1, 401], [873, 0, 1, 4, 1, 401, 610, 401]])
        return (row + random.choice([[5, 0, 610], [610], [861, 1, 4, 1], [873, 0, 2, 4, 0, 5, 1, 401, 610], [871, 0, 1, 4, 1, 2, 0]]))[:cases.WORDS]
    while len(row) < cases.WORDS - random.randrange(0, 9):
        row += [401] if random.random() < 0.995 else random.choice([[1, 5], [761, 401], [4, 1, 401], [6, 401, 401]])
    return row[:cases.WORDS]


def damage(row):
    """One of the damages that a row can take, at a place that is often near its end."""
    row = list(row)
    at = random.choice([random.randrange(len(row)), max(0, len(row) - 1 - random.randrange(4))]) if row else 0
    what = random.randrange(6)
    word = random.choice([random.choice(EDGES), random.choice(TAGS), random.randrange(1000)])
    if what == 0 or not row:
        row.insert(at, word)
    elif what == 1:
        del row[at]
    elif what == 2:
        row[at] = word
    elif what == 3:
        row[at] = min(2 ** 32 - 1, max(0, row[at] + random.choice([-1, 1])))
    elif what == 4:
        del row[at:]
    else:
        row += [word] * random.randrange(1, 3)
    return row[:cases.WORDS]


def size():
    r = random.random()
    return random.randrange(1, 30) if r < 0.5 else random.randrange(30, 300) if r < 0.9 else random.randrange(300, 3000) if r < 0.985 else random.randrange(3000, 8100)


def form():
    r = random.random()
    if r < 0.08:
        return chain(0)
    if r < 0.12:
        return padded(0)
    return random.choice([expression, predicate])(random.choice([3, 12, 40, 64, 66]), size())


def entries(kind):
    out = []
    for _ in range(random.choice([0, 1, 2, 3, 31, 32, 33])):
        e = expression(random.choice([2, 10, 64, 65]), size() // 8 + 1)
        out += [random.choice([4, 65535, 65536, 2 ** 32 - 1])] + e if kind == "pairs" else random.choice([[0], [1] + e])
    if random.random() < 0.05:
        out += ([4] if kind == "pairs" else [1]) + [4, cases.WORDS - len(out) - 3] + [401] * (cases.WORDS - len(out) - random.randrange(3, 6))
    return out[:cases.WORDS]


def command():
    """The line, and the position where its row breaks, or None where it is accepted."""
    kind = "named" if NAMED else random.choice(["form", "form", "form", "predicate", "pairs", "places"])
    row = (form() if kind in ("form", "predicate", "named") else entries(kind))[:cases.WORDS]
    for _ in range(random.choice([0, 1, 1, 1, 2])):
        row = damage(row)
    words = "[%s]" % " ".join(map(str, row))
    try:
        if kind == "pairs":
            line, read = "[free %s [610]]" % words, lambda: cases.entries(row, "pairs")
        elif kind == "places":
            line, read = "[fill %s [851 1 4 [610]]]" % words, lambda: cases.entries(row, "places")
        elif kind == "named":
            line, read = "[named %s]" % words, lambda: cases.form(row, "N")
        else:
            line = "[%s %s]" % (random.choice(["prune", "point", "member"]) if kind == "predicate" else random.choice(["shift 0", "bind []"]), words)
            read = lambda: cases.form(row, "P" if kind == "predicate" else None)
        read()
    except cases.No as x:
        assert x.k == 2, (x.k, line[:200])
        return kind, line, x.p, row
    return kind, line, None, row


def main():
    global ANNOTATIONS, NAMED
    a = argparse.ArgumentParser()
    a.add_argument("seed", type=int)
    a.add_argument("count", type=int)
    a.add_argument("--lines", action="store_true")
    a.add_argument("--annotations", action="store_true")
    a.add_argument("--named", action="store_true")
    a.add_argument("--program", default="crates/cell/out/cell")
    o = a.parse_args()
    random.seed(o.seed)
    if o.annotations:
        ANNOTATIONS = True
        TAGS.extend(list(cases.PLAIN) * 4)
        EDGES.extend([0, 1] * 3)
    if o.named:
        NAMED = True
        TAGS.extend([2] * 20)
    made = [c for c in (command() for _ in range(o.count)) if len(c[1]) <= 65535]
    if o.lines:
        # for each kind, size of row and size of position the shortest line, where words ran out and where a word cannot come; of the longest rows
        # one for each kind
        best = {}
        for kind, line, p, row in made:
            longest = p is not None and len(row) > 8190 and p > 8180
            if p is not None and (longest or len(row) < 600):
                cause = (kind, p == len(row)) if longest else (kind, len(row).bit_length(), p.bit_length(), p == len(row))
                best[cause] = min(best.get(cause, (line, p)), (line, p), key=lambda x: len(x[0]))
        for line, p in best.values():
            print("%s\n[no 2 %d]" % (line, p))
        return
    given = "".join(line + "\n" for _, line, _, _ in made)
    said = subprocess.run(o.program.split(), input=given.encode(), stdout=subprocess.PIPE, check=True).stdout.decode().splitlines()
    assert len(said) == len(made), (len(said), len(made))
    counts = collections.Counter()
    for (kind, line, p, row), got in zip(made, said):
        good = got == "[no 2 %d]" % p if p is not None else not got.startswith("[no 2 ")
        counts[kind, "broken" if p is not None else "accepted"] += 1
        if not good:
            print("%s\n  %s, not %s" % (line[:400], got, p))
            counts["wrong"] += 1
    for key, n in sorted(counts.items(), key=str):
        print(key, n)
    print("longest row", max(len(r) for _, _, _, r in made), "of", len(made), "rows;", sum(len(r) for _, _, _, r in made), "words")
    sys.exit(1 if counts["wrong"] else 0)


if __name__ == "__main__":
    main()
