#!/usr/bin/env python3
"""Named forms beside bind, through the static library and in plain C (bench/names.c): rows of bench/rows.py, with names for named and with indices
for bind, which have the same shape, of 20 to 8,000 words and of lengths between; then rows of 8,000 words under 1,920 open declarations, of 2,000 words under 896 and of 500 words under 256,
in which every occurrence names an outer one. Their time a word is held against that of ordinary rows, for 500 words those of 200.

  python3 bench/names.py [ROUNDS]        in the repository's root, after rt lib in crates/sogbayile; prints tables in Markdown: nanoseconds a word
"""
import os
import random
import subprocess
import sys

sys.path.insert(0, "bench")
from refused import SIZES, parts

LIBRARY = "crates/sogbayile/out/libsogbayile.a"
BETWEEN = (225, 64), (300, 64), (400, 64), (540, 64), (700, 48), (1000, 32), (2200, 24)       # a row has at most so many words; how many rows
BOUND = [3, 7, 1, 12]           # the names that bind is given
EACH = 32                       # declarations of a quantifier
LEVELS = {8000: 60, 2000: 28, 500: 8}          # quantifiers round one another, by the words of the row
SLOTS = {8000: 4093, 2000: 4093, 500: 2039}    # names that are equal modulo this share a slot (crates/named/src/scope.rt)
ORDINARY = {"8000": "8000", "2000": "2000", "500": "200"}


def rows_of(command, size, count, more):
    said = subprocess.run([sys.executable, "bench/rows.py", command, str(size), str(count), "7"] + more, stdout=subprocess.PIPE, check=True, text=True).stdout
    return [parts(line)[1] for line in said.splitlines()]


def wide(size, names, used):
    """A row of quantifiers round a conjunction: with indices and with names. The declared names are given from the outside; occurrences are of those
    that are used."""
    heads = [word for at in range(0, len(names), EACH) for word in [851, EACH] + names[at:at + EACH]]
    n = (size - len(heads) - 2) // 5
    index = {}
    for i, name in enumerate(reversed(names)):
        index.setdefault(name, i)
    chosen = [random.sample(used, 2) for _ in range(n)]
    body = lambda tag, word: [351, n] + [x for a, b in chosen for x in (112, tag, word(a), tag, word(b))]
    return heads + body(2, index.get), heads + body(1, lambda name: name)


def wide_rows(size, kind):
    """Names that are all different, an occurrence of any or of one of the outermost; names that are equal modulo 256, or but for the outermost all
    equal, an occurrence of one of the outermost; names that share a slot, in turn, an occurrence of the two that were declared first."""
    most = LEVELS[size] * EACH
    different = random.sample(range(65536), most)
    if kind == "any":
        return wide(size, different, different)
    if kind == "outermost":
        return wide(size, different, different[:EACH])
    if kind == "alike":
        alike = [256 * i + 7 for i in range(EACH)] + [256 * random.randrange(EACH, 256) + 7 for _ in range(most - EACH)]
        return wide(size, alike, alike[:EACH])
    if kind == "slot":
        shared = list(range(7, 65536, SLOTS[size]))
        return wide(size, [shared[i % len(shared)] for i in range(most)], shared[:2])
    return wide(size, different[:EACH] + [different[EACH]] * (most - EACH), different[:EACH])


def sets():
    """The name of each set, and its rows."""
    for more in [], ["annotated"]:
        for size, count in sorted(SIZES + BETWEEN):
            yield "%d%s" % (size, "+notes" if more else ""), list(zip(rows_of("shift", size, count, more), rows_of("named", size, count, more)))
    for size in LEVELS:
        for kind in "any", "outermost", "alike", "equal", "slot":
            yield "%d:%s" % (size, kind), [wide_rows(size, kind) for _ in range(8)]


def main():
    random.seed(1)
    os.makedirs("target/bench", exist_ok=True)
    subprocess.run(["cc", "-std=gnu11", "-O3", "-c", "-o", "target/bench/plain.o", "bench/plain.c"], check=True)
    subprocess.run(["cc", "-O2", "-Iinclude", "-o", "target/bench/names", "bench/names.c", "target/bench/plain.o", LIBRARY], check=True)
    lines = []
    for name, rows in sets():
        lines.append("%s %d" % (name, len(rows)))
        for both in rows:
            lines += [" ".join(map(str, [len(ws)] + list(ws))) for ws in (BOUND, *both)]
    said = subprocess.run(["target/bench/names", sys.argv[1] if len(sys.argv) > 1 else "300"], input="\n".join(lines) + "\n", stdout=subprocess.PIPE, check=True, text=True).stdout
    got = {}
    for line in said.splitlines():
        name, *numbers = line.split(",")
        got[name] = [float(x) for x in numbers]
    print("| named forms | words | library, ns a word | bind, library | named / bind | C | library / C | bind, C |")
    print("|---|---|---|---|---|---|---|---|")
    for name, (length, named, bind, plain, plain_bind) in got.items():
        kind = "annotated" if "+" in name else "under many declarations, " + name.split(":")[1] if ":" in name else "ordinary"
        print("| %s | %.0f | %.2f | %.2f | %.2f | %.2f | %.2f | %.2f |" % (kind, length, named, bind, named / bind, plain, named / plain, plain_bind))
    print("\n| growth from 2,000 to 8,000 words | named | bind |")
    print("|---|---|---|")
    for more in "", "+notes":
        a, b = got["2000" + more], got["8000" + more]
        print("| %s | %s |" % ("annotated" if more else "ordinary", " | ".join("%.2f" % (b[i] * b[0] / (a[i] * a[0])) for i in (1, 2))))
    print("\n| under many open declarations | words | declarations | ns a word | ordinary row | ratio |")
    print("|---|---|---|---|---|---|")
    for name, numbers in got.items():
        if ":" in name:
            size, kind = name.split(":")
            ordinary = got[ORDINARY[size]][1]
            print("| %s | %s | %d | %.2f | %.2f | %.2f |" % (kind, size, LEVELS[int(size)] * EACH, numbers[1], ordinary, numbers[1] / ordinary))


if __name__ == "__main__":
    main()
