#!/usr/bin/env python3
"""How much stack each call takes (bench/stack.c): rows of some 8,000 words, up to 64 deep, without annotations and with them, heads that one
point and membership join with the body's own, names under 1,952 declarations, replacements and annotations that take the longest rows, and rows
that break. These are the figures of include/sogbayile.h.

  python3 bench/stack.py        in the repository's root, after rt lib in crates/sogbayile
"""
import os
import subprocess
import sys

sys.path.insert(0, "bench")
from refused import COMMANDS, parts

LIBRARY = "crates/sogbayile/out/libsogbayile.a"
ROWS = "shift", "check", "dangling", "lift"


def conjunction(n, i, j):
    return [351, n] + [112, 2, i, 2, j] * n


def named_conjunction(n):
    return [351, n] + [112, 1, 4, 1, 5] * n


def nots(n, row):
    return [8] * n + row


def usual():
    for command in COMMANDS + ["named"]:
        for more in [], ["annotated"]:
            lines = subprocess.run([sys.executable, "bench/rows.py", command, "8000", "6", "3"] + more, stdout=subprocess.PIPE, check=True, text=True).stdout
            for line in lines.splitlines():
                for name in ROWS if command == "shift" else [command]:
                    yield (bool(more), name, *parts(line))


def deep():
    """Bodies behind so many nots, so that the rows are 57 to 64 deep."""
    note = [4, 1200] + [1, 7] * 1200
    for n in range(53, 61):
        long, short = nots(n, conjunction(1300, 0, 1)), nots(n - 2, conjunction(500, 0, 1))
        for name in ROWS:
            yield False, name, [], [8] + long
        yield False, "bind", [4, 5], [8] + long
        yield False, "free", [7, 2, 0, 9, 203, 1, 4, 1, 5], [8] + long
        for head in [852, 2, 4, 5], [862, 2, 4, 1, 1, 3, 5, 0], [862, 2, 4, 1] + note + [5, 0]:
            noted, body = head[0] == 862, short if len(head) > 100 else long
            members = [107, 201, 1, 7, 2, 3, 873 if noted else 803, 0] + head[1:]
            yield noted, "fill", [0, 1, 1, 5], head + body
            yield noted, "named", [], head + nots(n, named_conjunction(500 if len(head) > 100 else 1300))
            yield noted, "prune", [], head + nots(n, conjunction(500 if len(head) > 100 else 1300, 0, 2))
            yield noted, "point", [], head + [351, 2, 101, 2, 0, 2, 1] + body[1:]
            yield True, "point", [], head + [351, 2, 101, 2, 0, 2, 1, 862, 1, 6, 1] + note + short[2:]
            yield True, "point", [], head + [351, 2, 101, 2, 0, 203, 1, 9, 1, 8, 862, 1, 6, 1, 4, 2, 1, 7, 2, 0] + short[2:]
            yield True, "member", [], [107, 1, 7] + members[6:] + [862, 1, 6, 1] + note + short[3:] + [2, 0]
            yield noted, "member", [], members + short[2:] + [201, 2, 1, 2, 0]


def wide():
    """61 quantifiers of 32 declarations round names, without annotations and with them."""
    names = [10, 1000] + [1, 4] * 1000
    yield False, "named", [], [word for _ in range(61) for word in [851, 32] + [4] * 32] + names
    yield True, "named", [], [word for _ in range(61) for word in [861, 32] + [4, 0] * 31 + [4, 1, 1, 4]] + names


def far():
    """What takes the longest rows, or goes deepest: an index over 63; replacements so deep that the result is checked, and annotations that use them; a
    join whose result would be too long, which is refused."""
    part = [203, 1, 5, 203, 1, 6, 203, 1, 6, 1, 7]
    yield False, "dangling", [], [351, 1600] + [112, 2, 100, 2, 0] * 1600
    yield False, "free", [7] + part, conjunction(1600, 1, 1)
    yield False, "point", [], [852, 1, 9, 351, 1001, 101, 2, 0] + part + conjunction(1000, 1, 1)[2:]
    both = [1, 203, 1, 5, 1, 6] * 2
    for listed, body in ([0, 1] + part, conjunction(1500, 1, 1)), ([0, 1] + part, conjunction(600, 2, 2)), (both, conjunction(600, 1, 0)):
        yield False, "fill", listed, [852, 2, 4, 5] + body
        yield True, "fill", listed, [862, 2, 4, 1, 1, 9, 5, 0] + body
    yield False, "named", [], nots(61, named_conjunction(1500))
    yield False, "member", [], [107, 1, 6, 803, 0, 2, 4, 5] + nots(59, conjunction(600, 1, 1)) + [2, 0]
    note = [4, 1200] + [1, 7] * 1195 + [2, 0] * 5
    for n in 600, 900:
        kept, used = [862, 1, 6, 1] + note + conjunction(n, 2, 0), [862, 1, 6, 1] + note + conjunction(n, 1, 0)
        for head in [852, 2, 4, 5], [862, 2, 4, 0, 5, 1, 1, 8]:
            yield True, "point", [], head + [351, 2, 101, 2, 0] + part + kept
            yield True, "!point", [], head + [351, 2, 101, 2, 0] + part + used
        for head in [803, 0, 2, 4, 5], [873, 0, 2, 4, 1, 1, 8, 5, 0]:
            yield True, "member", [], [107] + part + head + kept + [2, 0]
            yield True, "!member", [], [107] + part + head + used + [2, 0]


def broken():
    """Rows of some 8,000 words behind 60 nots, whose last word is too large; and rows that are one too deep."""
    for head in [852, 1, 4], [862, 1, 4, 1, 1, 7]:
        for name in COMMANDS + ["named", "check", "dangling"]:
            listed = [4] if name == "bind" else [4, 1, 5] if name == "free" else [1, 1, 5] if name == "fill" else []
            body = named_conjunction(1500) if name == "named" else conjunction(1500, 0, 1)
            yield head[0] == 862, "!" + name, listed, nots(60, head + body[:-1] + [70000])
            yield head[0] == 862, "!" + name, listed, head + nots(61, body)


def measure(calls):
    lines = ["%s %d %s %d %s" % (name, len(listed), " ".join(map(str, listed)), len(row), " ".join(map(str, row))) for _, name, listed, row in calls]
    # memcpy and its like are bound at the start: bound by a call they take some 3 KB of its stack
    subprocess.run(["target/bench/stack"], input="\n".join(lines) + "\n", check=True, text=True, env={**os.environ, "LD_BIND_NOW": "1"})


def main():
    os.makedirs("target/bench", exist_ok=True)
    subprocess.run(["cc", "-O2", "-Iinclude", "-o", "target/bench/stack", "bench/stack.c", LIBRARY, "-lpthread"], check=True)
    calls = [*usual(), *deep(), *wide(), *far(), *broken()]
    print("rows without annotations:", flush=True)
    measure(call for call in calls if not call[0])
    print("all rows:", flush=True)
    measure(calls)


if __name__ == "__main__":
    main()
