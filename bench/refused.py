#!/usr/bin/env python3
"""What a refusal by 2 costs: rows of bench/rows.py, good and with a damaged last word, through the static library (bench/refused.c). The rows of
a name with +notes have annotations.

  python3 bench/refused.py [ROUNDS]        in the repository's root, after rt lib in crates/sogbayile; prints a table in Markdown
"""
import os
import subprocess
import sys

sys.path.insert(0, "oracle")
from position import items, place_row, words

SIZES = (20, 64), (200, 64), (2000, 24), (8000, 8)
COMMANDS = ["shift", "bind", "free", "fill", "prune", "point", "member"]


def repeated(head, part, size):
    n = (size - len(head) - 1) // len(part)
    return head + [n] + part * n


# rows of one kind of node, and lists, through their checks alone
KINDS = {
    "names": lambda size: repeated([9, 4], [1, 5], size),
    "atoms": lambda size: repeated([9, 4], [401], size),
    "truths": lambda size: repeated([351], [610], size),
    "nots": lambda size: repeated([351], [8, 8, 8, 610], size),
    "notes": lambda size: repeated([351], [861, 1, 4, 1, 1, 5, 610], size),
    "declared+notes": lambda size: repeated([351], [861, min(16, size // 2 - 4)] + [7, 0] * (min(16, size // 2 - 4) - 1) + [7, 1, 401, 610], 2 * size if size < 100 else size),
    "declared": lambda size: repeated([351], [851, min(32, size - 8)] + list(range(min(32, size - 8))) + [610], 2 * size if size < 100 else size),
    "pairs": lambda size: [1, 1, 5] * (size // 3),
    "places": lambda size: [0] * size,
}


def parts(line):
    """The list's words and the form's."""
    head, rest = line[1:-1].split(" ", 1)
    groups = [x for x in items(rest) if not isinstance(x, int)]
    listed = groups[0] if head in ("bind", "free", "fill") else ""
    return place_row(listed) if head == "fill" else words(listed), words(groups[-1])


def main():
    os.makedirs("target/bench", exist_ok=True)
    subprocess.run(["cc", "-std=gnu11", "-O3", "-c", "-o", "target/bench/plain.o", "bench/plain.c"], check=True)
    subprocess.run(["cc", "-O2", "-Iinclude", "-o", "target/bench/refused", "bench/refused.c", "target/bench/plain.o", "crates/sogbayile/out/libsogbayile.a"], check=True)
    sets = []
    for command, more in [(c, more) for more in ([], ["annotated"]) for c in COMMANDS + ["named"]]:
        for size, count in SIZES:
            if more and command == "prune" and size == 20:
                continue        # 32 declarations with annotations alone have more words
            lines = subprocess.run([sys.executable, "bench/rows.py", command, str(size), str(count), "7"] + more, stdout=subprocess.PIPE, check=True, text=True).stdout
            sets.append("%s %d %d" % (command + ("+notes" if more else ""), size, count))
            for line in lines.splitlines():
                for row in parts(line):
                    sets.append(" ".join(map(str, [len(row)] + row)))
    for kind, make in KINDS.items():
        for size, count in SIZES:
            row = make(size)
            sets += ["%s %d %d" % (kind, size, count)] + ["0", " ".join(map(str, [len(row)] + row))] * count
    said = subprocess.run(["target/bench/refused", sys.argv[1] if len(sys.argv) > 1 else "200"], input="\n".join(sets) + "\n", stdout=subprocess.PIPE, check=True, text=True).stdout
    print("| rows of | words | check | position | C check | C position | position / check | position / C | the call, good row | the call, broken row | broken row / check |")
    print("|---|---|---|---|---|---|---|---|---|---|---|")
    for line in said.splitlines()[1:]:
        name, size, *times = line.split(",")
        check, broken, call, refused, plain, plain_broken = map(float, times)
        position, plain_position = broken - check, plain_broken - plain
        listed = name in ("pairs", "places")
        compared = ("-", "-", "%.2f" % (position / check), "-") if listed else tuple("%.2f" % x for x in (plain, plain_position, position / check, position / plain_position))
        print("| %s | %s | %.2f | %.2f | %s | %s | %s | %s | %.2f | %.2f | %.2f |" % (name, size, check, position, *compared, call, refused, refused / check))


if __name__ == "__main__":
    main()
