#!/usr/bin/env python3
"""The static library against that of an earlier landing, in one run (bench/before.c). Rows of bench/rows.py; the rows of a name with +notes have
annotations, which no library from before annotations reads.

Where its code lies in memory changes the time of a call by up to a quarter. So both libraries are linked in eight layouts: either one first, the
code moved by 0, 16, 32 and 48 bytes; the least time of each library over all layouts counts.

  python3 bench/before.py BEFORE.a [ROUNDS [RUNS]]        in the repository's root, after rt lib in crates/sogbayile; BEFORE.a is the library of the
                                                          earlier landing; prints a table in Markdown: nanoseconds a row, the least of RUNS runs
                                                          (default 1) of each layout
"""
import os
import subprocess
import sys

sys.path.insert(0, "bench")
from refused import COMMANDS, SIZES, parts

LIBRARY = "crates/sogbayile/out/libsogbayile.a"
EARLIER = "target/bench/libbefore.a"


def rows_of(command, size, count, more):
    lines = subprocess.run([sys.executable, "bench/rows.py", command, str(size), str(count), "7"] + more, stdout=subprocess.PIPE, check=True, text=True).stdout
    return [parts(line) for line in lines.splitlines()]


def sets():
    """The rows of each call; those of fill with the last two of four places kept, which the present library is not given; and those of shift for
    the check alone, as they are and with a last word over the limit."""
    lines = []
    for more in [], ["annotated"]:
        for command in COMMANDS + ["missing", "good", "broken"]:
            for size, count in SIZES:
                if more and command == "prune" and size == 20:
                    continue        # 32 declarations with annotations alone have more words
                lines.append("%s %d %d" % (command + ("+notes" if more else ""), size, count))
                for listed, row in rows_of(command if command in COMMANDS else "fill" if command == "missing" else "shift", size, count, more):
                    if command == "broken":
                        row[-1] = 70000
                    if command == "missing":
                        listed = listed[:5] + [0]
                    lines += [" ".join(map(str, [len(words)] + words)) for words in (listed, row)]
    return "\n".join(lines) + "\n"


def link(libraries, offset):
    """The measuring program, with both libraries in this order and their code moved by so many bytes."""
    with open("target/bench/offset.s", "w") as f:
        f.write('.text\n.p2align 6\n.skip %d, 0x90\n.section .note.GNU-stack, "", @progbits\n' % (offset + 1))
    subprocess.run(["cc", "-O2", "-Iinclude", "-o", "target/bench/before", "target/bench/offset.s", "bench/before.c"] + libraries, check=True)


def main():
    rounds, runs = (sys.argv[2:3] or ["300"])[0], int((sys.argv[3:4] or ["1"])[0])
    os.makedirs("target/bench", exist_ok=True)
    symbols = subprocess.run(["nm", "--defined-only", "--extern-only", sys.argv[1]], stdout=subprocess.PIPE, check=True, text=True).stdout.split()
    renamed = ["--redefine-sym=%s=%s" % (s, "before_" + s[4:]) for s in symbols if s.startswith("sgb_")]
    subprocess.run(["objcopy"] + renamed + [sys.argv[1], EARLIER], check=True)
    least, text = {}, sets()
    for libraries in [EARLIER, LIBRARY], [LIBRARY, EARLIER]:
        for offset in 0, 16, 32, 48:
            link(libraries, offset)
            for _ in range(runs):
                said = subprocess.run(["target/bench/before", rounds], input=text, stdout=subprocess.PIPE, check=True, text=True).stdout
                for line in said.splitlines():
                    name, size, *numbers = line.split(",")
                    words, before, now = map(float, numbers)
                    old = least.get((name, size), (words, before, now))
                    least[name, size] = words, min(before, old[1]), min(now, old[2])
    print("| rows of | words | before | now | now / before |")
    print("|---|---|---|---|---|")
    for (name, size), (words, before, now) in least.items():
        if not name.endswith("+notes"):
            print("| %s | %s | %.0f | %.0f | %.2f |" % (name, size, before, now, now / before))
    print("\n| annotated rows of | words | nanoseconds a word | of plain rows | ratio |")
    print("|---|---|---|---|---|")
    for (name, size), (words, _, now) in least.items():
        if name.endswith("+notes"):
            plain = least[name[:-6], size]
            print("| %s | %s | %.2f | %.2f | %.2f |" % (name[:-6], size, now / words, plain[2] / plain[0], now / words * plain[0] / plain[2]))


if __name__ == "__main__":
    main()
