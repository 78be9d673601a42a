#!/usr/bin/env python3
"""lines.py CELL ORACLE [RUNS]: processor time of both programs on the same shift lines, in turn, and the ratios, as docs/SPEED.md has them."""
import os
import resource
import subprocess
import sys
import tempfile

HERE = os.path.dirname(os.path.abspath(__file__))
CLASSES = [(20, 100000), (2000, 3000)]


def spent():
    used = resource.getrusage(resource.RUSAGE_CHILDREN)
    return used.ru_utime + used.ru_stime


def run(program, lines, where):
    with open(lines) as text:
        return subprocess.run([program], stdin=text, stdout=where, check=True).stdout


def timed(program, lines):
    before = spent()
    run(program, lines, subprocess.DEVNULL)
    return spent() - before


def main():
    cell, oracle = sys.argv[1:3]
    runs = int(sys.argv[3]) if len(sys.argv) > 3 else 9
    with tempfile.TemporaryDirectory() as room:
        for words, count in CLASSES:
            lines = os.path.join(room, str(words))
            with open(lines, "w") as text:
                subprocess.run([sys.executable, os.path.join(HERE, "rows.py"), "shift", str(words), str(count), "7"], stdout=text, check=True)
            if run(cell, lines, subprocess.PIPE) != run(oracle, lines, subprocess.PIPE):
                sys.exit("the answers differ")
            times = {cell: [], oracle: []}
            for _ in range(runs):
                for program in (cell, oracle):
                    times[program].append(timed(program, lines))
            (a, b), (c, d) = [(sorted(t)[0], sorted(t)[runs // 2]) for t in (times[cell], times[oracle])]
            print("%d words, %d lines: cell %.3f %.3f, oracle %.2f %.2f, ratio of the least %.1f, of the medians %.1f"
                  % (words, count, a, b, c, d, c / a, d / b))


if __name__ == "__main__":
    main()
