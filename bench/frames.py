#!/usr/bin/env python3
"""The stack frame of each function of the static library, by its code: bytes that the function takes beside the registers that it saves. A buffer
that the compiler moved into a caller is seen here.

  python3 bench/frames.py        in the repository's root, after rt lib in crates/sogbayile; exits with 1 where a function in the path of every row of
                                 fill, prune, one point or named has a frame of a page or more, which only a buffer for long rows needs
"""
import re
import subprocess
import sys

LIBRARY = "crates/sogbayile/out/libsogbayile.a"
PLAIN = "listed::fill::fill_marked", "prune::prune::prune_in", "one_point::reduce::reduce_in", "sogbayile::commands::sgb_fill", "sogbayile::commands::sgb_point"
PAGE = 4096


def frames():
    code = subprocess.run(["objdump", "-d", "--no-show-raw-insn", LIBRARY], stdout=subprocess.PIPE, check=True, text=True).stdout
    name, taken, looped = None, {}, False
    for line in code.splitlines():
        start = re.match(r"[0-9a-f]+ <(.*)>:$", line)
        sub = re.search(r"sub +\$0x([0-9a-f]+),%(rsp|r11)$", line)
        if start:
            name = start.group(1)
            taken[name] = 0
        elif sub and sub.group(2) == "r11":
            looped = True                       # a large frame is taken page by page, down to the address in this register
            taken[name] += int(sub.group(1), 16)
        elif sub and looped:
            looped = False
        elif sub:
            taken[name] += int(sub.group(1), 16)
    return taken


def main():
    taken = frames()
    for name, size in sorted(taken.items(), key=lambda item: -item[1]):
        print("%7d  %s" % (size, name))
    missing = [name for name in PLAIN if name not in taken]
    if missing:
        sys.exit("the compiler left no function of its own for " + ", ".join(missing))
    wide = [name for name in PLAIN if taken[name] >= PAGE]
    if wide:
        sys.exit("a buffer stands in the path of every row: " + ", ".join(wide))


if __name__ == "__main__":
    main()
