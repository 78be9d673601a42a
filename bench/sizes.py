"""Lines of code, definitions, laws and proofs of functions, by crate, as the table of docs/PROOFS.md.

    python3 bench/sizes.py

Empty lines, comments and imports are not counted. A law is a line of a file directly under proofs/, a proof of a function a line of an
Answers.antt, an Invariants.antt or a Proof.antt below it.
"""
import glob
import os

TOP = os.path.join(os.path.dirname(os.path.abspath(__file__)), "..")


def lines(pattern, skipped):
    count = 0
    for name in glob.glob(os.path.join(TOP, "crates", pattern), recursive=True):
        for line in open(name, encoding="utf-8"):
            text = line.strip()
            if text and not text.startswith(skipped):
                count += 1
    return count


def main():
    imports = ("--", "use ", "mod ", "pub mod ")
    total = [0, 0, 0, 0]
    print("| Crate | code | definitions | laws | proofs of functions |")
    print("|---|---|---|---|---|")
    for entry in open(os.path.join(TOP, "crates.txt"), encoding="utf-8"):
        crate = entry.split(":")[0].split()[0]
        row = [
            lines(crate + "/src/**/*.rt", ("//", "use ", "pub use ", "ghost use ", "mod ", "pub mod ")),
            lines(crate + "/specs/**/*.antt", imports),
            lines(crate + "/proofs/*.antt", imports),
            sum(lines(crate + "/proofs/*/**/%s.antt" % kind, imports) for kind in ("Answers", "Invariants", "Proof")),
        ]
        total = [a + b for a, b in zip(total, row)]
        print("| %s | %s |" % (crate, " | ".join("{:,}".format(n) for n in row)))
    print("| all | %s |" % " | ".join("{:,}".format(n) for n in total))
    print("\n%.1f lines of laws and proofs for a line of code" % ((total[2] + total[3]) / total[0]))


if __name__ == "__main__":
    main()
