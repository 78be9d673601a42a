#!/usr/bin/env python3
"""chart.py OUT.svg RUN.csv.. [-- RUN.csv..]: takes the least of the runs, prints tables in Markdown, and draws nanoseconds a word. The runs after
the dashes are the driver's with --annotated, and a table holds them against the others. A side that has not a rewriting has no value there."""
import csv
import math
import sys

SIDES = ["library", "C", "Rust rows", "Rust trees", "copy"]
COLOURS = ["#1b6ca8", "#2a9d3a", "#b03a2e", "#d98c2b", "#777777"]
KEY = ["op", "words", "depth", "binders"]


def read(paths):
    best = {}
    for path in paths:
        with open(path) as f:
            for line in csv.DictReader(f):
                key = tuple(line[k] for k in KEY)
                times = [float(line[s] or "nan") for s in SIDES]
                mean, old = best.get(key, (float(line["mean words"]), times))
                best[key] = mean, [min(a, b) for a, b in zip(old, times)]
    return best


def mean(values):
    return math.exp(sum(map(math.log, values)) / len(values))


def number(x):
    return "-" if math.isnan(x) else "%.1f" % x if x < 100 else "{:,.0f}".format(x)


def put(form, *values):
    """The text, with a dash for each value that there is not."""
    return (form % values).replace(" nan ", " - ")


def summary(best, ops, sizes):
    print("| | words | library, ns a word | C | Rust, rows | Rust, trees | copy | library / C | Rust rows / library | Rust trees / library |")
    print("|---|---|---|---|---|---|---|---|---|---|")
    for op in ops:
        for size in sizes:
            rows = [v for k, v in best.items() if k[:2] == (op, size)]
            a = [mean([t[i] / w for w, t in rows]) for i in range(5)]
            print(put("| %s | %s | %.1f | %.1f | %.0f | %.0f | %.2f | %.2f | %.0f | %.0f |", op, size, *a, a[0] / a[1], a[2] / a[0], a[3] / a[0]))


def table(best, op):
    print("\n| %s: words | depth | binders | library, ns a row | C | Rust, rows | Rust, trees | copy | library / C | Rust rows / library |" % op)
    print("|---|---|---|---|---|---|---|---|---|---|")
    for key, (w, t) in best.items():
        if key[0] == op:
            print(put("| %.0f | %s | %s | %s | %.2f | %.0f |", w, key[2], key[3], " | ".join(number(x) for x in t), t[0] / t[1], t[2] / t[0]))


def draw(best, ops, sizes, path):
    width, height, left, top = 300, 220, 46, 30
    low, high = -1, 3
    out = ['<svg xmlns="http://www.w3.org/2000/svg" width="%d" height="%d" font-family="sans-serif" font-size="11">'
           % (3 * width, -(-len(ops) // 3) * height + 40), '<rect width="100%" height="100%" fill="white"/>']
    for n, op in enumerate(ops):
        x0, y0 = n % 3 * width + left, n // 3 * height + top
        w, h = width - left - 16, height - top - 34

        def at(i, value):
            return x0 + w * i / (len(sizes) - 1), y0 + h * (high - math.log10(value)) / (high - low)

        out.append('<text x="%d" y="%d" font-weight="bold">%s: ns a word</text>' % (x0, y0 - 10, op))
        for e in range(low, high + 1):
            y = at(0, 10 ** e)[1]
            out.append('<line x1="%d" x2="%d" y1="%.1f" y2="%.1f" stroke="#ddd"/>' % (x0, x0 + w, y, y))
            out.append('<text x="%d" y="%.1f" text-anchor="end">%g</text>' % (x0 - 4, y + 4, 10 ** e))
        for i, size in enumerate(sizes):
            out.append('<text x="%.1f" y="%d" text-anchor="middle">%s</text>' % (at(i, 1)[0], y0 + h + 16, size))
        for s, colour in enumerate(COLOURS):
            points = []
            for i, size in enumerate(sizes):
                rows = [v for k, v in best.items() if k[:2] == (op, size)]
                points.append(at(i, mean([t[s] / words for words, t in rows])))
            line = " ".join("%.1f,%.1f" % p for p in points if not math.isnan(p[1]))
            if line:
                out.append('<polyline points="%s" fill="none" stroke="%s" stroke-width="2"/>' % (line, colour))
    for s, colour in enumerate(COLOURS):
        x, y = left + s * 150, -(-len(ops) // 3) * height + 24
        out.append('<line x1="%d" x2="%d" y1="%d" y2="%d" stroke="%s" stroke-width="3"/>' % (x, x + 24, y - 4, y - 4, colour))
        out.append('<text x="%d" y="%d">%s</text>' % (x + 30, y, ["the library", "plain C", "Rust, row to row", "Rust, tree to tree", "copy"][s]))
    out.append("</svg>")
    with open(path, "w") as f:
        f.write("\n".join(out) + "\n")


def growth(paths, op):
    """How many times longer rows of 8,000 words take than rows of 2,000 of the same kind: the median of the runs, since the processor's clock
    changes between them, as the mean over the kinds and for the kind where it is most."""
    means, most = [], []
    for path in paths:
        run = read([path])
        ratios = [t[0] / run[key[0], "2000", key[2], key[3]][1][0] for key, (w, t) in run.items() if key[:2] == (op, "8000")]
        means.append(mean(ratios))
        most.append(max(ratios))
    return sorted(means)[len(means) // 2], sorted(most)[len(most) // 2]


def grown(paths, noted, ops):
    print("\n| 8,000 words against 2,000 | mean | the most of one kind | with annotations, mean | the most of one kind |")
    print("|---|---|---|---|---|")
    for op in ops:
        print("| %s | %.2f | %.2f | %.2f | %.2f |" % (op, *growth(paths, op), *growth(noted, op)))


def beside(best, noted, ops, sizes):
    """Rows with annotations beside the others."""
    print("\n| rows with annotations | words | library, ns a word | rows without, ns a word | with / without | C | library / C | Rust rows / library |")
    print("|---|---|---|---|---|---|---|---|")
    for op in ops:
        for size in sizes:
            with_notes, without = ([v for k, v in runs.items() if k[:2] == (op, size)] for runs in (noted, best))
            if not with_notes or not without:
                continue
            a = [mean([t[i] / w for w, t in with_notes]) for i in range(5)]
            b = mean([t[0] / w for w, t in without])
            print(put("| %s | %s | %.1f | %.1f | %.2f | %.1f | %.2f | %.0f |", op, size, a[0], b, a[0] / b, a[1], a[0] / a[1], a[2] / a[0]))


def named_beside_bind(best, noted, sizes):
    """Named on the rows of bind, with names for indices: the mean of the ratios over the kinds of rows, and the largest."""
    print("\n| named / bind | words | mean | the most of one kind | with annotations, mean | the most of one kind |")
    print("|---|---|---|---|---|---|")
    for size in sizes:
        ratios = [[t[0] / runs["bind", *key[1:]][1][0] for key, (_, t) in runs.items() if key[:2] == ("named", size)] for runs in (best, noted)]
        print("| | %s | %s |" % (size, " | ".join("%.2f | %.2f" % (mean(r), max(r)) for r in ratios)))


def main():
    runs = sys.argv[2:]
    noted = runs[runs.index("--") + 1:] if "--" in runs else []
    plain = runs[:runs.index("--")] if noted else runs
    best = read(plain)
    ops = list(dict.fromkeys(k[0] for k in best))
    sizes = list(dict.fromkeys(k[1] for k in best))
    summary(best, ops, sizes)
    for op in ops:
        table(best, op)
    if noted:
        beside(best, read(noted), ops, sizes)
        grown(plain, noted, ops)
        named_beside_bind(best, read(noted), sizes)
    draw(best, ops, sizes, sys.argv[1])


if __name__ == "__main__":
    main()
