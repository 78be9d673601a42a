#!/usr/bin/env python3
"""Makes the list of commands and answers that the cell program is run on first.

  sample.py [--oracle target/oracle] [--commands shift,free,..] [--each N] > LIST

Every command of the list is followed by the line that must answer it. The lines are drawn from gen.py under fixed seeds, and from the
lines of `systematic` below, which aim at limits. They are chosen to cover the traits of `traits` below: a tag, a child under a parent,
an index bound or dangling under so many binders, a list of some length, a refusal, and for each command the branches of its
definition. Then lines are added whose set of traits is new, the shortest first, until each command has N lines, and point and member
half as many more.

Answers are the Rust's (target/oracle), turned into the numbers of the refusals as compare.py does. Lines that the Rust cannot represent and
lines whose answer is a difference of docs/DIFFERENCES.md other than a panic or a limit of the result are left out. At the end stand
the cases that were given and the table `document` below: refusals that the Rust has no word for, with the number and, for 2, the position.
Counts go to standard error. The same arguments give the same list.
"""
import argparse
import collections
import heapq
import sys

import compare
import gen
import trees as T
from position import position

sys.setrecursionlimit(10000)
COMMANDS = ["shift", "free", "bind", "fill", "prune", "point", "member"]
show = gen.show

# ----- lines that aim at limits


def q(op, n, body, first=4):
    return [op, n] + [first + j for j in range(n)] + [body]


def nested(k, t):
    for _ in range(k):
        t = [8, t]
    return t


def wide(n, t):
    return [4, n] + [t] * n


def tags_line(f):
    """One small form for each tag: f takes an expression and a predicate (indices 0 and up dangle) and gives forms."""
    e, p = [2, 0], [101, [2, 0], [1, 4]]
    for t in range(401, 413):
        yield f([201, [t], e])
    for t in range(201, 228):
        yield f([t, e, [1, 4]])
    for t in range(301, 308):
        yield f([t, 2, e, [1, 4]])
        yield f([t, 3, e, [1, 4], [2, 1]])
    for t in list(range(751, 758)) + list(range(761, 765)):
        yield f([t, [301, 2, e, [1, 4]]])
    for t in (801, 802, 803):
        yield f([t, 0, 1, 9, [101, [2, 0], [2, 1]], [201, [2, 1], [1, 4]]])
        yield f([t, 0, 2, 9, 4, [101, [2, 1], [2, 3]], [201, [2, 2], [1, 4]]])
        yield f([t, 1, 2, 9, 4, [101, [2, 1], [2, 2]], [201, [2, 1], [2, 0]]])
    yield f([803, 2, 2, 9, 4, [101, [2, 1], [2, 2]], [201, [2, 1], [2, 0]]])
    yield f([803, 3, 2, 9, 4, [101, [2, 1], [2, 2]], [201, [201, [2, 1], [2, 0]], [2, 2]]])
    yield f([4, 1, e])
    yield f([4, 2, e, [1, 4]])
    yield f([5, p])
    yield f([6, e, [1, 4]])
    yield f([3, 4294967295])


def pred_tags(f):
    e, p, r = [2, 0], [101, [2, 0], [1, 4]], [9, [2, 1]]
    yield f([610])
    yield f([611])
    yield f([7, 4])
    yield f([8, p])
    yield f([9, e])
    yield f([10, 1, e])
    yield f([10, 3, e, [1, 4], [2, 1]])
    yield f([11, 4, 0])
    yield f([11, 4, 1, e])
    yield f([11, 5, 2, [1, 4], e])
    for t in range(101, 113):
        yield f([t, e, [1, 4]])
    for t in (251, 252):
        yield f([t, p, r])
    for t in (351, 352):
        yield f([t, 2, p, r])
        yield f([t, 3, p, [7, 4], r])
    for t in (851, 852):
        yield f([t, 1, 9, [101, [2, 0], [2, 1]]])
        yield f([t, 2, 9, 4, [351, 2, [101, [2, 1], [2, 2]], [9, [1, 4]]]])
        yield f([t, 1, 9, [t, 1, 4, [101, [2, 1], [2, 2]]]])


def systematic(cmd):
    forms = list(tags_line(lambda t: t)) + list(pred_tags(lambda t: t))
    preds = list(tags_line(lambda t: [9, t])) + list(pred_tags(lambda t: t))
    if cmd == "shift":
        for t in forms:
            yield "[shift 1 %s]" % show(t)
            yield "[shift -1 %s]" % show(t)
        for off in (-2147483648, -65536, -65535, -3, -2, -1, 0, 1, 2, 65532, 65533, 65534, 65535, 65536, 2147483647):
            for t in ([2, 0], [2, 2], [2, 65535], [1, 4], q(852, 1, [101, [2, 0], [2, 3]]), q(851, 2, [9, [2, 1]])):
                yield "[shift %d %s]" % (off, show(t))
        yield "[shift 1 %s]" % show(nested(62, [9, [2, 0]]))
        yield "[shift 1 %s]" % show(q(852, 32, [101, [2, 31], [2, 32]]))
    if cmd == "free":
        for t in forms:
            yield "[free [[4 [2 0]]] %s]" % show(t)
            yield "[free [[4 [801 0 1 5 [9 [2 0]] [2 1]]] [5 [1 4]]] %s]" % show(t)
        for e in ([2, 65535], [2, 65534], [1, 5], [3, 0]):
            for t in ([1, 4], q(852, 1, [9, [1, 4]]), q(852, 2, [9, [1, 4]])):
                yield "[free [[4 %s]] %s]" % (show(e), show(t))
        for k in (60, 61, 62):
            yield "[free [[4 [751 [2 0]]]] %s]" % show(nested(k, [9, [1, 4]]))
        for n in (0, 1, 2, 31, 32):
            for t in ([101, [1, 4], [1, 35]], q(852, 1, [101, [1, 5], [2, 1]])):
                yield "[free %s %s]" % (show([[4 + j, [2, j]] for j in range(n)]), show(t))
    if cmd == "bind":
        for t in forms:
            yield "[bind [4] %s]" % show(t)
            yield "[bind [5 4 6] %s]" % show(t)
        for n in (0, 1, 2, 31, 32):
            for t in ([101, [1, 4], [1, 35]], q(852, 1, [101, [1, 5], [2, 1]]), [2, 65535 - n], [2, 65535], q(851, 2, [9, [2, 65534]])):
                yield "[bind %s %s]" % (show([4 + j for j in range(n)]), show(t))
    if cmd == "fill":
        for t in preds:
            yield "[fill [[2 0]] %s]" % show(q(852, 1, t))
            yield "[fill [[801 0 1 5 [9 [2 0]] [2 1]] []] %s]" % show(q(851, 2, t))
        for n in (1, 2, 3):
            for mask in range(2 ** n):
                places = [[2, j] if mask >> j & 1 else [] for j in range(n)]
                body = [10, n + 2] + [[2, j] for j in range(n + 1)] + [[1, 7]]
                yield "[fill %s %s]" % (show(places), show(q(851, n, body)))
                yield "[fill %s %s]" % (show(places), show(q(852, n, q(851, 1, [10, n + 2] + [[2, j] for j in range(n + 2)]))))
        for keep in (0, 1, 31, 32):
            places = [[] if j < keep else [2, j] for j in range(32)]
            yield "[fill %s %s]" % (show(places), show(q(852, 32, [101, [2, 31], [201, [2, 0], [2, 32]]])))
        for e in ([2, 65535], [2, 65534]):
            yield "[fill [%s []] %s]" % (show(e), show(q(852, 2, [9, [2, 1]])))
        for n, m in ((1, 0), (1, 2), (2, 1), (2, 3), (2, 0)):
            yield "[fill %s %s]" % (show([[3, 5]] * m), show(q(851, n, [610])))
        for t in ([610], [8, q(852, 1, [610])], [101, [1, 4], [1, 5]]):
            yield "[fill [[3 5]] %s]" % show(t)
    if cmd == "prune":
        for t in preds:
            yield "[prune %s]" % show(q(852, 1, t))
            yield "[prune %s]" % show(q(851, 3, t))
        for n in (1, 2, 3, 4):
            for mask in range(2 ** n):
                used = [[2, j] for j in range(n) if mask >> j & 1]
                body = [10, len(used) + 2] + used + [[2, n], [1, 4]]
                yield "[prune %s]" % show(q(852, n, body))
                yield "[prune %s]" % show(q(851, n, q(852, 1, [10, len(used) + 1] + [[2, u[1] + 1] for u in used] + [[2, 0]])))
        for used in (0, 15, 31):
            yield "[prune %s]" % show(q(852, 32, [101, [2, used], [2, 32]]))
        for t in ([610], [8, q(852, 1, [610])]):
            yield "[prune %s]" % show(t)
    if cmd == "point":
        for t in preds:
            yield "[point %s]" % show(q(852, 2, [351, 2, [101, [2, 1], [1, 7]], t]))
            yield "[point %s]" % show(q(851, 2, [251, t, [8, [101, [2, 0], [2, 2]]]]))
        for n in (1, 2, 32):
            for i in sorted({0, n // 2, n - 1, n}):
                for e in ([2, i + 1], [2, max(i - 1, 0)], [1, 7], [801, 0, 1, 5, [9, [2, 0]], [2, i + 2]]):
                    for s in ([101, [2, i], e], [101, e, [2, i]]):
                        yield "[point %s]" % show(q(852, n, [351, 2, s, [9, [2, 0]]]))
                        yield "[point %s]" % show(q(851, n, [251, s, q(851, 1, [9, [2, 1]])]))
        for op in (851, 852):
            for t in ([101, [2, 0], [1, 7]], [8, [101, [2, 0], [1, 7]]], [8, [8, [101, [2, 0], [1, 7]]]], [8, [8, [8, [101, [2, 0], [1, 7]]]]]):
                yield "[point %s]" % show(q(op, 1, t))
                for c in (251, 252):
                    yield "[point %s]" % show(q(op, 1, [c, t, [7, 1]]))
                    yield "[point %s]" % show(q(op, 1, [c, [7, 1], t]))
                    yield "[point %s]" % show(q(op, 1, [c, [8, [7, 1]], t]))
                    yield "[point %s]" % show(q(op, 1, [c, [8, [8, [7, 1]]], t]))
                    yield "[point %s]" % show(q(op, 1, [8, [c, t, [7, 1]]]))
                for c in (351, 352):
                    yield "[point %s]" % show(q(op, 1, [c, 2, t, [7, 1]]))
                    yield "[point %s]" % show(q(op, 1, [c, 2, [7, 1], t]))
                    yield "[point %s]" % show(q(op, 1, [c, 3, [8, [8, [7, 1]]], t, [8, [8, [7, 2]]]]))
                    yield "[point %s]" % show(q(op, 1, [c, 2, t, t]))
                    yield "[point %s]" % show(q(op, 1, [8, [c, 2, t, [7, 1]]]))
        pairs = [
            [101, [201, [1, 7], [2, 0]], [201, [1, 8], [1, 9]]],
            [101, [201, [2, 0], [1, 7]], [201, [2, 1], [1, 8]]],
            [101, [201, [201, [1, 7], [2, 1]], [1, 8]], [201, [201, [1, 9], [1, 6]], [2, 0]]],
            [101, [201, [1, 7], [2, 0]], [1, 8]],
            [101, [201, [2, 1], [2, 0]], [201, [2, 0], [2, 1]]],
            [101, [201, [1, 7], [1, 7]], [201, [1, 8], [1, 8]]],
        ]
        for p in pairs:
            yield "[point %s]" % show(q(852, 2, p))
            yield "[point %s]" % show(q(851, 2, [8, p]))
            yield "[point %s]" % show(q(852, 2, [351, 2, p, [101, [2, 1], [1, 5]]]))
            yield "[point %s]" % show(q(852, 2, [351, 2, [101, [2, 1], [1, 5]], p]))
            yield "[point %s]" % show(q(851, 2, [251, p, [8, [101, [2, 0], [1, 5]]]]))
        for op in (851, 852):
            for m in (1, 2):
                for n in (1, 2, 3):
                    for i in range(n):
                        eq = [101, [2, i], [1, 7]]
                        b = q(op, m, [101, [2, 0], [2, m + n - 1]], 20)
                        yield "[point %s]" % show(q(op, n, [351, 2, eq, b] if op == 852 else [251, eq, b]))
        for t in ([610], [9, [2, 0]], [8, q(852, 1, [101, [2, 0], [1, 4]])]):
            yield "[point %s]" % show(t)
        yield "[point %s]" % show(q(852, 17, [351, 2, [101, [2, 0], [1, 7]], q(852, 16, [9, [2, 0]])]))
        yield "[point %s]" % show(q(852, 17, [351, 2, [101, [2, 0], [1, 7]], q(852, 17, [9, [2, 0]])]))
    if cmd == "member":
        for t in preds:
            yield "[member [107 [2 0] %s]]" % show([803, 0, 1, 4, t, [2, 0]])
        for t in tags_line(lambda t: t):
            yield "[member [107 %s [803 0 1 4 [610] [2 0]]]]" % show(t)
            yield "[member [107 [1 7] [803 0 1 4 [610] %s]]]" % show(t)
        for t in ([610], [107, [1, 7], [1, 8]], [108, [1, 7], [803, 0, 1, 4, [610], [2, 0]]], [107, [803, 0, 1, 4, [610], [2, 0]], [1, 7]], [107, [1, 7], [801, 0, 1, 4, [610], [2, 0]]]):
            yield "[member %s]" % show(t)
        for n in (1, 2, 3):
            for i in range(n + 1):
                for j in range(n + 1):
                    for g in ([610], q(852, 1, [9, [2, 1]], 20), q(851, 1, [9, [2, 1]], 20)):
                        v = [201, [2, i], [2, j]]
                        yield "[member %s]" % show([107, [201, [1, 7], [2, 0]], [803, 0, n] + [4 + k for k in range(n)] + [g, v]])
                        yield "[member %s]" % show([107, [1, 7], [803, 0, n] + [4 + k for k in range(n)] + [g, v]])


# ----- traits

GROUPS = [(101, 101), (102, 112), (201, 201), (202, 227), (301, 307), (401, 412), (610, 611), (751, 757), (761, 764), (801, 802)]


def group(t):
    for a, b in GROUPS:
        if a <= t <= b:
            return a
    return t


def parts(t):
    h, n = T.head(t)
    return t[h:], n


def walk(t, k, out, above):
    """Tags, children under parents, counts, and identifiers by the binders above them."""
    tag = t[0]
    out.add(("tag", tag))
    kids, n = parts(t)
    if tag in T.QE:
        out.add(("form", tag, t[1]))
    if n:
        out.add(("declares", tag, min(n, 5), n == 32))
    if tag in (4, 10, 11, 301, 306, 351, 352):
        out.add(("count", tag, min(len(kids), 4)))
    if tag == 2:
        binders = len(above)
        out.add(("index", "bound" if t[1] < k else "dangling", min(binders, 4), above[-1:]))
        out.add(("distance", min(abs(t[1] - k), 3), t[1] < k))
    if tag in (1, 7, 11):
        out.add(("name", tag, min(len(above), 3)))
    for i, c in enumerate(kids):
        out.add(("child", group(tag), group(c[0])))
        walk(c, k + n, out, above + ((tag,) if n else ()))


def dangling(t, k=0):
    kids, n = parts(t)
    if t[0] == 2:
        return [t[1] - k] if t[1] >= k else []
    return [j for c in kids for j in dangling(c, k + n)]


def places_of(t, tag, k=0):
    """(word, open declarations) of every node with the tag 1 or 2."""
    kids, n = parts(t)
    out = [(t[1], k)] if t[0] == tag else []
    for c in kids:
        out += places_of(c, tag, k + n)
    return out


def small(n):
    return n if n <= 4 else 32 if n == 32 else "many"


def of_list(c, out):
    cmd, form = c[0], c[-1]
    free = places_of(form, 1)
    if cmd == "bind":
        names = c[1]
        out.add(("list", small(len(names))))
        hits = [(names.index(w), min(k, 3)) for w, k in free if w in names]
        out.add(("hits", min(len(hits), 3)))
        out.update(("hit", len(names) - 1 - j if len(names) < 5 else "many", k) for j, k in hits)
        if any(w in names for t in (7, 11) for w in own(form, t)):
            out.add("listed name of 7 or 11")
    if cmd == "free":
        table = {p[0]: p[1] for p in c[1]}
        out.add(("list", small(len(c[1]))))
        hits = [(w, k) for w, k in free if w in table]
        out.add(("hits", min(len(hits), 3), len({w for w, k in hits}) if len(hits) < 4 else "many"))
        for w, k in hits:
            d = dangling(table[w])
            out.add(("hit", min(k, 3), bool(d), group(table[w][0])))
            if any(v in table for v, _ in places_of(table[w], 1)):
                out.add("listed name in a replacement")
        for w in table:
            if w not in [v for v, k in hits]:
                out.add(("missed", "alone" if not hits else "beside a hit"))
        if any(w in table for t in (7, 11) for w in own(form, t)):
            out.add("listed name of 7 or 11")
    if cmd == "fill" and form[0] in T.QP:
        places, n = c[1], form[1]
        kept = [j for j in range(n) if j < len(places) and not places[j]]
        out.add(("places", small(n), len(places) - n))
        if n <= 3 and len(places) == n:
            out.add(("mask", form[0], n, tuple(kept)))
        body = parts(form)[0][0]
        for w, k in places_of(body, 2):
            j = n - 1 - (w - k)
            if w >= k + n:
                out.add(("falls", min(n - len(kept), 3), min(k, 2)))
            elif w >= k and j < len(places):
                e = places[j]
                out.add(("put", bool(e), min(k, 3), bool(e) and bool(dangling(e)), min(len(kept), 2)))
    if cmd == "prune" and form[0] in T.QP:
        n = form[1]
        body = parts(form)[0][0]
        used = {w - k for w, k in places_of(body, 2) if k <= w < k + n}
        out.add(("used", form[0], small(n), tuple(sorted(used)) if n <= 3 else min(len(used), 3)))
        if used and all(k for w, k in places_of(body, 2) if k <= w < k + n):
            out.add(("used inside only", small(n)))
        if dangling(form):
            out.add(("falls", min(n - len(used), 3)))


def own(t, tag):
    out = [t[1]] if t[0] == tag else []
    for c in parts(t)[0]:
        out += own(c, tag)
    return out


def split(l, r):
    if l[0] == 201 and r[0] == 201:
        return split(l[1], r[1]) + split(l[2], r[2])
    return [(l, r)]


def offer(l, r, n, filled, out):
    """What the rule of Places says of an equality."""
    if l[0] == 2 and r[0] == 2 and l[1] < r[1]:
        how, i, e = "both, left", l[1], r
    elif r[0] == 2:
        how, i, e = ("both, right" if l[0] == 2 else "right"), r[1], l
    elif l[0] == 2:
        how, i, e = "left", l[1], r
    else:
        out.add(("offer", 10))
        return None
    no = 11 if i >= n else 12 if any(j <= i for j in dangling(e)) else 13 if i in filled else 0
    out.add(("offer", how, no))
    return i if no == 0 else None


def scan(t, n, pol, way, out):
    """The search of one point: the target of the first equality taken."""
    kids = parts(t)[0]
    out.add(("scan", t[0], pol, way[-1:]))
    if t[0] == 101 and pol:
        es = split(t[1], t[2])
        out.add(("split", min(len(es), 4)))
        for at, (l, r) in enumerate(es):
            i = offer(l, r, n, (), out)
            if i is not None:
                out.add(("taken", way[-2:]))
                out.add(("taken part", min(at, 2), min(len(es) - 1 - at, 2)))
                return i
        return None
    if t[0] == 8:
        if kids[0][0] == 8:
            out.add(("double not", pol, way[-1:]))
        return scan(kids[0], n, not pol, way + (8,), out)
    if t[0] == 251 and not pol:
        i = scan(kids[0], n, True, way + ("left",), out)
        return i if i is not None else scan(kids[1], n, False, way + ("right",), out)
    if (t[0] == 351 and pol) or (t[0] == 352 and not pol):
        for at, c in enumerate(kids):
            i = scan(c, n, pol, way + ((t[0], min(len(kids), 3), min(at, 2)),), out)
            if i is not None:
                return i
    return None


def of_point(c, answer, out):
    form = c[-1]
    if form[0] not in T.QP:
        out.add("no quantified predicate")
        return
    n = form[1]
    i = scan(form[2 + n], n, form[0] == 852, (), out)
    if i is None:
        out.add(("none taken", form[0]))
        return
    front = n - 1 - i
    out.add(("front", min(front, 3), "kept", min(n - 1 - front, 3)))
    a = T.parse(answer)
    if a[0] in T.QP:
        out.add(("answer declares", form[0], a[0], a[1] - (n - 1) if abs(a[1] - n) < 4 else "more"))


def of_member(c, answer, out):
    form = c[-1]
    if form[0] != 107 or form[2][0] != 803:
        out.add(("not a membership", form[0], form[2][0] if form[0] == 107 else 0))
        return
    s, n = form[2], form[2][2]
    guard, value = parts(s)[0]
    es = split(value, gen.shift_up(form[1], n))
    filled, accepted = set(), []
    for l, r in es:
        i = offer(l, r, n, filled, out)
        accepted.append(i is not None)
        if i is not None:
            filled.add(i)
    out.add(("parts", len(es) if len(es) < 6 else 6, tuple(accepted) if len(es) < 4 else sum(accepted)))
    out.add(("places filled", n, tuple(sorted(filled)) if n < 4 else min(len(filled), 3)))
    front = n - 1 - max(filled) if filled else n
    out.add(("front", min(front, 3), "kept", min(n - front - len(filled), 3)))
    out.add(("guard", guard[0] if guard[0] in T.QP else 0, all(accepted), bool(filled), front > 0, n - front == len(filled)))
    a = T.parse(answer)
    if a[0] in T.QP:
        out.add(("answer declares", a[0], a[1] - (n - len(filled)) if abs(a[1] - n) < 5 else "more"))


def traits(line, answer):
    c = T.parse(line)
    cmd, form = c[0], c[-1]
    out = set()
    if answer.startswith("[no "):
        out.add(("answer", answer, form[0]))
    else:
        walk(form, 0, out, ())
        out.add(("answer tag", group(T.parse(answer)[0]), group(form[0])))
    if cmd == "shift":
        d = dangling(form)
        off = c[1]
        out.add(("offset", (off > 0) - (off < 0), abs(off) == 1, bool(d), answer[:5] == "[no 6" and 6 or answer[:5] == "[no 7" and 7))
        if d:
            low, high = min(d) + off, max(d) + off
            out.add(("lowest", low if -2 <= low <= 1 else "far", high - 65535 if -2 <= high - 65535 <= 2 else "far"))
            if off < 0 < len([j for j in d if j + off < 0]) < len(d):
                out.add("some captured, some not")
    of_list(c, out)
    if cmd == "point":
        of_point(c, answer, out)
    if cmd == "member":
        of_member(c, answer, out)
    return out


# ----- refusals that the Rust has no word for: the line, and the number

def document(cmd):
    form = {"fill": "[852 1 4 [9 [2 0]]]", "prune": "[852 2 4 5 [9 [2 0]]]", "point": "[852 1 4 [101 [2 0] [1 7]]]",
            "member": "[107 [1 7] [803 0 1 4 [610] [2 0]]]"}.get(cmd, "[9 [1 4]]")
    lead = {"shift": "1 ", "free": "[[4 [2 0]]] ", "bind": "[4] ", "fill": "[[1 5]] "}.get(cmd, "")
    ask = lambda f, l=lead: "[%s %s%s]" % (cmd, l, f)
    yield ask(form)[:-1], 8
    yield ask(form) + "]", 8
    yield ask(form) + " ", 8
    yield ask(form).replace(" ", "  ", 1), 8
    yield ask(form + " [610]"), 8
    yield "[%s]" % cmd, 8
    yield "[%s %s]" % (cmd, lead.strip()), 8
    yield ask("610"), 8
    yield ask("[4294967296]"), 8
    yield ask("[07 4]"), 8
    yield ask("[7 -4]"), 8
    yield ask("[]"), 2
    yield ask("[0]"), 2
    yield ask("[12]"), 2
    yield ask("[113 [1 4] [1 5]]"), 2
    yield ask("[9]"), 2
    yield ask("[9 [1 4] [1 5]]"), 2
    yield ask("[8 [1 4]]"), 2
    yield ask("[9 [610]]"), 2
    yield ask("[351 1 [610]]"), 2
    yield ask("[10 0]"), 2
    yield ask("[852 0 [610]]"), 2
    yield ask("[7 65536]"), 2
    yield ask("[9 [1 65536]]"), 2
    yield ask("[9 [2 65536]]"), 2
    yield ask("[852 1 65536 [610]]"), 2
    yield ask("[9 [803 4 1 4 [610] [2 0]]]"), 2
    yield ask("[852 33 %s [610]]" % " ".join(map(str, range(33)))), 2
    yield ask("[8 610]"), 8
    yield ask("[8 [[610]]]"), 8
    yield ask("[101 [1 4 1 5]]"), 8
    if cmd in ("fill", "prune", "point", "member"):
        yield ask("[1 4]"), 2
    if cmd in ("shift", "point"):
        yield ask("[%s]" % " ".join(["0"] * 8193)), 1
    if cmd == "bind":
        yield "[bind [%s] [610]]" % " ".join(["0"] * 8193), 1
        yield "[bind [[4]] [1 4]]", 8
        yield "[bind [4 4] [9]]", 2
        yield "[bind [65536] [1 4]]", 4
        yield "[bind [65535] [1 4]]", 0
        yield "[bind [%s] [1 4]]" % " ".join(map(str, range(33))), 4
    if cmd == "free":
        yield "[free [[4]] [1 4]]", 2
        yield "[free [[4 [610]]] [1 4]]", 2
        yield "[free [4 [2 0]] [1 4]]", 8
        yield "[free [[4 [2 0] [5]]] [1 4]]", 2
        yield "[free [[65536 [2 0]]] [1 4]]", 4
        yield "[free [[65536 [2 65536]]] [1 4]]", 2
        yield "[free %s [1 4]]" % show([[j, [3, j]] for j in range(33)]), 4
    if cmd == "fill":
        yield "[fill [[610]] %s]" % form, 2
        yield "[fill [[[1 5]]] %s]" % form, 8
        yield "[fill [1 5] %s]" % form, 2
        yield "[fill [1 1 5] %s]" % form, 8
        yield "[fill %s %s]" % (show([[]] * 33), form), 5
        yield "[fill [[610]] [610]]", 2
        yield "[fill [[1 5]] [9]]", 2
    if cmd == "shift":
        for off in ("-0", "01", "+1", "-", "2147483648", "-2147483649", "[1]"):
            yield "[shift %s [2 0]]" % off, 8


OTHER = [("", 8), ("[]", 8), ("[turn 1 [2 0]]", 8), ("[Shift 1 [2 0]]", 8), ("[610]", 8), ("shift 1 [2 0]", 8), ("[no 6]", 8)]


# ----- the choice

def asked(line, rust_join=False):
    if rust_join:
        return line
    for c in ("point", "member"):
        line = line.replace("[%s " % c, "[%sd " % c, 1) if line.startswith("[%s " % c) else line
    return line


def candidates(cmd):
    out = dict.fromkeys(systematic(cmd))
    for seed, count, fuel in (("replay-a", 6000, 3), ("replay-b", 6000, 6), ("replay-c", 3000, 14)):
        out.update(dict.fromkeys(gen.lines(seed, count, [cmd], fuel)))
    if cmd in ("point", "member"):
        out.update(dict.fromkeys(l for l in gen.exhaustive() if l.startswith("[%s " % cmd)))
    return list(out)


def answered(oracle, lines):
    """The lines with their answer, but for those that are listed as different."""
    there = compare.ask([oracle], [asked(l) for l in lines])
    rust = compare.ask([oracle], [asked(l, True) for l in lines])
    out = []
    for l, a, b in zip(lines, there, rust):
        if a != b:
            continue
        want = compare.expected(l, a)
        if want is not None:
            out.append((l, want))
    return out


def whole_lists(oracle, pairs):
    """Lines are chosen by what the Rust does with them as they are. Where it panics because places are missing, the answer is the Rust's to
    the list with them."""
    short = [l for l, _ in pairs if compare.with_all_places(l) != l]
    there = dict(zip(short, compare.ask([oracle], [compare.with_all_places(l) for l in short])))
    return [(l, compare.expected(l, there[l]) if l in there else w) for l, w in pairs]


def choose(pairs, each):
    """The line that adds most new traits for its length, as long as one does; then the shortest with a new set of traits."""
    pairs = sorted(pairs, key=lambda p: (len(p[0]) + len(p[1]), p))
    found = [(p, frozenset(traits(*p))) for p in pairs]
    worth = lambda f: len(f[1] - have) / (30 + len(f[0][0]) + len(f[0][1]))
    have, kept, seen = set(), [], set()
    heap = [(-worth(f), i) for i, f in enumerate(found)]
    heapq.heapify(heap)
    while heap:
        w, i = heapq.heappop(heap)
        now = worth(found[i])
        if now <= 0:
            continue
        if now < -w:
            heapq.heappush(heap, (-now, i))
            continue
        kept.append(i)
        seen.add(found[i][1])
        have |= found[i][1]
    cover = len(kept)
    chosen = set(kept)
    for i, (p, ts) in enumerate(found):
        if len(kept) >= each:
            break
        if i not in chosen and ts not in seen:
            seen.add(ts)
            kept.append(i)
    return [found[i][0] for i in sorted(kept)], len(have), cover


def main():
    a = argparse.ArgumentParser()
    a.add_argument("--oracle", default="target/oracle")
    a.add_argument("--commands", default=",".join(COMMANDS))
    a.add_argument("--each", type=int, default=400)
    o = a.parse_args()
    commands = o.commands.split(",")
    say = lambda *x: print(*x, file=sys.stderr)
    out = []
    for cmd in commands:
        pairs = answered(o.oracle, candidates(cmd))
        kept, n, cover = choose(pairs, o.each * (3 if cmd in ("point", "member") else 2) // 2)
        say("%-7s %6d candidates, %4d traits covered by %4d, %4d lines:" % (cmd, len(pairs), n, cover, len(kept)),
            dict(sorted(collections.Counter(w if w.startswith("[no ") else "form" for _, w in kept).items())))
        out += whole_lists(o.oracle, kept)
    whole = [l.rstrip("\n").split("\t") for l in open("cases.txt")]
    whole = [(l, w) for l, w in whole if l[1:].split(" ")[0] in commands]
    say("cases that were given:", len(whole))
    rest = []
    for cmd in commands:
        rest += [(l, w) for l, w in document(cmd)]
    rest += OTHER if commands[0] == COMMANDS[0] else []
    say("refusals that the Rust has not:", len(rest), dict(sorted(collections.Counter(w for _, w in rest).items())))
    seen = {l for l, _ in out}
    out += [p for p in whole if p[0] not in seen]
    out += [(l, refused(l, w) if w else unchanged(l)) for l, w in rest]
    for l, w in out:
        print(l)
        print(w)
    say("in all:", len(out))


def refused(line, number):
    """2 is printed with the position."""
    return "[no 2 %d]" % position(line) if number == 2 else "[no %d]" % number


def unchanged(line):
    """The only answers in the table: a form that is unchanged."""
    return show(T.parse(line)[-1])


if __name__ == "__main__":
    main()
