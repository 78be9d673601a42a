#!/usr/bin/env python3
"""Prints command lines: rows.py COMMAND WORDS COUNT SEED [annotated]. The forms have nearly WORDS words, nested quantifiers, bound and dangling
indices; where asked for, every quantifier has annotations. For named they are those of shift with a name of its own for each declaration, an
occurrence of that name for each bound index, and a free name for each that dangles."""
import itertools
import random
import sys

command, words, count, seed = sys.argv[1], *(int(a) for a in sys.argv[2:5])
noted = sys.argv[5:] == ["annotated"]
random.seed(seed)
fresh = itertools.count(2000)


def declared(*names):
    """The names as they are, or in a named row others that are declared nowhere else in it."""
    return tuple(next(fresh) for _ in names) if command == "named" else names


def index(scope):
    """An index under these declared names: bound, or dangling by a little."""
    i = random.randint(0, len(scope) + 3)
    if command != "named":
        return "[2 %d]" % i, 2
    return "[1 %d]" % (scope[-1 - i] if i < len(scope) else 1000 + i - len(scope)), 2


def expression(depth, scope):
    r = random.random()
    if depth >= 8 or r < 0.45:
        if random.random() < 0.6:
            return index(scope)
        return "[1 %d]" % random.randint(0, 999), 2
    if r < 0.7:
        (a, x), (b, y) = expression(depth + 1, scope), expression(depth + 1, scope)
        return "[%d %s %s]" % (random.choice([201, 203, 210]), a, b), 1 + x + y
    if r < 0.85:
        a, x = expression(depth + 1, scope)
        return "[752 %s]" % a, 1 + x
    names = declared(4, 5)
    (p, x), (e, y) = predicate(depth + 1, scope + names), expression(depth + 1, scope + names)
    if noted:
        a, z = annotation(scope)
        return "[873 0 2 %d 1 %s %d 0 %s %s]" % (names[0], a, names[1], p, e), 7 + x + y + z
    return "[803 0 2 %d %d %s %s]" % (*names, p, e), 5 + x + y


def annotation(scope):
    a, x = index(scope)
    return (a, x) if random.random() < 0.5 else ("[752 %s]" % a, 1 + x) if random.random() < 0.5 else ("[203 [1 %d] %s]" % (random.randint(0, 999), a), 3 + x)


def predicate(depth, scope):
    r = random.random()
    if depth >= 8 or r < 0.5:
        (a, x), (b, y) = expression(depth + 1, scope), expression(depth + 1, scope)
        return "[112 %s %s]" % (a, b), 1 + x + y
    if r < 0.75:
        names = declared(9)
        p, x = predicate(depth + 1, scope + names)
        if noted:
            a, z = annotation(scope)
            return "[862 1 %d 1 %s %s]" % (*names, a, p), 4 + x + z
        return "[852 1 %d %s]" % (*names, p), 3 + x
    (p, x), (q, y) = predicate(depth + 1, scope), predicate(depth + 1, scope)
    return "[251 %s %s]" % (p, q), 1 + x + y


def conjunction(others, last=""):
    """A conjunction that leaves room for so many other words of the form."""
    parts, total, missed = [], 2 + others, 0
    while len(parts) < 2 or (total < words - 40 or words < 100) and missed < 20:
        p, x = predicate(2 if words > 100 else 6, ())
        if total + x <= words or len(parts) < 2:
            parts.append(p)
            total += x
        else:
            missed += 1
    if last:
        parts.append(last)
    return "[351 %d %s]" % (len(parts), " ".join(parts))


LINES = {
    "shift": lambda: "[shift 1 %s]" % conjunction(0),
    "named": lambda: "[named %s]" % conjunction(0),
    "free": lambda: "[free [[%s]] %s]" % ("] [".join("%d [2 %d]" % (n, n % 7) for n in random.sample(range(1000), 32)), conjunction(0)),
    "bind": lambda: "[bind [%s] %s]" % (" ".join(str(n) for n in random.sample(range(1000), 32)), conjunction(0)),
    "fill": lambda: "[fill [[] [1 5] [] [2 3]] [852 4 1 2 3 4 %s]]" % conjunction(6),
    "prune": lambda: "[prune [852 32 %s %s]]" % (" ".join(str(n) for n in range(32)), conjunction(34)),
    "point": lambda: "[point [852 4 1 2 3 4 %s]]" % conjunction(11, "[101 [2 1] [1 7]]"),
    "member": lambda: "[member [107 [201 [1 7] [2 3]] [803 0 4 1 2 3 4 %s [201 [2 1] [2 2]]]]]" % conjunction(18),
}
if noted:
    four = "1 0 2 1 [2 3] 3 1 [752 [1 5]] 4 0"
    LINES["fill"] = lambda: "[fill [[] [1 5] [] [2 3]] [862 4 %s %s]]" % (four, conjunction(15))
    LINES["prune"] = lambda: "[prune [862 32 %s %s]]" % (" ".join("%d 1 [2 %d]" % (n, n) if n % 2 else "%d 0" % n for n in range(32)), conjunction(98))
    LINES["point"] = lambda: "[point [862 4 %s %s]]" % (four, conjunction(20, "[101 [2 1] [1 7]]"))
    LINES["member"] = lambda: "[member [107 [201 [1 7] [2 3]] [873 0 4 %s %s [201 [2 1] [2 2]]]]]" % (four, conjunction(27))
for _ in range(count):
    fresh = itertools.count(2000)
    print(LINES[command]())
