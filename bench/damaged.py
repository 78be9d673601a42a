#!/usr/bin/env python3
"""Damaged command lines, and which of the refusals 8, 1, 2, 3, 4 and 5 each of them has: a reading of
spelling, rows and lists apart from the program's definitions, held against the cell program's answers. The
position that is printed with 2 is that of oracle/position.py.

  python3 bench/damaged.py SEED COUNT        in the repository's root, after rt run in crates/cell
  --annotations           lines of all seven commands, many of whose quantifiers have annotations
  --program PROGRAM       another program than crates/cell/out/cell
"""
import argparse
import collections
import random
import re
import subprocess
import sys

sys.path.insert(0, 'oracle')
from position import position
TOP = 2 ** 32 - 1


class Bad(Exception):
    """not the spelling of a line"""


def number(s, i):
    m = re.compile('0|[1-9][0-9]*').match(s, i)
    if not m:
        raise Bad
    j = m.end()
    if j < len(s) and s[j].isdigit():
        raise Bad
    v = int(m.group())
    if v > TOP:
        raise Bad
    return (v, j)


def group(s, i):
    if i >= len(s) or s[i] != '[':
        raise Bad
    i += 1
    out = []
    if i < len(s) and s[i] == ']':
        return (out, i + 1)
    while True:
        if i < len(s) and s[i] == '[':
            x, i = group(s, i)
        else:
            x, i = number(s, i)
        out.append(x)
        if i >= len(s):
            raise Bad
        if s[i] == ']':
            return (out, i + 1)
        if s[i] != ' ':
            raise Bad
        i += 1


def flat(g):
    r = []
    for x in g:
        r += flat(x) if isinstance(x, list) else [x]
    return r


def placerow(g):
    r = []
    for x in g:
        if isinstance(x, list):
            r += [0] if not x else [1] + flat(x)
        else:
            r.append(x)
    return r


class No(Exception):
    """not a form"""


BINARY = set(range(201, 228))
MANY = set(range(301, 308))
UNARY = set(range(751, 758)) | set(range(761, 765))
ALONE = set(range(401, 413))


def name(r, p):
    if p >= len(r) or r[p] > 65535:
        raise No
    return (r[p], p + 1)


def count(r, p, lo):
    if p >= len(r) or r[p] < lo:
        raise No
    return (r[p], p + 1)


def kids(r, p, d, fs):
    out = []
    for f in fs:
        x, p = f(r, p, d)
        out.append(x)
    return (out, p)


def many(r, p, d, f, n):
    out = []
    if n > len(r):
        raise No
    for _ in range(n):
        x, p = f(r, p, d)
        out.append(x)
    return (out, p)


def decls(r, p):
    n, p = count(r, p, 1)
    if n > 32:
        raise No
    ns = []
    for _ in range(n):
        x, p = name(r, p)
        ns.append(x)
    return (n, ns, p)


def noted(r, p, d):
    """declarations with annotations, of which there is one at least"""
    n, p = count(r, p, 1)
    if n > 32:
        raise No
    out = [n]
    for _ in range(n):
        x, p = name(r, p)
        if p >= len(r) or r[p] > 1:
            raise No
        out += [x, r[p]]
        p += 1
        if out[-1]:
            e, p = expr(r, p, d)
            out.append(e)
    if not any(isinstance(x, list) for x in out):
        raise No
    return (out, p)


def expr(r, p, d):
    if d == 0 or p >= len(r):
        raise No
    t = r[p]
    p += 1
    if t in (1, 2):
        x, p = name(r, p)
        return ([t, x], p)
    if t == 3:
        if p >= len(r):
            raise No
        return ([t, r[p]], p + 1)
    if t in ALONE:
        return ([t], p)
    if t == 4:
        n, p = count(r, p, 0)
        k, p = many(r, p, d - 1, expr, n)
        return ([t, n] + k, p)
    if t == 5:
        k, p = kids(r, p, d - 1, [pred])
        return ([t] + k, p)
    if t == 6 or t in BINARY:
        k, p = kids(r, p, d - 1, [expr, expr])
        return ([t] + k, p)
    if t in MANY:
        n, p = count(r, p, 2)
        k, p = many(r, p, d - 1, expr, n)
        return ([t, n] + k, p)
    if t in UNARY:
        k, p = kids(r, p, d - 1, [expr])
        return ([t] + k, p)
    if t in (801, 802, 803):
        if p >= len(r) or r[p] > 3:
            raise No
        fm = r[p]
        n, ns, p = decls(r, p + 1)
        k, p = kids(r, p, d - 1, [pred, expr])
        return ([t, fm, n] + ns + k, p)
    if t in (871, 872, 873):
        if p >= len(r) or r[p] > 3:
            raise No
        fm = r[p]
        ds, p = noted(r, p + 1, d - 1)
        k, p = kids(r, p, d - 1, [pred, expr])
        return ([t, fm] + ds + k, p)
    raise No


def pred(r, p, d):
    if d == 0 or p >= len(r):
        raise No
    t = r[p]
    p += 1
    if t in (610, 611):
        return ([t], p)
    if t == 7:
        x, p = name(r, p)
        return ([t, x], p)
    if t == 8:
        k, p = kids(r, p, d - 1, [pred])
        return ([t] + k, p)
    if t == 9:
        k, p = kids(r, p, d - 1, [expr])
        return ([t] + k, p)
    if t == 10:
        n, p = count(r, p, 1)
        k, p = many(r, p, d - 1, expr, n)
        return ([t, n] + k, p)
    if t == 11:
        x, p = name(r, p)
        n, p = count(r, p, 0)
        k, p = many(r, p, d - 1, expr, n)
        return ([t, x, n] + k, p)
    if 101 <= t <= 112:
        k, p = kids(r, p, d - 1, [expr, expr])
        return ([t] + k, p)
    if t in (251, 252):
        k, p = kids(r, p, d - 1, [pred, pred])
        return ([t] + k, p)
    if t in (351, 352):
        n, p = count(r, p, 2)
        k, p = many(r, p, d - 1, pred, n)
        return ([t, n] + k, p)
    if t in (851, 852):
        n, ns, p = decls(r, p)
        k, p = kids(r, p, d - 1, [pred])
        return ([t, n] + ns + k, p)
    if t in (861, 862):
        ds, p = noted(r, p, d - 1)
        k, p = kids(r, p, d - 1, [pred])
        return ([t] + ds + k, p)
    raise No


def whole(f, r):
    try:
        x, p = f(r, 0, 64)
    except No:
        return None
    return x if p == len(r) else None


def form(g, kind):
    r = flat(g)
    if len(r) > 8192:
        return 1
    x = whole(pred, r)
    if x is None and kind == 'either':
        x = whole(expr, r)
    if x is None:
        return 2
    return 8 if x != g else x


def pairs(g):
    r = flat(g)
    if len(r) > 8192:
        return 1
    out = []
    p = 0
    try:
        while p < len(r):
            w = r[p]
            x, p = expr(r, p + 1, 64)
            out.append([w, x])
    except No:
        return 2
    return 8 if out != g else out


def places(g):
    r = placerow(g)
    if len(r) > 8192:
        return 1
    out = []
    p = 0
    try:
        while p < len(r):
            w = r[p]
            p += 1
            if w == 0:
                out.append([])
            elif w == 1:
                x, p = expr(r, p, 64)
                out.append(x)
            else:
                return 2
    except No:
        return 2
    return 8 if out != g else out


def names(g):
    r = flat(g)
    if len(r) > 8192:
        return 1
    return 8 if r != g else r


def predict(s):
    """8, 1, 2, 3, 4, 5 or None where the command is carried out"""
    if len(s) > 65535:
        return 8
    m = re.match('\\[(shift|free|bind|fill|prune|point|member) ', s)
    if not m:
        return 8
    h = m.group(1)
    i = m.end()
    lst = None
    try:
        if h == 'shift':
            m = re.compile('-?(0|[1-9][0-9]*)').match(s, i)
            if not m or m.group() == '-0':
                raise Bad
            if not -2 ** 31 <= int(m.group()) < 2 ** 31:
                raise Bad
            i = m.end()
            if i < len(s) and s[i].isdigit():
                raise Bad
        elif h not in ('prune', 'point', 'member'):
            lst, i = group(s, i)
        if h not in ('prune', 'point', 'member'):
            if i >= len(s) or s[i] != ' ':
                raise Bad
            i += 1
        g, i = group(s, i)
        if s[i:] != ']':
            raise Bad
    except Bad:
        return 8
    f = form(g, 'pred' if h in ('fill', 'prune', 'point', 'member') else 'either')
    if isinstance(f, int):
        return f
    if lst is not None:
        l = {'free': pairs, 'bind': names, 'fill': places}[h](lst)
        if isinstance(l, int):
            return l
    if h in ('fill', 'prune') and f[0] not in (851, 852, 861, 862):
        return 3
    if h in ('free', 'bind'):
        ns = [x[0] for x in l] if h == 'free' else l
        if len(ns) > 32 or any((n > 65535 for n in ns)) or len(set(ns)) < len(ns):
            return 4
    if h == 'fill' and len(l) > f[1]:
        return 5
    return None


VALUES = ['0', '1', '2', '3', '4', '5', '8', '9', '101', '65535', '65536', '4294967295', '4294967296', '610', '351', '852', '803']


def damage(s, R):
    for _ in range(R.choice([1, 1, 1, 2, 3])):
        k = R.randrange(10)
        i = R.randrange(len(s)) if s else 0
        if k == 0:
            s = s[:i] + s[i + 1:]
        elif k == 1:
            s = s[:i] + R.choice('[] 0123456789-') + s[i:]
        elif k == 2:
            s = s[:i] + R.choice('[] 0123456789') + s[i + 1:]
        elif k in (3, 4, 5, 6):
            o = [j for j, c in enumerate(s) if c == '[']
            if len(o) < 2:
                continue
            j = R.choice(o[1:])
            d = 0
            e = None
            for q in range(j, len(s)):
                d += (s[q] == '[') - (s[q] == ']')
                if d == 0:
                    e = q
                    break
            if e is None:
                continue
            # brackets off, brackets round, a group twice, a group away or emptied
            if k == 3:
                s = s[:j] + s[j + 1:e] + s[e + 1:]
            elif k == 4:
                s = s[:j] + '[' + s[j:e + 1] + ']' + s[e + 1:]
            elif k == 5:
                s = s[:j] + s[j:e + 1] + ' ' + s[j:]
            else:
                s = s[:j] + s[e + 1:].lstrip(' ') if R.random() < 0.5 else s[:j] + '[]' + s[e + 1:]
        else:
            w = [m for m in re.finditer('\\d+', s)]
            if not w:
                continue
            m = R.choice(w)
            v = R.choice(VALUES)
            s = s[:m.start()] + v + s[m.end():]
    return s


if __name__ == '__main__':
    a = argparse.ArgumentParser()
    a.add_argument('seed', type=int)
    a.add_argument('count', type=int)
    a.add_argument('--annotations', action='store_true')
    a.add_argument('--program', default='crates/cell/out/cell')
    o = a.parse_args()
    R = random.Random(o.seed)
    commands = 'shift,free,bind,fill,prune'
    more = []
    if o.annotations:
        commands += ',point,member'
        more = ['--annotations', '70']
        VALUES += ['0', '1', '861', '862', '871', '873']
    gen = subprocess.run(['python3', 'oracle/gen.py', '--seed', str(o.seed), '--count', str(o.count), '--commands', commands, '--fuel', '6', '--empty-sets', '--odd-forms'] + more, capture_output=True, text=True).stdout.split('\n')[:-1]
    lines = [damage(l, R) for l in gen]
    out = subprocess.run(o.program.split(), input='\n'.join(lines) + '\n', capture_output=True, text=True).stdout.split('\n')[:-1]
    assert len(out) == len(lines)
    T = collections.Counter()
    bad = 0
    for l, o in zip(lines, out):
        w = predict(l)
        if w is None:
            ok = o not in ('[no 8]', '[no 1]', '[no 3]', '[no 4]', '[no 5]') and not o.startswith('[no 2 ')
            key = 'carried out'
        else:
            ok = o == ('[no 2 %s]' % position(l) if w == 2 else '[no %d]' % w)
            key = '[no %d]' % w
        T[key, ok] += 1
        if not ok:
            bad += 1
            if bad < 10:
                print(l, '|', o, '|', w)
    for k in sorted(T):
        print(k, T[k])
    sys.exit(1 if bad else 0)
