#!/usr/bin/env python3
"""The library cases and what the rules answer to them.

  cases.py stdin  > stdin     the cases, as src/main.rt describes them
  cases.py stdout > stdout    what must be printed, from the model below

The model is written from the rules, on trees, apart from the specifications and the code: it reads a row into a tree, rewrites the tree
by the rules, and writes it back. A node is (tag, own words, declarations, children), a declaration (name, annotation or None). The tag of a
quantifier is 851, 852 or 801 to 803; the row has 861, 862 or 871 to 873 exactly if a declaration has an annotation.
"""
import sys

OLD_OUT, OLD_WORK = 88, 77

# ----- rows and trees


class Bad(Exception):
    def __init__(self, at):
        self.at = at


class No(Exception):
    def __init__(self, k, p=0):
        self.k, self.p = k, p


def table(*lines):
    return {t: (asked, kinds) for tags, asked, kinds in lines for t in tags}


# the limits of a row; positions.py sets small ones
ANY = 4294967295
WORDS, DEPTH, NAME, DECLARATIONS = 8192, 64, 65535, 32


def shapes():
    """For each tag the own words, from and to what number, and what they count: declarations (D), declarations with annotations (A), children
    (E, P) or nothing; then the children."""
    name, count, noted = (0, NAME, ""), (1, DECLARATIONS, "D"), (1, DECLARATIONS, "A")
    return {
        "E": table(((1, 2), [name], ""), ((3,), [(0, ANY, "")], ""), ((4,), [(0, ANY, "E")], ""), ((5,), [], "P"), ((6,), [], "EE"),
                   (range(201, 228), [], "EE"), (range(301, 308), [(2, ANY, "E")], ""), (range(401, 413), [], ""), (range(751, 758), [], "E"),
                   (range(761, 765), [], "E"), (range(801, 804), [(0, 3, ""), count], "PE"), (range(871, 874), [(0, 3, ""), noted], "PE")),
        "P": table(((610, 611), [], ""), ((7,), [name], ""), ((8,), [], "P"), ((9,), [], "E"), ((10,), [(1, ANY, "E")], ""),
                   ((11,), [name, (0, ANY, "E")], ""), (range(101, 113), [], "EE"), ((251, 252), [], "PP"), ((351, 352), [(2, ANY, "P")], ""),
                   ((851, 852), [count], "P"), ((861, 862), [noted], "P")),
    }


SHAPES = shapes()
# a tag of a row, and that of the node
PLAIN = {861: 851, 862: 852, 871: 801, 872: 802, 873: 803}
NOTED = {plain: tag for tag, plain in PLAIN.items()}


def declared(what, n):
    """The fewest words of n declarations: a name each, or a name, a flag and in all one annotation at least."""
    return n if what == "D" else 2 * n + 1 if what == "A" else 0


def read(ws, at, sort, depth, after=0, named=False):
    """The form of the sort ('E' or 'P') that starts here, and where it ends. Bad has the first word at which no row can go on within the
    limits, or the number of words where they ran out: so many words at least must come after the form, a form has at least one word, and
    below the last depth there is none. A named row has no tag 2."""
    if at >= len(ws) or ws[at] not in SHAPES[sort] or named and ws[at] == 2:
        raise Bad(at)
    asked, kinds = SHAPES[sort][ws[at]]

    def least(asked, kids):
        """The fewest words of these own words and of so many children."""
        kids += sum(lo for lo, _, what in asked if what in ("E", "P"))
        return len(asked) + sum(declared(what, lo) for lo, _, what in asked) + (kids if kids == 0 or depth < DEPTH else WORDS + 1)

    def word(lo, hi, rest):
        """The next word, where as many words as it asks for have room after it."""
        nonlocal at
        if at >= len(ws) or not lo <= ws[at] <= hi or at + 1 + rest(ws[at]) + after > WORDS:
            raise Bad(at)
        at += 1
        return ws[at - 1]

    t = word(0, ANY, lambda _: least(asked, len(kinds)))
    own, decls = [], []
    for i, (lo, hi, what) in enumerate(asked):
        kids = lambda n: len(kinds) + (n if what in ("E", "P") else 0)
        n = word(lo, hi, lambda n: declared(what, n) + least(asked[i + 1:], kids(n)))
        if what == "D":
            decls = [(word(0, NAME, lambda _: n - 1 - j + len(kinds)), None) for j in range(n)]
        elif what == "A":
            came = False        # an annotation, which stands one deeper, as the children do
            for j in range(n):
                others = 2 * (n - 1 - j) + len(kinds)
                name = word(0, NAME, lambda _: 1 + (not came) + others)
                flag = word(0 if came or j < n - 1 else 1, 1, lambda flag: (flag or not came) + others)
                note = None
                if flag:
                    note, at = read(ws, at, "E", depth + 1, after + others, named)
                    came = True
                decls.append((name, note))
        else:
            own.append(n)
            kinds = what * n if what else kinds
    kids = []
    for j, k in enumerate(kinds):
        f, at = read(ws, at, k, depth + 1, after + len(kinds) - 1 - j, named)
        kids.append(f)
    return (PLAIN.get(t, t), own, decls, kids), at


def tag_of(f):
    """The tag that the row has."""
    return NOTED[f[0]] if any(note for _, note in f[2]) else f[0]


def write(f):
    t, own, decls, kids = f
    ws = [tag_of(f)] + own
    if decls:
        ws.append(len(decls))
    for name, note in decls:
        ws.append(name)
        if ws[0] in PLAIN:
            ws += [1] + write(note) if note else [0]
    for k in kids:
        ws += write(k)
    return ws


def sort_of(ws):
    return "E" if ws and ws[0] in SHAPES["E"] else "P"


def form(ws, kind=None):
    """1 and 2 of a row; the kind is E or P where that sort is asked for, N for a named row, which may have either."""
    if len(ws) > WORDS:
        raise No(1)
    try:
        f, end = read(ws, 0, kind if kind in ("E", "P") else sort_of(ws), 1, 0, kind == "N")
    except Bad as x:
        raise No(2, x.at)
    if end != len(ws):
        raise No(2, end)
    return f


def finish(f, room, sort):
    """7 and 14."""
    ws = write(f)
    try:
        form(ws, sort)
    except No:
        raise No(7)
    if len(ws) > room:
        raise No(14)
    return ws


# ----- the rewritings: an action sees free names and dangling indices, with the number of open declarations; an annotation stands outside its
# quantifier


def walk(f, act, k=0):
    t, own, decls, kids = f
    if t == 1:
        return act("name", own[0], k)
    if t == 2:
        return f if own[0] < k else act("index", own[0] - k, k)
    return (t, own, noted(decls, lambda e: walk(e, act, k)), [walk(c, act, k + len(decls)) for c in kids])


def noted(decls, change):
    """The declarations with each annotation changed."""
    return [(name, note and change(note)) for name, note in decls]


def index(i):
    return (2, [i], [], [])


def shift(f, by):
    def act(kind, v, k):
        if kind == "name":
            return (1, [v], [], [])
        if v + by < 0:
            raise No(6)
        return index(v + by + k)

    return walk(f, act)


def dangling(f):
    out = set()

    def act(kind, v, k):
        if kind == "index":
            out.add(v)
        return f

    walk(f, act)
    return sorted(out)


def free(f, table):
    def act(kind, v, k):
        if kind == "index":
            return index(v + k)
        return shift(table[v], k) if v in table else (1, [v], [], [])

    return walk(f, act)


def bind(f, names):
    n = len(names)

    def act(kind, v, k):
        if kind == "index":
            return index(v + k + n)
        return index(k + n - 1 - names.index(v)) if v in names else (1, [v], [], [])

    return walk(f, act)


def fill(f, places):
    """A quantified predicate, with an expression or None for each declaration. Kept declarations have their annotations as they are."""
    op, _, decls, (body,) = f
    n = len(decls)
    kept = [j for j in range(n) if places[j] is None]
    m = len(kept)

    def act(kind, v, k):
        if kind == "name":
            return (1, [v], [], [])
        if v >= n:
            return index(v - (n - m) + k)
        j = n - 1 - v
        if places[j] is None:
            return index(k + m - 1 - kept.index(j))
        return shift(places[j], k + m)

    new = walk(body, act)
    return (op, [], [decls[j] for j in kept], [new]) if kept else new


# ----- forms written with names


def named(f, enclosing=[]):
    """Each occurrence of a name, tag 1, becomes an index if an enclosing declaration bears the name: the innermost first and, within one
    quantifier, the last first, which is the order in which indices count. Else it stays free. Names in 7 and 11 are own words of other tags.
    An annotation stands outside its quantifier. The enclosing declarations' names are listed in the order of the row."""
    t, own, decls, kids = f
    if t == 1:
        return next((index(i) for i, name in enumerate(reversed(enclosing)) if name == own[0]), f)
    inside = enclosing + [name for name, _ in decls]
    return (t, own, noted(decls, lambda e: named(e, enclosing)), [named(c, inside) for c in kids])


# ----- one point


def offer_rule(l, r):
    """Target and side of an equality, or None."""
    bl, br = l[0] == 2, r[0] == 2
    if bl and br and l[1][0] < r[1][0]:
        return l[1][0], "right"
    if br:
        return r[1][0], "left"
    if bl:
        return l[1][0], "right"
    return None


def offer(n, filled, l, r):
    """0 and the target and the side, or the refusal."""
    rule = offer_rule(l, r)
    if rule is None:
        return 10, None, None
    i, side = rule
    if i >= n:
        return 11, None, None
    if any(j <= i for j in dangling(l if side == "left" else r)):
        return 12, None, None
    if i in filled:
        return 13, None, None
    return 0, i, side


def split(l, r):
    if l[0] == 201 and r[0] == 201:
        return split(l[3][0], r[3][0]) + split(l[3][1], r[3][1])
    return [(l, r)]


def negate(f):
    return f[3][0] if f[0] == 8 else (8, [], [], [f])


def scan(f, pol, n):
    """What is left of the predicate (None where it vanishes), and the taken (target, replacement) or None."""
    t, own, decls, kids = f
    if t == 8:
        c, taken = scan(kids[0], not pol, n)
        return (None if c is None else negate(c)), taken
    if t == 101 and pol:
        parts = split(*kids)
        if len(parts) == 1:
            no, i, side = offer(n, (), *kids)
            if no:
                return f, None
            return None, (i, kids[0] if side == "left" else kids[1])
        return scan((351, [len(parts)], [], [(101, [], [], [l, r]) for l, r in parts]), True, n)
    if t == 251 and not pol:
        a, taken = scan(kids[0], True, n)
        b = kids[1]
        if taken is None:
            b, taken = scan(kids[1], False, n)
        if a is None:
            return b, taken
        if b is None:
            return negate(a), taken
        return (t, own, decls, [a, b]), taken
    if (t == 351 and pol) or (t == 352 and not pol):
        out, taken = [], None
        for c in kids:
            if taken is None:
                c, taken = scan(c, pol, n)
            if c is not None:
                out.append(c)
        if not out:
            return None, taken
        return (out[0] if len(out) == 1 else (t, [len(out)], [], out)), taken
    return f, None


def point(f):
    op, _, decls, kids = f
    if op not in (851, 852):
        raise No(9)
    n = len(decls)
    body, taken = scan(kids[0], op == 852, n)
    if taken is None:
        raise No(9)
    if body is None:
        body = (610 if op == 852 else 611, [], [], [])
    i, e = taken
    return partly(op, decls, {i: e}, body)


def partly(op, decls, filled, body):
    """The body with its declarations, the replacements of some of them (by index, as in the body) filled in: the declarations before the first
    that is filled stand in front of the rest, and what the rest keeps joins them; else the body's own quantifier does, if it may."""
    n = len(decls)
    first = n - 1 - max(filled)
    front, rest = decls[:first], decls[first:]
    places = [filled.get(n - 1 - j) for j in range(first, n)]
    new = fill((op, [], rest, [body]), [e and shift(e, -len(rest)) for e in places])
    if not front:
        return new
    if None in places:
        return (op, [], front + new[2], new[3])
    return join(op, front, new)


def join(op, front, new):
    """The front round a predicate. A quantifier of the same operator is joined to it, unless an annotation there mentions the front's
    declarations; then its annotations fall by the front's number."""
    n = len(front)
    if new[0] != op or any(i < n for _, note in new[2] if note for i in dangling(note)):
        return (op, [], front, [new])
    return (op, [], front + noted(new[2], lambda e: shift(e, -n)), new[3])


# ----- membership


def member(f):
    if f[0] != 107 or f[3][1][0] != 803:
        raise No(9)
    element, (_, _, decls, (guard, value)) = f[3]
    n, filled, left = len(decls), {}, []
    for l, r in split(value, shift(element, n)):
        no, i, side = offer(n, filled, l, r)
        if no:
            left.append((101, [], [], [l, r]))
        else:
            filled[i] = l if side == "left" else r
    body = (351, [1 + len(left)], [], [guard] + left) if left else guard
    return partly(852, decls, filled, body) if filled else (852, [], decls, [body])


# ----- the calls


def entries(ws, kind):
    """1 and 2 of a list of pairs or places."""
    if len(ws) > WORDS:
        raise No(1)
    at, out = 0, []
    while at < len(ws):
        w = ws[at]
        if kind == "places" and w == 0:
            at += 1
            out.append(None)
            continue
        if (kind == "places" and w != 1) or at + 2 > WORDS:
            raise No(2, at)
        try:
            e, at = read(ws, at + 1, "E", 1)
        except Bad as x:
            raise No(2, x.at)
        out.append(e if kind == "places" else (w, e))
    return out


def all_places(places, n):
    """5 for more places than the n declarations; places that are missing at the end count as kept."""
    if len(places) > n:
        raise No(5)
    return places + [None] * (n - len(places))


def check_places(ws, n):
    """1, 2 and 5 of a list of places for n declarations."""
    places = entries(ws, "places")
    if n > DECLARATIONS:
        raise No(5)
    all_places(places, n)


def good_names(names):
    if len(names) > 32 or len(set(names)) < len(names) or any(x > 65535 for x in names):
        raise No(4)


# the commands in the order of their numbers: what stands before the form, and the kind of row that the form must be
COMMANDS = {"shift": ("offset", None), "free": ("pairs", None), "bind": ("names", None), "fill": ("places", "P"), "prune": ("", "P"), "point": ("", "P"), "member": ("", "P"),
            "named": ("", "N")}


def call(op, out, work, by, lst, row):
    if op in ("free", "fill", "point", "member") and work < 16384:
        raise No(15)
    _, kind = COMMANDS.get(op, ("", None))
    f = form(row, kind)
    s = "P" if kind == "P" else sort_of(row)
    if op == "dangling":
        d = dangling(f)
        if len(d) > out:
            raise No(14)
        return d
    if op == "shift":
        return finish(shift(f, by), out, s)
    if op == "bind":
        if len(lst) > 8192:
            raise No(1)
        good_names(lst)
        return finish(bind(f, lst), out, s)
    if op == "free":
        pairs = entries(lst, "pairs")
        good_names([p[0] for p in pairs])
        return finish(free(f, dict(pairs)), out, s)
    if op in ("point", "member", "named"):
        return finish({"point": point, "member": member, "named": named}[op](f), out, s)
    places = entries(lst, "places") if op == "fill" else None
    if f[0] not in (851, 852):
        raise No(3)
    n = len(f[2])
    if op == "fill":
        return finish(fill(f, all_places(places, n)), out, s)
    used = dangling(f[3][0])
    places = [None if n - 1 - j in used else (3, [0], [], []) for j in range(n)]
    if all(p is None for p in places):
        raise No(9)
    return finish(fill(f, places), out, s)


def lift(row, depth, work):
    try:
        f = form(row)
        if depth == 0 or not dangling(f):
            return row
        return finish(shift(f, depth), work, sort_of(row))
    except No:
        return []


def offers(n, forced, rows):
    number = 5 if n > 32 and not forced else 0
    n = 0 if number else n
    said, filled = [number, 0], {}
    for row in rows:
        try:
            f = form(row, "P")
            if n > 32:
                raise No(5)
            if f[0] != 101:
                raise No(10)
            l, r = f[3]
            no, i, side = offer(n, filled, l, r)
            if no:
                raise No(no)
            a, b = len(write(l)), len(write(r))
            filled[i] = (1, 1 + a) if side == "left" else (1 + a, 1 + a + b)
            said += [0, 0]
        except No as x:
            said += [x.k, x.p]
    return said, n, sorted((n - 1 - i, a, b) for i, (a, b) in filled.items())


# ----- the cases


def w(text):
    """Words of a text, where 3*5 is 5 5 5."""
    out = []
    for x in text.split():
        n, v = x.split("*") if "*" in x else (1, x)
        out += [int(v)] * int(n)
    return out


def one(name, op, row, lst="", out=0, work=0, by=0):
    return (name, op, out, work, by, lst, row)


def cases():
    shift_row = "852 1 9 101 2 0 2 2"
    bind_row, bind_list = "101 1 4 2 0", "4 5"
    free_row, free_list = "852 1 9 101 2 0 1 4", "4 2 0"
    fill_row, fill_list = "852 2 4 5 101 2 1 2 2", "0 1 1 5"
    prune_row = "852 2 4 5 101 2 1 1 7"
    point_row = "852 2 4 5 351 2 101 2 0 2 1 851 1 6 101 2 0 2 1"
    enough = 16384
    # 14: the output row one short of the result, as long, and longer
    for name, op, row, lst, length, by in [
            ("shift", "shift", shift_row, "", 8, -1), ("bind", "bind", bind_row, bind_list, 5, 0), ("free", "free", free_row, free_list, 8, 0),
            ("fill", "fill", fill_row, fill_list, 8, 0), ("prune", "prune", prune_row, "", 8, 0), ("point", "point", point_row, "", 11, 0),
            ("free longer", "free", "9 1 4", "4 201 2 0 3 5", 6, 0), ("fill body alone", "fill", "852 1 4 101 2 0 2 1", "1 1 5", 5, 0),
            ("prune body alone", "prune", "851 3 4 5 6 9 2 3", "", 3, 0), ("point emptied", "point", "852 1 4 101 2 0 1 7", "", 1, 0),
            ("point emptied for all", "point", "851 1 4 8 101 2 0 1 7", "", 1, 0), ("bind no names", "bind", bind_row, "", 5, 0)]:
        for out in (0, length - 1, length, length + 1, length + 4):
            yield one("%s, output %d" % (name, out), op, row, lst, out, enough, by)
    # 15: the work row
    for name, op, row, lst in [("free", "free", free_row, free_list), ("fill", "fill", fill_row, fill_list), ("point", "point", point_row, "")]:
        for work in (0, 1, 16383, 16384, 16385):
            yield one("%s, work %d" % (name, work), op, row, lst, 12, work)
    # calls that are lent no work row
    for name, op, row, lst, by in [("shift", "shift", shift_row, "", -1), ("bind", "bind", bind_row, bind_list, 0), ("prune", "prune", prune_row, "", 0)]:
        yield one("%s, no work" % name, op, row, lst, 12, 0, by)
    # the order of refusals: 15 before 1 and 2, 1 before 2, the form before the list, 3, 4, 5, 6, 9, 7 before 14
    for op in ("free", "fill", "point"):
        yield one("%s, 15 before 1" % op, op, "8193*0", "", 3, 16383)
        yield one("%s, 15 before 2" % op, op, "0", "", 3, 16383)
    for op in ("shift", "bind", "free", "fill", "prune", "point", "dangling"):
        yield one("%s, 8193 words" % op, op, "8193*0", "", 3, enough)
        yield one("%s, 8192 words that are no form" % op, op, "8192*0", "", 3, enough)
        yield one("%s, no word" % op, op, "", "", 3, enough)
        yield one("%s, a word too many" % op, op, "610 0", "", 3, enough)
        yield one("%s, a word too few" % op, op, "101 1 4 1", "", 3, enough)
    for op in ("fill", "prune", "point"):
        yield one("%s, an expression" % op, op, "1 4", "", 3, enough)
    # where a row breaks: each own word, each limit, a form that ended, words that ran out; the whole forms beside them
    for name, row in [
            ("an index over 65535", "101 2 0 2 65536"), ("a count too low", "9 301 1 1 4"), ("declarations", "851 33 4"), ("no declaration", "851 0 610"),
            ("a name of a declaration", "852 3 4 65536 5"), ("a mark over 3", "9 803 4 1 4 610 1 4"), ("a sort", "101 1 4 610"), ("after a whole form", "101 1 4 1 5 1 4"),
            ("the last words", "351 2 610 851 2 4"), ("a count for which there is no room", "9 4 8190"), ("the largest count", "9 4 8189"),
            ("depth 65", "64*8 610"), ("depth 64", "63*8 610"), ("depth 64, a count that may be 0", "62*8 9 4 1"), ("depth 64, that count", "62*8 9 4 0"),
            ("no room for two children", "11 4 8189 3*401 6 401 401"), ("no room for a child", "10 8190 8188*401 761 401"), ("8192 words", "10 8190 8190*401"),
            ("the last of 8192 words", "10 8190 8189*401 3")]:
        yield one("shift, breaks: %s" % name, "shift", row, "", 3)
    for name, lst in [("no expression", "4"), ("a predicate", "4 3 0 5 610"), ("a name over 65535", "65536 3 0"), ("no room", "4 4 8190"), ("room", "4 4 8189"),
                      ("a pair after 8189 words", "4 4 8186 8186*401 5 401"), ("a child after 8191 words", "4 4 8186 8186*401 5 761"),
                      ("a name as the last of 8192 words", "4 4 8188 8188*401 5"), ("an index over 65535", "4 2 65536")]:
        yield one("free, list breaks: %s" % name, "free", "1 4", lst, 3, enough)
    for name, lst in [("2", "0 2"), ("no expression", "0 1"), ("8192 places", "8192*0"), ("1 as the last of 8192", "8191*0 1"), ("an expression of 8191 words", "1 4 8189"), ("of 8192", "1 4 8190")]:
        yield one("fill, list breaks: %s" % name, "fill", "852 1 4 610", lst, 3, enough)
    yield one("bind, the form's 2 before the list's 1", "bind", "0", "8193*0", 3)
    yield one("bind, a list of 8193 words", "bind", "1 4", "8193*0", 3)
    yield one("bind, the list's 1 before 4", "bind", "1 4", "8193*4", 3)
    yield one("bind, a list of 8192 words", "bind", "1 4", "8192*4", 3)
    yield one("free, the form's 2 before the list's 1", "free", "0", "8193*0", 3, enough)
    yield one("free, a list of 8193 words", "free", "1 4", "8193*0", 3, enough)
    yield one("free, the list's 2 before 4", "free", "1 4", "4 3 0 4 3 0 4", 3, enough)
    yield one("free, a name twice", "free", "1 4", "4 3 0 4 3 0", 3, enough)
    yield one("free, a name over 65535", "free", "1 4", "65536 3 0", 3, enough)
    yield one("free, 4 before 14", "free", "1 4", "65536 3 0", 0, enough)
    yield one("fill, the list's 2 before 3", "fill", "610", "2", 3, enough)
    yield one("fill, 3 before 5", "fill", "610", "0", 3, enough)
    yield one("fill, 3", "fill", "610", "", 3, enough)
    yield one("fill, a list of 8193 words", "fill", fill_row, "8193*0", 3, enough)
    yield one("fill, fewer places, output 0", "fill", fill_row, "0", 0, enough)
    yield one("fill, 5 with more places", "fill", fill_row, "0 0 0", 0, enough)
    yield one("fill, 7 before 14", "fill", "852 2 4 5 9 2 0", "0 1 2 65535", 0, enough)
    yield one("prune, 3", "prune", "8 852 1 4 610", "", 3)
    yield one("prune, 9", "prune", "852 1 4 9 2 0", "", 0)
    yield one("shift, 6 before 14", "shift", "2 0", "", 0, 0, -1)
    yield one("shift, 7 before 14", "shift", "2 65535", "", 0, 0, 1)
    yield one("shift, 6 for one of two indices", "shift", "101 2 1 2 0", "", 9, 0, -1)
    yield one("shift, the lowest offset", "shift", "2 0", "", 3, 0, -2147483648)
    yield one("shift, the lowest offset with nothing dangling", "shift", "852 1 4 9 2 0", "", 8, 0, -2147483648)
    yield one("shift, the highest offset", "shift", "2 0", "", 3, 0, 2147483647)
    yield one("shift, the highest offset with nothing dangling", "shift", "852 1 4 9 2 0", "", 8, 0, 2147483647)
    yield one("shift, to 65535", "shift", "2 65534", "", 3, 0, 1)
    yield one("bind, 7 before 14", "bind", "2 65535", "4", 0)
    yield one("point, 9 before 14", "point", "852 1 4 101 2 0 2 0", "", 0, enough)
    yield one("point, not quantified", "point", "610", "", 0, enough)
    yield one("point, 7 before 14", "point", "852 17 17*4 351 2 101 2 0 1 7 852 17 17*5 9 2 0", "", 0, enough)
    yield one("point, 32 declarations joined", "point", "852 17 17*4 351 2 101 2 0 1 7 852 16 16*5 9 2 0", "", 40, enough)
    # rows of many words: the marks of a short, a middle and a long row
    for n in (30, 31, 32, 254, 255, 256):
        yield one("shift, %d words" % (2 * n + 2), "shift", "4 %d %s" % (n, "2 7 " * n), "", 2 * n + 2, 0, 1)
        yield one("dangling, %d words" % (2 * n + 2), "dangling", "4 %d %s" % (n, "2 7 " * n), "", 2)
    # the dangling set
    for name, row, length in [("nothing", "852 1 4 9 2 0", 0), ("one", "852 1 4 9 2 1", 1), ("ascending, each once", "10 5 2 3 2 0 2 3 2 1 2 0", 3),
                              ("by depth", "101 2 2 803 0 2 4 5 9 2 4 2 2", 2), ("the largest", "101 2 65535 2 64", 2)]:
        for out in sorted({0, max(length - 1, 0), length, length + 2}):
            yield one("dangling, %s, output %d" % (name, out), "dangling", row, "", out)
    # lift: all of the base, a copy, the empty part
    for name, row, depth, work in [
            ("depth 0", "101 2 0 1 4", 0, 0), ("depth 0 of a predicate", "9 2 65535", 0, 3), ("depth 0 of what is no form", "0", 0, 3),
            ("nothing dangles", "803 0 1 4 9 2 0 2 0", 7, 0), ("nothing dangles, the largest depth", "1 4", 4294967295, 0),
            ("a copy", "201 2 0 803 0 1 4 9 2 0 2 1", 3, 12), ("a copy, work as long", "2 0", 1, 2), ("a copy, work longer", "2 0", 1, 5),
            ("a copy to 65535", "2 0", 65535, 2), ("empty by 7", "2 0", 65536, 2), ("empty by 7, an index of 65535", "2 65535", 1, 2),
            ("empty by 7, depth 2147483647", "2 0", 2147483647, 2), ("empty by 7, depth 2147483648", "2 0", 2147483648, 2),
            ("empty by 7, the largest depth", "2 0", 4294967295, 2), ("empty by 14", "2 0", 1, 1), ("empty by 14, no work", "2 0", 1, 0),
            ("empty by 7 and not 14", "2 65535", 1, 0), ("empty by 1", "8193*0", 1, 16384), ("empty by 1 at depth 0", "8193*0", 0, 16384),
            ("empty by 2", "2 65536", 1, 16384), ("empty by 2, no word", "", 1, 16384), ("empty by 2, a word too many", "2 0 0", 1, 16384),
            ("a predicate", "101 2 0 2 1", 2, 5)]:
        yield one("lift, %s" % name, "lift", row, "", 0, work, depth)
    # sets of places
    for n in (0, 1, 31, 32, 33, 4294967295):
        yield one("new for %d" % n, "new", "", "", 0, 0, n)
    eq = "101 2 0 1 7"
    for name, op, n, rows in [
            ("1", "new", 2, ["8193*0"]), ("2", "new", 2, ["0"]), ("2, an expression", "new", 2, ["2 0"]), ("2, no word", "new", 2, ["", eq]),
            ("2, a word too many", "new", 2, [eq + " 0"]), ("1 before 5", "forced", 33, ["8193*0"]), ("2 before 5", "forced", 33, ["0"]),
            ("5", "forced", 33, [eq]), ("5 before 10", "forced", 33, ["610"]), ("32 forced", "forced", 32, [eq]),
            ("10", "new", 2, ["610"]), ("10, no bound side", "new", 2, ["101 1 7 1 8"]), ("10, another relation", "new", 2, ["102 2 0 1 7"]),
            ("10 before 11", "new", 0, ["101 1 7 1 8"]), ("11", "new", 2, ["101 2 2 1 7"]), ("11 for 0", "new", 0, [eq]),
            ("11 before 12", "new", 2, ["101 2 2 301 2 2 2 1 7"]), ("12", "new", 2, ["101 2 1 301 2 2 0 1 7"]), ("12, itself", "new", 2, ["101 2 0 2 0"]),
            ("12 before 13", "new", 2, [eq, "101 2 0 301 2 2 0 1 7"]), ("13", "new", 2, [eq, "101 1 8 2 0"]),
            ("both sides bound, the left lower", "new", 2, ["101 2 0 2 1"]), ("both sides bound, the right lower", "new", 2, ["101 2 1 2 0"]),
            ("right bound", "new", 2, ["101 301 2 2 2 1 7 2 1"]), ("left bound", "new", 2, ["101 2 1 301 2 2 2 1 7"]),
            ("bound inside the replacement", "new", 1, ["101 2 0 803 0 1 4 9 2 0 2 2"]),
            ("both bound, the higher not below n", "new", 1, ["101 2 0 2 5"]), ("both bound, none below n", "new", 1, ["101 2 5 2 6"]),
            ("two places", "new", 2, ["101 2 1 1 7", "101 1 8 2 0"]), ("two places, the other order", "new", 2, ["101 1 8 2 0", "101 2 1 1 7"]),
            ("after a refusal", "new", 2, [eq, "610", "101 2 0 1 9", "101 2 5 1 7", "0", "101 2 1 3 5"]),
            ("first and last of 32", "new", 32, ["101 2 31 1 7", "101 2 0 2 30", "101 2 32 1 7", "101 2 31 1 8"]),
            ("every place of 3", "new", 3, ["101 2 0 2 1", "101 2 1 2 2", "101 2 2 1 7", "101 2 2 2 3"])]:
        yield one("offer, %s" % name, op, "/".join(rows), "", 0, 0, n)

    # annotations: what each call makes of them, with output rows one short, as long and longer
    # a dangling index, an outer declaration, the index 0 that is outside its own quantifier, one of a comprehension in the annotation
    for name, row in [
            ("outside", "862 2 4 1 2 0 5 0 101 2 0 2 2"), ("an outer declaration", "852 1 9 862 1 4 1 2 0 101 2 0 2 1"),
            ("two declarations", "861 2 4 1 2 1 5 1 2 1 101 2 0 2 3"), ("nested", "862 1 4 1 873 0 1 5 1 2 0 9 2 1 201 2 0 2 1 9 2 1"),
            ("twice nested", "861 1 4 1 5 862 1 5 1 871 0 1 6 1 2 1 610 2 1 9 2 1 9 2 2"), ("in a comprehension", "9 873 2 2 4 0 5 1 2 3 9 2 2 201 2 1 2 4"),
            ("32 of them", "862 32 %s 610" % ("4 1 2 7 " * 32)), ("a name", "862 1 4 1 1 4 101 1 4 2 0")]:
        length = len(w(row))
        for by in (1, -1):
            yield one("shift annotated, %s, by %d" % (name, by), "shift", row, "", length, 0, by)
        yield one("bind annotated, %s" % name, "bind", row, "4 5", length)
        yield one("free annotated, %s" % name, "free", row, "4 873 0 1 5 1 2 0 610 2 1", length + 16, enough)
        yield one("dangling annotated, %s" % name, "dangling", row, "", 4)
        yield one("prune annotated, %s" % name, "prune", row, "", length)
        yield one("lift annotated, %s" % name, "lift", row, "", 0, length, 2)
    fill_row, join_row = "862 3 4 1 2 1 5 0 6 1 1 7 101 2 1 2 3", "851 2 4 5 251 101 2 0 1 7 861 1 6 1 2 2 101 2 0 2 1"
    for name, op, row, lst, length, by in [
            ("shift", "shift", fill_row, "", 17, 1), ("bind", "bind", fill_row, "7", 17, 0), ("free", "free", fill_row, "7 201 2 0 2 1", 20, 0),
            ("fill", "fill", fill_row, "0 1 1 5 0", 15, 0), ("fill, the old tag", "fill", fill_row, "1 2 0 0 1 2 0", 8, 0), ("prune", "prune", fill_row, "", 8, 0),
            ("prune, one kept", "prune", "861 2 4 1 2 9 5 1 2 8 9 2 1", "", 9, 0), ("point, joined", "point", join_row, "", 13, 0),
            ("point, not joined", "point", join_row.replace("1 2 2", "1 2 1"), "", 14, 0),
            ("point, the old tag", "point", "862 2 4 0 5 1 2 0 351 2 101 2 0 1 7 9 2 1", "", 6, 0), ("point, one kept", "point", "862 2 4 0 5 1 2 0 351 2 101 2 1 1 7 9 2 0", "", 9, 0)]:
        for out in (0, length - 1, length, length + 1, length + 4):
            yield one("annotated %s, output %d" % (name, out), op, row, lst, out, enough, by)
    # one annotation, which falls with its declaration: the old tag; the annotations of kept declarations stay as they are
    for name, lst in [("its declaration falls", "1 1 5 0"), ("the other falls", "0 1 1 5"), ("none falls", "0 0"), ("both fall", "1 2 0 1 2 1"), ("fewer places", "0"), ("5, more places", "0 0 0")]:
        yield one("fill annotated, %s" % name, "fill", "862 2 4 1 2 0 5 0 101 2 0 2 1", lst, 20, enough)
        yield one("fill annotated for all, %s" % name, "fill", "861 2 4 1 2 1 5 0 862 1 6 1 2 1 101 2 0 2 2", lst, 20, enough)
    yield one("fill annotated, into an annotation", "fill", "852 2 4 5 861 1 6 1 2 0 101 2 1 2 2", "0 1 873 0 1 7 1 2 0 610 2 1", 40, enough)
    for name, lst in [("to depth 64", "1 751 2 0"), ("to depth 65", "1 751 751 2 0")]:
        yield one("fill annotated, into an annotation, %s" % name, "fill", "852 1 4 61*8 862 1 5 1 2 0 610", lst, 69, enough)
    for name, row in [("its declaration falls", "862 2 4 1 2 0 5 0 9 2 0"), ("the other falls", "862 2 4 1 2 0 5 0 9 2 1"), ("both fall", "861 2 4 1 2 0 5 0 9 2 2"), ("9", "861 2 4 1 2 0 5 0 101 2 0 2 1"),
                      ("its own index is no use", "862 1 4 1 2 0 610"), ("an inner annotation is a use", "862 2 4 1 2 5 5 0 852 1 6 9 803 0 1 7 862 1 8 1 2 2 610 2 0"),
                      ("3, a comprehension", "9 873 0 1 4 1 2 0 610 2 0"), ("32 of them, one used", "862 32 %s 9 2 31" % ("4 1 2 7 " * 32))]:
        yield one("prune annotated, %s" % name, "prune", row, "", 20)
    # one point: the body's own quantifier is joined where no annotation mentions the front after filling
    for name, row in [
            ("nothing dangles", "852 2 4 5 351 2 101 2 0 1 7 862 1 6 1 1 8 101 2 0 2 2"), ("the front", "852 2 4 5 351 2 101 2 0 2 1 862 1 6 1 2 0 610"),
            ("outside", "852 2 4 5 351 2 101 2 0 2 1 862 1 6 1 2 2 610"), ("what was filled in is outside", "852 2 4 5 351 2 101 2 0 2 2 862 1 6 1 2 0 610"),
            ("what was filled in is the front", "851 3 4 5 6 251 101 2 0 2 2 861 1 7 1 2 0 610"), ("the front in a comprehension", "852 2 4 5 351 2 101 2 0 1 7 862 1 6 1 803 0 1 7 9 2 2 2 0 610"),
            ("a bound index in a comprehension", "852 2 4 5 351 2 101 2 0 1 7 862 1 6 1 803 0 1 7 9 2 3 2 0 610"), ("another operator", "852 2 4 5 351 2 101 2 0 1 7 861 1 6 1 2 2 610"),
            ("no front", "852 1 4 351 2 101 2 0 1 7 862 1 6 1 2 1 610"), ("one kept", "852 3 4 5 6 351 2 101 2 1 1 7 862 1 7 1 2 3 610"),
            ("the second of two mentions the front", "852 2 4 5 351 2 101 2 0 1 7 862 2 6 1 2 2 7 1 2 1 610"), ("both outside", "852 3 4 5 6 351 2 101 2 0 1 7 862 2 7 1 2 3 8 1 2 5 101 2 0 2 4"),
            ("annotated in front", "862 2 4 1 2 0 5 1 2 1 351 2 101 2 0 1 7 852 1 6 9 2 0"), ("annotated in front and within", "862 2 4 1 2 0 5 1 2 1 351 2 101 2 0 1 7 862 1 6 1 2 2 9 2 0"),
            ("the replacement has an annotation", "852 2 4 5 351 2 101 2 0 873 0 1 6 1 2 1 610 2 0 862 1 7 1 2 2 9 2 1"), ("its annotation is its target", "852 1 4 101 2 0 873 0 1 6 1 2 0 610 2 0"),
            ("kept behind a front", "862 3 4 0 5 0 6 1 2 1 351 2 101 2 1 1 7 101 2 0 2 2"), ("kept behind an annotated front", "861 3 4 1 2 1 5 1 2 3 6 1 2 2 251 101 2 1 2 3 101 2 0 2 2"),
            ("emptied", "861 1 4 1 2 0 8 101 2 0 1 7"), ("9", "862 1 4 1 2 0 101 2 0 2 0"), ("an index over 65535 that falls back", "852 4 2 3 4 5 351 2 101 2 0 2 65535 862 1 6 1 803 0 2 8 9 610 2 2 610"),
            ("7, that index not joined", "852 4 2 3 4 5 351 2 101 2 0 2 65535 862 1 6 1 803 0 2 8 9 610 201 2 2 2 3 610"), ("32 declarations joined", "852 17 17*4 351 2 101 2 0 1 7 862 16 15*0 15*0 5 1 2 17 9 2 0"),
            ("7, 33 declarations joined", "852 17 17*4 351 2 101 2 0 1 7 862 17 32*0 5 1 2 17 9 2 0"), ("33 declarations not joined", "852 17 17*4 351 2 101 2 0 1 7 862 17 32*0 5 1 2 16 9 2 0")]:
        yield one("point annotated, %s" % name, "point", row, "", 80 if "32" in name or "33" in name else 26, enough)
    # the front's flags make the result longer than the row
    for length in (8182, 8183, 8184, 8192):
        yield one("point annotated, a row of %d words" % length, "point", "852 20 20*4 351 2 101 2 0 1 7 862 1 6 1 4 %d %d*401 610" % (length - 36, length - 36), "", 0, enough)
    yield one("fill annotated, 7 before 14", "fill", "862 2 4 0 5 1 2 0 9 2 1", "1 2 65535 0", 0, enough)
    yield one("shift annotated, 7 by an annotation", "shift", "861 1 4 1 2 65535 610", "", 0, 0, 1)
    for op, row, lst in [("free", "861 1 4 1 1 4 610", free_list), ("fill", fill_row, "0 0 0"), ("point", join_row, "")]:
        yield one("%s annotated, 15" % op, op, row, lst, 30, 16383)
    # where a row with annotations breaks
    deep = "62*8 862 1 4 1 "
    for name, row in [
            ("no annotation", "862 1 4 0 610"), ("no annotation of two", "861 2 4 0 5 0 610"), ("the last of two", "861 2 4 0 5 1 401 610"), ("a flag of 2", "862 1 4 2 401 610"),
            ("a flag of 2 after an annotation", "862 2 4 1 401 5 2 610"), ("no declaration", "862 0 610"), ("33 declarations", "861 33 4 1 401"), ("32 declarations", "861 32 4 1 401 31*0 31*0 610"),
            ("a name", "862 2 4 0 65536 1 401 610"), ("a predicate as an annotation", "862 1 4 1 610 610"), ("the words end at a flag", "862 1 4"), ("at an annotation", "862 1 4 1"),
            ("at the body", "862 1 4 1 401"), ("a mark over 3", "9 873 4 1 4 1 401 610 401"), ("a comprehension", "9 873 3 1 4 1 401 610 401"), ("without an annotation", "9 871 3 1 4 0 610 401"),
            ("depth 64 in an annotation", deep + "401 610"), ("depth 65 in an annotation", deep + "751 401 610"), ("depth 64, a count that may be 0", deep + "4 1 401 610"),
            ("depth 64, a quantifier", "63*8 862 1 4 1 401 610"), ("depth 64 in an annotation's comprehension", "61*8 862 1 4 1 873 0 1 5 1 401 610 401 610"),
            ("depth 65 there", "62*8 862 1 4 1 873 0 1 5 1 401 610 401 610"), ("room for the least", "351 8185 8184*610 861 1 4 1 401 610"),
            ("no room for the least", "351 8186 8185*610 861 1 4 1 401"), ("room for two declarations", "351 8183 8182*610 861 2 4 0 5 1 401 610"),
            ("no room for three", "351 8183 8182*610 861 3 4 0 5 1 401 610"), ("no room for an annotation of two words", "351 8185 8184*610 861 1 4 1 2 0"),
            ("no room for a second annotation", "351 8183 8182*610 861 2 4 1 401 5 1"), ("room for a second declaration", "351 8183 8182*610 861 2 4 1 401 5 0"),
            ("no room for a comprehension", "351 8183 8182*610 9 873 0 1 4 1 2"), ("no room for its annotation", "351 8182 8181*610 9 873 0 1 4 1 2")]:
        yield one("shift, breaks, annotated: %s" % name, "shift", row, "", 3)
    yield one("free, list breaks, annotated", "free", "1 4", "4 873 0 1 5 0 610 401", 3, enough)
    yield one("fill, list breaks, annotated", "fill", "852 1 4 610", "1 873 0 1 5 2 401 610 401", 3, enough)
    # an annotation in a replacement stands outside its own declarations
    for name, n, rows in [
            ("above the target", 2, ["101 2 0 873 0 1 4 1 2 1 610 2 0"]), ("12, the target", 2, ["101 2 0 873 0 1 4 1 2 0 610 2 0"]), ("12, below the target", 2, ["101 873 0 1 4 1 2 0 610 2 0 2 1"]),
            ("under a declaration", 2, ["101 2 0 803 0 1 4 862 1 5 1 2 0 610 2 0"]), ("12, under a declaration", 2, ["101 2 0 803 0 1 4 862 1 5 1 2 1 610 2 0"]),
            ("10, a quantified predicate", 2, ["862 1 4 1 2 0 101 2 0 1 7"]), ("2", 2, ["101 2 0 873 0 1 4 0 610 2 0"]), ("13", 1, ["101 2 0 873 0 1 4 1 2 1 610 2 0", "101 2 0 1 7"])]:
        yield one("offer, annotated, %s" % name, "new", "/".join(rows), "", 0, 0, n)

    # named forms: what is answered, with output rows one short, as long and longer, and no work row
    named_row = "852 2 4 5 101 1 4 1 5"
    for name, row in [("declared", named_row), ("free", "101 1 4 3 2"), ("an expression", "803 0 1 4 9 1 4 1 4"), ("annotated", "862 2 4 1 1 4 5 0 101 1 4 1 5")]:
        length = len(w(row))
        for out in (0, length - 1, length, length + 1, length + 4):
            yield one("named, %s, output %d" % (name, out), "named", row, "", out)
    for name, row in [
            ("the last of two equal names", "852 3 4 5 4 101 1 4 1 5"), ("the inner of two quantifiers", "851 2 4 5 852 2 6 4 10 3 1 4 1 5 1 6"), ("32 equal names", "852 32 32*4 101 1 4 1 5"),
            ("the first of 32", "852 32 4 31*5 101 1 4 1 5"), ("bound in one child and free in the next", "351 2 852 1 4 9 1 4 9 1 4"), ("bound outside too", "852 1 4 351 2 852 1 4 9 1 4 9 1 4"),
            ("names of 7 and 11", "852 1 4 351 2 7 4 11 4 1 1 4"), ("an annotation with its own name", "862 1 4 1 1 4 9 1 4"), ("an annotation with an outer name", "852 1 4 862 1 4 1 1 4 9 1 4"),
            ("an annotation in an annotation", "852 1 4 861 2 4 0 5 1 873 0 1 4 1 1 4 9 1 4 1 4 101 1 4 1 5"), ("the word 2", "852 2 2 2 351 2 101 1 2 3 2 10 2 1 2 4 2 3 2 1 2"),
            ("names equal modulo 256", "852 3 4 260 516 10 4 1 4 1 260 1 516 1 772"), ("the largest name", "852 1 65535 101 1 65535 1 65534"), ("a leaf", "1 4"), ("depth 64", "62*8 852 1 4 7 4"),
            ("names at depth 64", "61*8 852 1 4 9 1 4")]:
        yield one("named, %s" % name, "named", row, "", len(w(row)) + 2)
    # 61 quantifiers of 32 equal names, and an occurrence of each of these names
    yield one("named, 1952 open declarations", "named", "%s 10 62 %s" % (" ".join("852 32 32*%d" % n for n in range(1, 62)), " ".join("1 %d" % n for n in range(1, 63))), "", 2200)
    # rows of many words: a short, a middle and a long row, and the longest
    for length in (31, 32, 33, 63, 64, 65, 66, 255, 256, 257, 511, 512, 513, 2047, 2048, 2049, 8191, 8192):
        many = (length - 5) // 2
        yield one("named, %d words" % length, "named", "852 1 1 10 %d %s %d*1" % (many + (length - 5) % 2, "401" if (length - 5) % 2 else "", 2 * many), "", length if length < 8191 else 5)
    yield one("named, 8192 words, output 8192", "named", "852 1 1 10 4094 401 8186*1", "", 8192)
    # 1, 2 with its position, 14, in this order
    yield one("named, 8193 words", "named", "8193*0", "", 3)
    yield one("named, 1 before 2 and 14", "named", "8193*2", "", 0)
    yield one("named, 8192 words that are no form", "named", "8192*0", "", 3)
    yield one("named, 2 before 14", "named", "9 2 0", "", 0)
    for name, row in [
            ("no word", ""), ("a word too many", "610 0"), ("a word too few", "101 1 4 1"), ("an index", "2 0"), ("an index's tag alone", "9 2"), ("an index over 65535", "9 2 65536"), ("an index after a name", "101 1 4 2 0"),
            ("an index as an annotation", "862 1 4 1 2 0 610"), ("an index as the last annotation", "862 2 4 1 1 4 5 1 2 0 610"), ("an index as a value", "803 0 1 4 610 2 0"), ("an index in a set", "4 2 1 2 2 0"),
            ("an index as an argument", "11 2 1 2 0"), ("an index in a body", "852 1 2 9 2 0"), ("a predicate for an expression", "101 1 4 610"), ("a name over 65535", "9 1 65536"), ("a declared name", "852 2 4 65536 9 1 4"),
            ("33 declarations", "852 33 33*4 610"), ("no annotation", "862 1 4 0 610"), ("a flag of 2", "862 1 4 2 401 610"), ("depth 65", "62*8 852 1 4 9 1 4"), ("an index at depth 65", "62*8 852 1 4 9 2 0"),
            ("a count for which there is no room", "9 4 8190"), ("the largest count", "9 4 8189"), ("an index as the last of 8192 words", "10 8190 8189*401 2"), ("no room for a name", "10 8190 8189*401 1"),
            ("room for a name", "10 8189 8188*401 1 4"), ("an index where there is room", "10 8189 8188*401 2 4")]:
        yield one("named, breaks: %s" % name, "named", row, "", 3)

    # lists with a place less than declarations, as many and one more: all kept, all filled, the first or the last one filled
    kept = lambda k: "%d*0" % k if k > 0 else ""
    for n in (1, 2, 31, 32):
        row = "852 %d %d*4 101 2 %d 2 %d" % (n, n, n - 1, n)
        for k in (n - 1, n, n + 1):
            for name, lst in [("all kept", kept(k)), ("all filled", "1 401 " * k), ("the first filled", "1 401 " + kept(k - 1)), ("the last filled", kept(k - 1) + " 1 2 0")][:4 if k else 1]:
                yield one("fill, %d for %d declarations, %s" % (k, n, name), "fill", row, lst, len(w(row)) + 1, enough)
    # no place at all, and one of two, with output rows one short, as long and longer
    two, noted_first, noted_last = "852 2 4 5 101 2 1 2 2", "862 2 4 1 2 0 5 0 101 2 0 2 1", "862 2 4 0 5 1 2 0 101 2 0 2 1"
    for name, row, lst, length in [("no place", two, "", 9), ("the first of two", two, "1 1 5", 8), ("no place, annotated", noted_first, "", 13), ("the first of two, annotated", noted_last, "1 1 5", 11),
                                   ("the first of two, the old tag", noted_first, "1 1 5", 8)]:
        for out in (0, length - 1, length, length + 3):
            yield one("fill, %s, output %d" % (name, out), "fill", row, lst, out, enough)
    # 15, the list's 1 and 2, 3, 5, 7 and 14 with short lists
    yield one("fill, no place, 15", "fill", two, "", 9, 16383)
    yield one("fill, three for two, the list's 2 before 5", "fill", two, "0 0 0 1", 9, enough)
    yield one("fill, no place, 3", "fill", "9 803 0 2 4 5 610 2 0", "", 9, enough)
    yield one("fill, one of two places, 7 before 14", "fill", "852 2 4 5 9 2 1", "1 2 65535", 0, enough)
    yield one("fill, one of two places, an index of 65535", "fill", "852 2 4 5 9 2 1", "1 2 65534", 6, enough)
    # the check of a list of places for n declarations
    for n in (0, 1, 2, 31, 32, 33, 4294967295):
        for k in sorted({0, 1, 33} | {j for j in (n - 1, n, n + 1) if 0 <= j <= 34}):
            yield one("check of %d places for %d" % (k, n), "places", kept(k), "", 0, 0, n)
    for name, lst, n in [
            ("filled", "1 1 5 0 1 2 0", 3), ("filled, one missing", "1 1 5 0 1 2 0", 4), ("5, filled", "1 1 5 0 1 2 0", 2), ("1", "8193*0", 2), ("8192 places", "8192*0", 32), ("2, no flag", "0 2", 2), ("2, no expression", "0 1", 2),
            ("2, a predicate", "1 610", 1), ("2 before 5", "0 0 0 3", 2), ("2 before 5 by n", "3", 33), ("1 before 5", "8193*0", 33)]:
        yield one("check of places, %s" % name, "places", lst, "", 0, 0, n)


# the numbers of the commands, and of the calls that are no command's
OTHERS = ["dangling", "lift", "new", "forced", "places"]
NUMBERS = {**{op: i + 1 for i, op in enumerate(COMMANDS)}, **{op: i + 101 for i, op in enumerate(OTHERS)}}
SIGNS = {-1: 1, -2: 2, -2147483648: 3}


def line(case):
    name, op, out, work, by, lst, row = case
    rows = row.split("/") if op in ("new", "forced") and row else []
    words = [NUMBERS[op], out, work, abs(by), SIGNS.get(by, 0), len(w(lst)), lst]
    words += [x for r in rows for x in (len(w(r)), r)] if rows else [row]
    return "%s;%s" % (name, "".join(x + " " for x in " ".join(str(x) for x in words).split()))


def expected(case):
    name, op, out, work, by, lst, row = case
    say = lambda ws: "".join(" %d" % x for x in ws)
    if op == "lift":
        part = lift(w(row), by, work)
        return "%s: %d |%s" % (name, len(part), say(part))
    if op == "places":
        try:
            check_places(w(row), by)
            return "%s: 0 0" % name
        except No as x:
            return "%s: %d %d" % (name, x.k, x.p)
    if op in ("new", "forced"):
        said, n, filled = offers(by, op == "forced", [w(r) for r in row.split("/")] if row else [])
        return "%s:%s | %d |%s" % (name, say(said), n, "".join(say(p) for p in filled))
    try:
        ws = call(op, out, work, by, w(lst), w(row))
        number, length = 0, len(ws)
    except No as x:
        ws, number, length = [], x.k, x.p
    return "%s: %d %d |%s" % (name, number, length, say(ws + [OLD_OUT] * (out - len(ws))))


def main():
    make = {"stdin": line, "stdout": expected}[sys.argv[1]]
    for c in cases():
        print(make(c))


if __name__ == "__main__":
    main()
