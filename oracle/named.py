#!/usr/bin/env python3
"""Named forms: random lines of the command named, and a program held against the model of crates/cases over them. The Rust
has no reader of names (docs/DIFFERENCES.md).

  named.py [--seed S] [--count N] [--back N] [--shared] -- PROGRAM ARG..        sends N lines of each part and compares; exit 1 on any difference
  named.py [--seed S] [--count N] [--shared] --lines                            prints the lines

The same arguments give the same lines. With --shared the names are such as share a slot of the program's row of open declarations. There and back
(--back): a random form in which nothing dangles, made with indices, is written with names that are all different; read by named it must be that
form, with those names declared.
"""
import argparse
import collections
import random
import subprocess
import sys

import model
from gen import BINARY, RELATIONAL, UNARY, node, quantifier, show
from model import cases

BATCH = 10000
EDGES = [0, 1, 2, 3, 63, 64, 65, 2047, 2048, 8192, 32767, 32768, 65534, 65535]
BYTES = "[] 0123456789-+.anmed"
# few names, so that they meet; the second are equal modulo 64, a part of them modulo each power of 2 up to 32,768
FEW, ALIKE = (4, 5, 6, 7, 8, 9), (4, 68, 132, 260, 516, 1028, 2052, 4100, 8196, 16388, 32772)
# names that share a slot in crates/named/src/scope.rt: equal modulo 251, 2,039 and 4,093, by the words of the row
SHARED = [tuple(range(7, 65536, step))[:17] for step in (251, 2039, 4093)]
vocabularies = [FEW] * 6 + [ALIKE]


class Names:
    """Random forms. The scope is the list of the declared names that are open, in the order of the row. With indices, occurrences of
    declarations are indices and nothing dangles."""

    def __init__(self, rng, annotations=0, vocabulary=FEW, indices=False):
        self.r, self.annotations, self.vocabulary, self.indices = rng, annotations, list(vocabulary), indices
        self.fuel, self.declared = 0, []

    # ----- names
    def name(self, scope):
        """Often one that is open; or one that was declared before, maybe by a quantifier that is closed; or any."""
        r, x = self.r, self.r.random()
        if scope and x < 0.55:
            return r.choice(scope)
        if self.declared and x < 0.75:
            return r.choice(self.declared)
        return r.choice(self.vocabulary) if x < 0.97 else r.choice(EDGES)

    def declare(self, n, scope):
        r, x = self.r, self.r.random()
        if x < 0.15:
            names = [r.choice(self.vocabulary)] * n
        elif x < 0.35 and scope:
            names = [r.choice(scope) for _ in range(n)]
        elif x < 0.45:
            names = [r.randrange(65536) for _ in range(n)]
        else:
            names = [r.choice(self.vocabulary) for _ in range(n)]
        self.declared += names
        return names

    def count(self):
        return self.r.choice([1, 1, 1, 2, 2, 3, 4]) if self.r.random() < 0.985 else self.r.choice([31, 32])

    def quantified(self, op, own, names, scope, make):
        """A quantifier of these names, whose children are made in the scope inside it; at times with annotations, which are made outside. These
        often mention the names of their own quantifier."""
        r, notes = self.r, [None] * len(names)
        if r.random() * 100 < self.annotations:
            must, fuel = r.randrange(len(names)), self.fuel
            for j in range(len(names)):
                if j == must or r.random() < 0.4:
                    self.fuel = r.choice([0, 0, 0, 1, 2, 4])
                    own_name = not self.indices and r.random() < 0.4
                    notes[j] = node(1, r.choice(names)) if own_name else self.expr(scope)
            self.fuel = fuel
        return quantifier(op, own, list(zip(names, notes)), *make(scope + names))

    # ----- forms
    def leaf(self, scope):
        r, x = self.r, self.r.random()
        if x < 0.85:
            if self.indices and scope and r.random() < 0.75:
                return node(2, r.choice([r.randrange(len(scope)), 0, len(scope) - 1]))
            return node(1, r.choice(self.vocabulary) if self.indices else self.name(scope))
        if x < 0.95:
            return node(3, r.choice([0, 1, 2, 4, 5, 4294967295]))
        return node(r.randrange(401, 413)) if x < 0.99 else node(4, 0)

    def expr(self, scope):
        r = self.r
        if self.fuel <= 0 or r.random() < 0.3:
            return self.leaf(scope)
        self.fuel -= 1
        x = r.random()
        several = lambda n: [self.expr(scope) for _ in range(n)]
        if x < 0.3:
            return node(r.choice(BINARY + [6, 6]), *several(2))
        if x < 0.45:
            n = r.choice([2, 2, 3])
            return node(r.randrange(301, 308), n, *several(n))
        if x < 0.55:
            return node(r.choice(UNARY), *several(1))
        if x < 0.65:
            n = r.randrange(4)
            return node(4, n, *several(n))
        if x < 0.75:
            return node(5, self.pred(scope))
        return self.quantified(r.choice([801, 802, 803]), [r.randrange(4)], self.declare(self.count(), scope), scope, lambda s: [self.pred(s), self.expr(s)])

    def pred_leaf(self, scope):
        r, x = self.r, self.r.random()
        if x < 0.55:
            return node(r.choice(RELATIONAL), self.leaf(scope), self.leaf(scope))
        name = r.choice(self.vocabulary) if self.indices else self.name(scope)
        if x < 0.75:
            return node(7, name)
        if x < 0.82:
            return node(r.choice([610, 611]))
        n = r.randrange(3)
        return node(11, name, n, *[self.leaf(scope) for _ in range(n)])

    def pred(self, scope):
        r = self.r
        if self.fuel <= 0 or r.random() < 0.15:
            return self.pred_leaf(scope)
        self.fuel -= 1
        x = r.random()
        if x < 0.2:
            return node(r.choice(RELATIONAL), self.expr(scope), self.expr(scope))
        if x < 0.28:
            return node(8, self.pred(scope))
        if x < 0.38:
            return node(r.choice([251, 252]), self.pred(scope), self.pred(scope))
        if x < 0.55:
            n = r.choice([2, 2, 3, 4])
            return node(r.choice([351, 352]), n, *[self.pred(scope) for _ in range(n)])
        if x < 0.6:
            return node(9, self.expr(scope))
        if x < 0.65:
            n = r.choice([1, 2, 3])
            return node(10, n, *[self.expr(scope) for _ in range(n)])
        return self.quantified(r.choice([851, 852]), [], self.declare(self.count(), scope), scope, lambda s: [self.pred(s)])

    def form(self, fuel=14):
        self.fuel = self.r.randrange(1, fuel + 1)
        return self.pred([]) if self.r.random() < 0.65 else self.expr([])

    # ----- forms of one kind
    def equal(self):
        """Quantifiers of up to 32 equal names round one another."""
        n, m = self.r.choice([2, 3, 31, 32]), self.r.choice([1, 2, 32])
        same = self.r.choice(self.vocabulary)
        self.fuel = self.r.randrange(6)
        inner = lambda s: [self.quantified(852, [], [self.r.choice([same, same, 4])] * m, s, lambda s: [self.pred(s)])]
        return self.quantified(851, [], [same] * n, [], inner if self.r.random() < 0.6 else lambda s: [self.pred(s)])

    def siblings(self):
        """A name that is bound in one child and free, or bound further outside, in the next."""
        r, name = self.r, self.r.choice(self.vocabulary)
        self.fuel = r.randrange(5)
        once = lambda s: self.quantified(r.choice([851, 852]), [], [name] * r.choice([1, 1, 2]), s, lambda s: [self.pred(s)])
        use = lambda s: r.choice([node(9, node(1, name)), node(101, node(1, name), self.leaf(s)), node(11, name, 1, node(1, name))])
        both = lambda s: node(351, 3, *r.sample([once(s), use(s), node(9, self.quantified(803, [0], [name], s, lambda s: [use(s), node(1, name)]))], 3))
        return both([]) if r.random() < 0.5 else self.quantified(852, [], self.declare(2, []) + [name] * r.randrange(2), [], lambda s: [both(s)])

    def chain(self, levels, scope, binders, few):
        """A predicate so many levels deep, most of which bind; few of a binder's names at most."""
        r = self.r
        if levels <= 2:
            return node(r.choice(RELATIONAL), self.leaf(scope), self.leaf(scope))
        x = r.random()
        if x < binders:
            names = self.declare(r.randrange(1, few + 1), scope)
            if levels > 4 and r.random() < 0.2:
                return node(9, self.quantified(803, [0], names, scope, lambda s: [self.chain(levels - 2, s, binders, few), self.leaf(s)]))
            return self.quantified(r.choice([851, 852]), [], names, scope, lambda s: [self.chain(levels - 1, s, binders, few)])
        self.fuel = 0
        if x < binders + 0.1:
            return node(251, self.chain(levels - 1, scope, binders, few), self.pred_leaf(scope))
        return node(8, self.chain(levels - 1, scope, binders, few))

    def deep(self):
        return self.chain(self.r.choice([30, 50, 60, 62, 63, 63, 64, 64, 64, 65, 66]), [], self.r.choice([0.5, 0.8, 0.95]), self.r.choice([1, 2, 4]))

    def wide(self):
        """Up to 1,952 open declarations, most of them with names of their own, and occurrences of all of them."""
        r = self.r
        levels, few = r.choice([(61, 32), (61, 32), (60, 31), (40, 32), (20, 32), (61, 8)])
        pool = r.sample(range(65536), levels * few)
        x, some = r.random(), r.choice([16, 500])
        if x < 0.3:
            pool = [r.choice(pool[:some]) for _ in pool]
        elif x < 0.5:
            pool = [r.randrange(256) * 256 + 7 for _ in pool]
        most = r.choice([20, 200, 1500])

        def at(level, scope):
            if level == levels:
                leaves = [node(1, r.choice(scope)) if r.random() < 0.95 else node(1, r.randrange(65536)) for _ in range(most)]
                return node(10, most, *leaves)
            names = pool[level * few:(level + 1) * few]
            return self.quantified(r.choice([851, 852]), [], names, scope, lambda s: [at(level + 1, s)])

        noted, self.annotations = self.annotations, r.choice([0, 0, 2])
        self.fuel = 0
        f = at(0, [])
        self.annotations = noted
        return f

    def long(self, words):
        """A predicate of exactly so many words: quantifiers round one another, and many small children inside them."""
        r, heads, left = self.r, [], words - 2
        for _ in range(r.choice([1, 1, 2, 20, 60])):
            names = self.declare(r.choice([1, 2, 5, 32]), [n for head in heads for n in head])
            if left - len(names) - 2 < words // 4 + 1:
                break
            heads.append(names)
            left -= len(names) + 2
        names, leaves = [n for head in heads for n in head], []
        while left:
            leaf = node(1, r.choice(names + self.vocabulary)) if left > 1 and r.random() < 0.95 else node(401)
            leaves.append(leaf)
            left -= len(leaf)
        f = node(10, len(leaves), *leaves)
        for names in reversed(heads):
            f = node(r.choice([851, 852]), len(names), *names, f)
        return f


def nodes(tree):
    """Every node of a tree, with the list in which it stands and its place there."""
    for i, x in enumerate(tree):
        if isinstance(x, list):
            yield tree, i
            yield from nodes(x)


def expressions(tree):
    """The places of expressions: those nodes whose tag is an expression's."""
    return [(inside, i) for inside, i in nodes(tree) if inside[i] and inside[i][0] in cases.SHAPES["E"]]


def copied(tree):
    return [copied(x) if isinstance(x, list) else x for x in tree]


def with_index(r, tree):
    """The form with a tag 2 where an expression stands: an annotation, a child, or the whole form."""
    whole = [copied(tree)]
    places = expressions(whole)
    for inside, i in r.sample(places, min(len(places), r.choice([1, 1, 1, 2, 3]))):
        inside[i] = node(2, r.choice([0, 0, 1, 2, 7, 65535, 65536]))
    return whole[0]


def damaged(r, tree):
    """The form with a word changed, taken out or put in."""
    whole = [copied(tree)]
    inside, i = r.choice(list(nodes(whole)))
    row = inside[i]
    at = r.randrange(len(row)) if r.random() < 0.7 else 0
    word = r.choice([0, 1, 2, 2, 2, 3, 4, 5, 31, 32, 33, 65535, 65536, 2 ** 32 - 1, 401, 610, 803, 851, 862, 873, 999])
    what = r.randrange(5)
    if what == 0:
        row.insert(at, word)
    elif what == 1:
        del row[at]
    elif what == 2 or isinstance(row[at], list):
        row[at] = word
    elif what == 3:
        row[at] = max(0, row[at] + r.choice([-1, 1]))
    else:
        del row[at:]
    return whole[0]


def misbracketed(r, tree):
    """The same words in other brackets."""
    whole = [copied(tree)]
    inside, i = r.choice(list(nodes(whole)))
    what, row = r.randrange(4), inside[i]
    if what == 0 and inside is not whole:
        inside[i:i + 1] = row
    elif what == 1:
        at = r.randrange(len(row))
        row[at] = [row[at]]
    elif what == 2:
        a = r.randrange(len(row))
        b = r.randrange(a, len(row)) + 1
        row[a:b] = [row[a:b]]
    else:
        row.insert(r.randrange(len(row) + 1), [])
    return whole[0]


def misspelled(r, line):
    x = r.random()
    if x < 0.2:
        return r.choice(["[named]", "[named ]", "[named [1 4] [1 4]]", "[named 0 [1 4]]", "[named [] [1 4]]", "[Named [1 4]]", "[names [1 4]]", "[name [1 4]]", "[namedd [1 4]]",
                         "named [1 4]", "[named [1 4]", "[named [1 4]]]", "[named [1 04]]", "[named [01 4]]", "[named [1  4]]", "[named  [1 4]]", "[named [ 1 4]]", "[named [1 4 ]]",
                         "[named [1 -4]]", "[named [1 4]] ", " [named [1 4]]", "[named [1 4294967296]]", "[named [1 4294967295]]", "[named 1]", "[named [1\t4]]", "[[named [1 4]]]"])
    at = r.randrange(len(line))
    return line[:at] + r.choice(["", r.choice(BYTES), line[at] + r.choice(BYTES)]) + line[at + 1:]


# the kinds of lines, and how often they come in 1,000
KINDS = [("form", 330), ("large form", 60), ("equal names", 60), ("siblings", 80), ("deep", 50), ("the word 2", 80), ("tag 2", 120), ("damaged", 90), ("flat", 30), ("late 8", 40),
         ("misspelled", 36), ("wide", 5), ("wide, tag 2", 1), ("powers of 2", 20), ("8192 words", 10), ("over 8192 words", 3), ("long line", 5)]


def line(r, kind):
    """A line of the kind."""
    g = Names(r, r.choice([0, 0, 30, 60, 100]), (1, 2, 3) if kind == "the word 2" else r.choice(vocabularies))
    say = lambda tree: "[named %s]" % show(tree)
    if kind in ("form", "the word 2"):
        return say(g.form())
    if kind == "large form":
        return say(g.form(r.choice([40, 200])))
    if kind == "equal names":
        return say(g.equal())
    if kind == "siblings":
        return say(g.siblings())
    if kind == "deep":
        f = g.deep()
        return say(with_index(r, f) if r.random() < 0.15 else f)
    if kind == "tag 2":
        f = r.choice([g.form, g.form, g.equal, g.siblings])()
        return say(with_index(r, f)) if r.random() < 0.85 else say(misbracketed(r, with_index(r, f)))
    if kind == "damaged":
        return say(damaged(r, g.form()))
    if kind == "flat":
        return "[named [%s]]" % show(damaged(r, g.form()) if r.random() < 0.5 else g.form()).replace("[", "").replace("]", "")
    if kind == "late 8":
        return say(misbracketed(r, g.form()))
    if kind == "misspelled":
        return misspelled(r, say(g.form(6)))
    if kind.startswith("wide"):
        f = g.wide()
        return say(with_index(r, f) if kind == "wide, tag 2" else f)
    if kind == "powers of 2":
        # rows of about so many words, where a program may choose another table
        return say(g.long(r.choice([32, 64, 64, 128, 256, 512, 512, 1024, 2048, 2048, 4096]) + r.choice([-1, 0, 0, 1, 1, 2])))
    if kind == "8192 words":
        f = g.long(r.choice([8190, 8191, 8192]))
        return say(with_index(r, f) if r.random() < 0.3 else damaged(r, f) if r.random() < 0.3 else f)
    if kind == "over 8192 words":
        return say(g.long(r.choice([8193, 8194, 9000])))
    # a line at 65,535 bytes: a set of literals that is too long for a row
    length = r.choice([65534, 65535, 65536])
    body = " ".join(["[3 4294967295]"] * 4000 + ["[3 1]"] * 100)
    text = "[named [4 5000 %s" % body
    return text + " 1" * ((length - len(text) - 2) // 2) + ("0" if (length - len(text)) % 2 else "") + "]]"


def lines(seed, count):
    """So many lines, each with its kind."""
    names, weights = zip(*KINDS)
    for i in range(count):
        r = random.Random("named/%s/%d" % (seed, i))
        kind = r.choices(names, weights)[0]
        yield kind, line(r, kind)


# ----- what occurs in a line that is answered


def traits(f, met, scope=(), quantifiers=()):
    """Notes what the form shows: the scope has, for each open declaration, its name and the number of its quantifier."""
    t, own, decls, kids = f
    names = [n for n, _ in scope]
    if t == 1:
        bearers = [q for n, q in scope if n == own[0]]
        met["bound" if bearers else "free"] += 1
        met["of two equal names in one quantifier, the last"] += len(bearers) > 1 and bearers[-1] == bearers[-2]
        met["of two quantifiers with the name, the inner"] += len(set(bearers)) > 1
        met["free, and declared elsewhere in the form"] += not bearers and own[0] in quantifiers
        met["under 1,000 open declarations and more"] += len(scope) >= 1000
        met["under 1,900 open declarations and more"] += len(scope) >= 1900
    if t in (7, 11):
        met["a name of 7 or 11 that is declared"] += own[0] in names
    if decls:
        mine = {n for n, _ in decls}
        met["32 equal names"] += len(decls) == 32 and len(mine) == 1
        for note in (note for _, note in decls if note):
            used = set(names_in(note))
            met["an annotation with a name of its own quantifier"] += bool(used & mine)
            met["an annotation with a name of an outer quantifier"] += bool(used & set(names))
            traits(note, met, scope, quantifiers)
        serial = len(scope) and scope[-1][1] + 1
        scope = scope + tuple((n, serial) for n, _ in decls)
    for k in kids:
        traits(k, met, scope, quantifiers)


def names_in(f):
    t, own, decls, kids = f
    return (own if t == 1 else []) + [n for _, note in decls if note for n in names_in(note)] + [n for k in kids for n in names_in(k)]


def declared_in(f):
    _, _, decls, kids = f
    return [n for n, _ in decls] + [n for _, note in decls if note for n in declared_in(note)] + [n for k in kids for n in declared_in(k)]


def deepness(f):
    return 1 + max([deepness(x) for x in [note for _, note in f[2] if note] + f[3]], default=0)


def shown(text):
    """What an answered line shows, each trait once. The answer to a line of ordinary length must be what bind gives."""
    f = cases.form(model.flat(model.group(text[len("[named "):-1], 0)[0]), "N")
    met = collections.Counter()
    if len(text) < 4000:
        assert by_bind(f) == cases.named(f), text
        met["as by bind"] = 1
    traits(f, met, (), set(declared_in(f)))
    met["64 deep"] = deepness(f) == 64
    met["8,192 words"] = len(cases.write(f)) == cases.WORDS
    return [t for t, n in met.items() if n]


# ----- the same by bind


def by_bind(f):
    """The names of each quantifier bound in its children, from the inside outwards, by bind, whose answers are the Rust's (docs/COMPARISON.md). Of
    equal names the last counts; for the others stands what is no name."""
    _, _, decls, _ = f
    names = [name for name, _ in decls]
    last = [name if name not in names[j + 1:] else -1 - j for j, name in enumerate(names)]
    return (f[0], f[1], cases.noted(decls, by_bind), [cases.bind(by_bind(k), last) for k in f[3]])


# ----- there and back


def written(f, numbers, scope=()):
    """The form with a number of its own for each declaration, by indices and by names: index i is the name of the (i + 1)-th declaration from the
    inside."""
    t, own, decls, kids = f
    if t == 2:
        return f, (1, [scope[-1 - own[0]]], [], [])
    notes = [note and written(note, numbers, scope) for _, note in decls]
    fresh = [next(numbers) for _ in decls]
    both = [written(k, numbers, scope + tuple(fresh)) for k in kids]
    return tuple((t, own, [(n, note and note[way]) for n, note in zip(fresh, notes)], [k[way] for k in both]) for way in (0, 1))


def there_and_back(seed, count):
    """Lines with names, and the forms that they must become."""
    for i in range(count):
        r = random.Random("back/%s/%d" % (seed, i))
        g = Names(r, r.choice([0, 0, 30, 60, 100]), indices=True)
        tree = g.deep() if r.random() < 0.05 else g.form(r.choice([6, 14, 14, 40]))
        try:
            f = cases.form(model.flat(tree))
        except cases.No:
            continue        # deeper than 64
        assert not cases.dangling(f)
        taken = set(names_in(f))
        numbers = iter([n for n in r.sample(range(65536), 4000) if n not in taken])
        with_indices, with_names = written(f, numbers)
        yield "[named %s]" % model.spelled(model.nested(with_names)), model.spelled(model.nested(with_indices))


# ----- the comparison


def ask(program, texts):
    said = subprocess.run(program, input="".join(t + "\n" for t in texts).encode(), stdout=subprocess.PIPE, check=True).stdout.decode().split("\n")[:-1]
    if len(said) != len(texts):
        sys.exit("%s: %d answers to %d lines" % (program[0], len(said), len(texts)))
    return said


def batches(items):
    some = []
    for x in items:
        some.append(x)
        if len(some) == BATCH:
            yield some
            some = []
    if some:
        yield some


def differs(text, want, got):
    print("line    %s\n model   %s\n program %s" % tuple(x if len(x) < 2000 else x[:2000] + " .." for x in (text, want, got)))


def compare(seed, count, program):
    tally, met, bad = collections.Counter(), collections.Counter(), 0
    for some in batches(lines(seed, count)):
        for (kind, text), got in zip(some, ask(program, [text for _, text in some])):
            want = model.answer(text)
            # a result outside the limits cannot arise
            good = got == want and want != "[no 7]"
            tally[kind, " ".join(want[1:-1].split()[:2]) if want.startswith("[no ") else "form"] += 1
            if not want.startswith("[no "):
                met.update(shown(text))
            if not good:
                bad += 1
                if bad <= 10:
                    differs(text, want, got)
    for key in sorted(tally):
        print("%-16s %-6s %d" % (key + (tally[key],)))
    for trait in sorted(met):
        print("%7d  %s" % (met[trait], trait))
    total = collections.Counter()
    for (_, outcome), n in tally.items():
        total[outcome] += n
    print("%d lines: %s; %d differences" % (count, ", ".join("%d %s" % (n, o) for o, n in sorted(total.items())), bad))
    return bad


def compare_back(seed, count, program):
    made, bad, words = 0, 0, 0
    for some in batches(there_and_back(seed, count)):
        for (text, want), got in zip(some, ask(program, [text for text, _ in some])):
            made += 1
            words += len(model.flat(model.group(want, 0)[0]))
            if got != want or model.answer(text) != want:
                bad += 1
                if bad <= 10:
                    differs(text, want, got)
    print("there and back: %d forms of %d words in all; %d differences" % (made, words, bad))
    return bad


def main():
    a = argparse.ArgumentParser()
    a.add_argument("--seed", default="1")
    a.add_argument("--count", type=int, default=2000)
    a.add_argument("--back", type=int, default=1000)
    a.add_argument("--shared", action="store_true")
    a.add_argument("--lines", action="store_true")
    a.add_argument("program", nargs="*")
    o = a.parse_args()
    if o.shared:
        vocabularies[:] = SHARED
    if o.lines:
        for _, text in lines(o.seed, o.count):
            print(text)
        return
    if not o.program:
        sys.exit(__doc__)
    bad = compare(o.seed, o.count, o.program) + compare_back(o.seed, o.back, o.program)
    sys.exit(1 if bad else 0)


if __name__ == "__main__":
    main()
