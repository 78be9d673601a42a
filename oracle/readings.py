#!/usr/bin/env python3
"""Whether one point keeps the truth, tried in random finite readings.

  readings.py [--seed S] [--count N] [--readings R] [--annotations P] [--fuel F] -- PROGRAM ARG..

Random point lines go to the program. Each form that it answers is read, together with its answer, in R readings: names and dangling indices
have numbers, declared names finite ranges (some of them empty), 101 is equality, 201 is one-to-one, connectives and quantifiers have their usual
truth, and every other tag is an arbitrary function of its tag, own words, declared names and children's values, a comprehension of the list of
(truth, value) over all choices. Annotations are ignored. Where the replacement's value lies in its target's range, under every choice for the
declarations before it, both must have the same truth. The taken equality is the one that the model of crates/cases takes. Exit 1 on any
difference.
"""
import argparse
import collections
import itertools
import random
import subprocess
import sys

import gen
import model
from model import cases

sys.setrecursionlimit(10000)
VALUES = (0, 1, 2)
MOST = 20000        # nodes that are read for one form in one reading


class TooLong(Exception):
    pass


class Reading:
    def __init__(self, seed):
        self.seed, self.left = seed, MOST

    def some(self, *what):
        """An arbitrary function of numbers: one of VALUES."""
        return VALUES[hash((self.seed,) + what) // 7 % len(VALUES)]

    def range(self, name):
        """Mostly all values, in some order; at times one of them twice, or not there, or none at all."""
        r = random.Random(hash((self.seed, 5, name)))
        values = list(VALUES)
        r.shuffle(values)
        kind = r.random()
        return values if kind < 0.7 else values + values[:1] if kind < 0.8 else values[1:] if kind < 0.95 else []

    def pair(self, a, b):
        """One-to-one: the numbers of both parts, put together by their digits in base two."""
        a, b = (2 * x if x >= 0 else -2 * x - 1 for x in (a, b))
        return sum((a >> i & 1) << 2 * i | (b >> i & 1) << 2 * i + 1 for i in range(max(a, b).bit_length()))

    def choices(self, decls, env):
        """The values of all indices under every choice for the declarations, the last of which is index 0."""
        for chosen in itertools.product(*[self.range(name) for name, _ in decls]):
            yield chosen[::-1] + env

    def value(self, f, env):
        """The number of an expression, the truth of a predicate; env has the values of the indices that are bound, from 0."""
        self.left -= 1
        if self.left < 0:
            raise TooLong
        t, own, decls, kids = f
        if t == 1:
            return self.some(1, own[0])
        if t == 2:
            i = own[0]
            return env[i] if i < len(env) else self.some(2, i - len(env))
        if decls:
            values = ([self.value(k, e) for k in kids] for e in self.choices(decls, env))
            if t == 851:
                return all(v for v, in values)
            if t == 852:
                return any(v for v, in values)
            return self.some(t, *own, -1, *[name for name, _ in decls], -2, *[x for truth, v in values for x in (bool(truth), v)])
        if t in (610, 611):
            return t == 610
        vs = [self.value(k, env) for k in kids]
        if t == 8:
            return not vs[0]
        if t == 251:
            return not vs[0] or vs[1]
        if t == 252:
            return vs[0] == vs[1]
        if t in (351, 352):
            return all(vs) if t == 351 else any(vs)
        if t == 101:
            return vs[0] == vs[1]
        if t == 201:
            return self.pair(*vs)
        said = self.some(t, *own, -1, *vs)
        return said > 0 if 7 <= t <= 11 or 102 <= t <= 112 else said

    def truth(self, f):
        self.left = MOST
        return bool(self.value(f, ()))

    def premise(self, f):
        """The value of the replacement lies in its target's range, under every choice for the declarations before the target."""
        op, _, decls, (body,) = f
        n = len(decls)
        _, (i, e) = cases.scan(body, op == 852, n)
        self.left = MOST
        # the target and what follows it do not occur in the replacement
        return all(self.value(e, (0,) * (i + 1) + env) in self.range(decls[n - 1 - i][0]) for env in self.choices(decls[:n - 1 - i], ()))


def main():
    a = argparse.ArgumentParser()
    a.add_argument("--seed", default="1")
    a.add_argument("--count", type=int, default=4000)
    a.add_argument("--readings", type=int, default=12)
    a.add_argument("--annotations", type=int, default=60)
    a.add_argument("--fuel", type=int, default=8)
    a.add_argument("program", nargs="+")
    o = a.parse_args()
    lines = list(gen.lines("readings %s" % o.seed, o.count, ["point"], o.fuel, empty_sets=True, odd_forms=True, annotations=o.annotations))
    said = subprocess.run(o.program, input="".join(l + "\n" for l in lines), stdout=subprocess.PIPE, text=True, check=True).stdout.splitlines()
    assert len(said) == len(lines), (len(said), len(lines))
    tally, bad = collections.Counter(), 0
    for k, (line, answer) in enumerate(zip(lines, said)):
        if answer.startswith("[no") or not answer.startswith("[") or not answer[1:2].isdigit():
            tally["refused lines"] += 1
            continue
        f, g = (cases.form(model.flat(model.group(text, 0)[0]), "P") for text in (line[len("[point "):-1], answer))
        tally["answered lines"] += 1
        tally["answered lines with annotations"] += any(t in line for t in ("[861 ", "[862 ", "[871 ", "[872 ", "[873 "))
        for r in range(o.readings):
            reading = Reading(hash((7, k, r)))
            try:
                holds = reading.premise(f)
                before, after = reading.truth(f), reading.truth(g)
            except TooLong:
                tally["readings too long"] += 1
                continue
            if holds:
                tally["readings with the premise, %s" % ("true" if before else "false")] += 1
                if before != after:
                    bad += 1
                    if bad <= 10:
                        print("line    %s\n answer %s\n was %s, is %s, reading %d" % (line, answer, before, after, r))
            else:
                tally["readings without the premise"] += 1
                tally["of these another truth"] += before != after
    for key in sorted(tally):
        print("%-40s %d" % (key, tally[key]))
    print("%-40s %d" % ("DIFFERENT", bad))
    sys.exit(1 if bad else 0)


if __name__ == "__main__":
    main()
