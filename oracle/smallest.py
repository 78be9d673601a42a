#!/usr/bin/env python3
"""The smallest lines on which the Rust and the model of crates/cases differ: all point and member lines over a small vocabulary, by their number
of words, after ./build.sh.

  smallest.py [WORDS]        goes up to so many words of the form (16 unless said), and prints the differences of the first number that has any

One name, indices 0 to 2, one tag of each kind that the search of one point knows, quantifiers of both operators with and without annotations.
The Rust is asked with the definitions' join (pointd, memberd).
"""
import functools
import itertools
import subprocess
import sys

import model

NAME = 4
LEAVES = [[401], [2, 0], [2, 1], [2, 2]]


def declarations(words, noted):
    """Counts and declarations of so many words, one with an annotation at least, or none with one."""
    if not noted:
        return [[n] + [NAME] * n for n in (1, 2, 3) if n + 1 == words]
    out = []
    for n in (1, 2, 3):
        for notes in itertools.product([None] + LEAVES, repeat=n):
            ds = [n] + [x for e in notes for x in ([NAME, 0] if e is None else [NAME, 1, e])]
            if any(notes) and 1 + 2 * n + sum(len(e) for e in notes if e) == words:
                out.append(ds)
    return out


@functools.lru_cache(None)
def expressions(words):
    out = [e for e in LEAVES if len(e) == words]
    if words > 2:
        out += [[201, a, b] for w in range(1, words - 1) for a in expressions(w) for b in expressions(words - 1 - w)]
    return out


@functools.lru_cache(None)
def predicates(words):
    out = [[610]] if words == 1 else []
    out += [[8, p] for p in predicates(words - 1)] if words > 1 else []
    out += [[101, a, b] for w in range(1, words - 1) for a in expressions(w) for b in expressions(words - 1 - w)]
    for head in ([251], [351, 2], [352, 2]):
        out += [head + [a, b] for w in range(1, words - len(head)) for a in predicates(w) for b in predicates(words - len(head) - w)]
    return out + [q for op in (851, 852) for q in quantified(op, words)]


def quantified(op, words, least=1):
    for noted in (False, True):
        for w in range(2, words - 1):
            for ds in declarations(w, noted):
                if ds[0] >= least:
                    for p in predicates(words - 1 - w):
                        yield [op + 10 * noted] + ds + [p]


def points(words):
    """Nothing is joined where no declaration stands before the one that is taken: two at least are declared."""
    for op in (851, 852):
        yield from quantified(op, words, 2)


def members(words):
    for e in range(1, words):
        for noted in (False, True):
            for w in range(2, words - e):
                for ds in declarations(w, noted):
                    for v in range(1, words - e - w - 3) if ds[0] > 1 else ():
                        for element, guard, value in itertools.product(expressions(e), predicates(words - e - w - 3 - v), expressions(v)):
                            yield [107, element, [873 if noted else 803, 0] + ds + [guard, value]]


def differences(command, forms):
    """The forms that are answered differently, with both answers; only forms with an annotated quantified predicate can be."""
    spelled = (model.spelled(f) for f in forms)
    lines = ("[%s %s]" % (command, text) for text in spelled if "[861 " in text or "[862 " in text)
    while True:
        some = list(itertools.islice(lines, 100000))
        if not some:
            return
        asked = "".join(l.replace(command, command + "d", 1) + "\n" for l in some)
        said = subprocess.run(["target/oracle"], input=asked, stdout=subprocess.PIPE, text=True, check=True).stdout.splitlines()
        for line, rust in zip(some, said):
            mine = model.answer(line)
            if mine != ("[no 9]" if rust == "[none]" else rust):
                yield line, rust, mine


def main():
    most = int(sys.argv[1]) if len(sys.argv) > 1 else 16
    for command, make in (("point", points), ("member", members)):
        for words in range(1, most + 1):
            found = list(differences(command, make(words)))
            print("%s, %d words: %d differences" % (command, words, len(found)), flush=True)
            for line, rust, mine in found:
                print("%s\n  Rust  %s\n  model %s" % (line, rust, mine))
            if found:
                break


if __name__ == "__main__":
    main()
