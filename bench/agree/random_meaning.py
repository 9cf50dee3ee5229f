#!/usr/bin/env python3
"""Random patterns beside a plain slow reading of docs/meaning.md.

    python3 bench/agree/random_meaning.py PATH_OF_MONTRE [COUNT]

Each pattern has a short trace of its own, of which every other one has events, and is compared at
each pair of half ticks. Sequences, repetitions and `true` stand in most of them: an operator that is
found by another way than its own has to find the same. The patterns are the same in each run.
"""

import os
import random
import sys

from against_meaning import compare
from cases import (EPS, TRUE, a, alt, both, b, fall, forms_of, last, lit, make_trace, p, P, plus, q,
                   Q, r, rise, seq, star)
from meaning import FINE, cuts, pairs

COUNT = 2000
LEAVES = 4          # of a pattern at most: a match of more needs a finer grid than the reading has
ATOMS = [("p", p), ("q", q), ("r", r), ("true", lit(TRUE)), ("true", lit(TRUE)),
         ("rise(p)", rise(P)), ("fall(q)", fall(Q)), ("rise(q)", rise(Q)), ("eps", EPS),
         ("event(a)", a), ("event(b)", b)]
OVER = [("+", plus), ("+", plus), ("*", star), ("*", star), ("?", lambda e: alt(e, EPS))]


def between(pick, leaves):
    """Two patterns with an operator between them."""
    size = pick.randint(1, leaves - 1)
    (one, first), (other, second) = pattern(pick, size), pattern(pick, leaves - size)
    sign, tree = pick.choice([(";", seq), (";", seq), (";", seq), ("|", alt), ("&", both)])
    return "(%s)%s(%s)" % (one, sign, other), tree(first, second)


def behind(pick, spelling, tree):
    """The pattern, mostly with an operator behind it, or two."""
    for _ in range(pick.choice([0, 0, 1, 1, 2])):
        if pick.random() < 0.3:
            low = pick.randint(0, 2)
            high = low + pick.randint(0, 3)
            spelling, tree = "(%s) %% [%d,%d]" % (spelling, low, high), last(tree, low, high)
        else:
            sign, over = pick.choice(OVER)
            spelling, tree = "(%s)%s" % (spelling, sign), over(tree)
    return spelling, tree


def pattern(pick, leaves):
    """A pattern with so many atoms: its spelling and its tree."""
    if leaves == 1:
        return behind(pick, *pick.choice(ATOMS))
    return behind(pick, *between(pick, leaves))


def main():
    if len(sys.argv) not in (2, 3):
        sys.exit("usage: python3 bench/agree/random_meaning.py PATH_OF_MONTRE [COUNT]")
    montre = os.path.abspath(sys.argv[1])
    count = int(sys.argv[2]) if len(sys.argv) > 2 else COUNT
    pick, results = random.Random(1), []
    for place in range(count):
        spelling, tree = pattern(pick, pick.randint(1, LEAVES))
        trace = make_trace(pick.randint(1, 999), pick.randint(1, 5), place % 2 == 0)
        size = cuts(trace)[-1] + FINE + 1
        form = forms_of(trace, 0)[0]
        results.append(compare(montre, [spelling], form, pairs(tree, trace, size), trace, size))
    compared, matches, differ = map(sum, zip(*results))
    print("%d patterns, %d pairs, of which %d match, %d differ" % (count, compared, matches, differ))
    return 1 if differ else 0


if __name__ == "__main__":
    sys.exit(main())
