#!/usr/bin/env python3
"""Patterns of which one part matches far more than the whole can use, and patterns with open parts:
two markdown tables.

    python3 bench/cost/cliffs.py PATH_OF_MONTRE

Each is run over a short and a long trace, and its instructions are counted. For Linux, with
valgrind.
"""

import os
import sys
import tempfile

from instructions import instructions
from measure import adopt_orphans, cell, measure, print_head, print_row, ratio

SHORT, LONG = 1000, 10000


def turns(size):
    """p and q in turn, a tick each."""
    return "1 p\n1 q\n" * (size // 2)


def clock(size):
    """p at every other tick."""
    return "1 p\n1\n" * (size // 2)


def held(size):
    """p, for so many ticks."""
    return "%d p\n" % size


PAIRS = "rise(p);true;rise(p)"
ROWS = [
    ("clock", clock, ["%s & true %% [10,40]" % PAIRS]),
    ("turns", turns, ["(%s)*&(p %% [0,3])" % PAIRS]),
    ("turns", turns, ["(%s)*&eps" % PAIRS]),
    ("turns", turns, ["((rise(p);true;rise(q));(rise(q);true;rise(p)))&eps"]),
    ("turns", turns, ["(rise(p);true;rise(q)) & (true % [0,20])"]),
    ("held", held, ["(p % [1,1])*&eps"]),
    ("held", held, ["(p % [1,1])**"]),
    ("held", held, ["(p % [1,1])** & eps"]),
    ("clock", clock, ["((p % [1,1])+)+"]),
    ("turns", turns, ["--minus", PAIRS, "eps"]),
    ("turns", turns, ["--minus", "(%s)*" % PAIRS, "p"]),
]


# What may lie between, before or behind parts, for however long: where more than the answer is made,
# what it takes grows faster than its text.
OPEN = [
    ("turns", turns, "(q;true)+", 8000),
    ("turns", turns, "rise(q);true;rise(q);true", 8000),
    ("turns", turns, "q;true;q;true", 8000),
    ("turns", turns, "<:q:>;true;<:q:>;true", 8000),
    ("clock", clock, "(rise(p);true;rise(p))+", 1000),
    ("turns", turns, "((p|<:q:>)*)*", 1000),
    ("turns", turns, "p*?*?*?*?", 30000),
]


def count(montre, words, text, path):
    """How many instructions the run takes over this trace."""
    with open(path, "w") as file:
        file.write(text)
    return instructions([montre] + words, path)


def narrowed(montre, folder):
    """The first table."""
    path = os.path.join(folder, "trace")
    print_head(["arguments", "trace", "millions of instructions", "growth"])
    for name, trace, words in ROWS:
        few = count(montre, words, trace(SHORT), path)
        many = count(montre, words, trace(LONG), path)
        told = " ".join(word if word.startswith("--") else "'%s'" % word for word in words)
        print_row([cell(told), name, "%.1f" % (many / 1e6),
                   ratio(many, few * LONG // SHORT)])


def told_by(montre, pattern, text, folder):
    """The instructions, the bytes of the text that is written, and the peak above that of `p`."""
    path, output = os.path.join(folder, "trace"), os.path.join(folder, "output")
    taken = count(montre, [pattern], text, path)
    plain, run = (measure([montre, words], path, output) for words in ("p", pattern))
    return taken, os.path.getsize(output), run.peak - plain.peak


def opened(montre, folder):
    """The second table: growth is that of the instructions for each byte of the text, from a quarter
    of the segments on."""
    print_head(["pattern", "trace", "segments", "millions of instructions", "kB of text", "growth",
                "MB above `p`"])
    for name, trace, pattern, size in OPEN:
        few, short, _ = told_by(montre, pattern, trace(size // 4), folder)
        many, long, peak = told_by(montre, pattern, trace(size), folder)
        print_row([cell(pattern), name, str(size), "%.1f" % (many / 1e6), "%.0f" % (long / 1e3),
                   ratio(many * short, few * long), "%.1f" % (peak / 1024)])


def main():
    if len(sys.argv) != 2:
        sys.exit("usage: python3 bench/cost/cliffs.py PATH_OF_MONTRE")
    montre = os.path.abspath(sys.argv[1])
    adopt_orphans()
    with tempfile.TemporaryDirectory() as folder:
        narrowed(montre, folder)
        print()
        opened(montre, folder)


if __name__ == "__main__":
    main()
