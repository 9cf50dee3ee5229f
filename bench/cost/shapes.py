#!/usr/bin/env python3
"""What matching takes over traces of several shapes: one markdown table.

    python3 bench/cost/shapes.py PATH_OF_MONTRE [PATH_OF_ANOTHER]

Instructions over 30,000 segments, by valgrind, and the peak of memory over 10^6, in MB. With
another program the ratio to its instructions, and its peak. For Linux, with valgrind.
"""

import os
import random
import sys
import tempfile

from instructions import SEGMENTS, cells
from measure import adopt_orphans, cell, print_head, print_row, run_once

LARGE = 10**6
SEED = 7936


def pulses(size):
    """p is true and false in turn, each for one to five ticks."""
    for place, byte in enumerate(random.Random(SEED).randbytes(size)):
        yield "%d%s\n" % (1 + byte % 5, "" if place % 2 else " p")


def bus(size):
    """A pause, a request, a wait, and the answer."""
    source = random.Random(SEED)
    for _ in range(0, size, 4):
        bits = source.getrandbits(24)
        yield "%d\n%d req\n%d\n%d ack\n" % (1 + bits % 9, 1 + (bits >> 4) % 3,
                                            1 + (bits >> 8) % 6, 1 + (bits >> 12) % 2)


def walks(size):
    """One of four signals changes where a segment begins."""
    bits = random.Random(SEED).randbytes(2 * size)
    value = 0
    for place in range(size):
        value ^= 1 << bits[2 * place] % 4
        names = "".join(" " + name for i, name in enumerate("pqrs") if value >> i & 1)
        yield "%d%s\n" % (1 + bits[2 * place + 1] % 7, names)


def dump(size):
    """A dump of two signals, of which one changes at each time."""
    source = random.Random(SEED)
    yield "$var wire 1 ! p $end\n$var wire 1 \" q $end\n$enddefinitions $end\n"
    values, time = [0, 0], 0
    for _ in range(size):
        which = source.randrange(2)
        values[which] ^= 1
        yield "#%d\n%d%s\n" % (time, values[which], "!\""[which])
        time += 1 + source.randrange(7)
    yield "#%d\n" % time


ROWS = [
    (pulses, "p"),
    (pulses, "<:p:>"),
    (pulses, "<:p:> % [2,10]"),
    (bus, "<:req:> ; (!ack % [1,4]) ; rise(ack)"),
    (walks, "p;q;r"),
    (walks, "({p && !q};(r % [1,5])) | ((s % [2,9]) & {p || r})"),
    (walks, "(rise(p);true;fall(q)) % [0,20]"),
    (dump, "p"),
]


def written(folder, shape, size):
    path = os.path.join(folder, "%s%d" % (shape.__name__, size))
    if not os.path.exists(path):
        with open(path, "w") as file:
            file.writelines(shape(size))
    return path


def peak(words, trace):
    """The most memory that a run holds, in MB."""
    return "%.1f" % (run_once(words, trace, os.devnull)[1].ru_maxrss / 1024)


def main():
    if len(sys.argv) not in (2, 3):
        sys.exit("usage: python3 bench/cost/shapes.py PATH_OF_MONTRE [PATH_OF_ANOTHER]")
    programs = [os.path.abspath(path) for path in sys.argv[1:]]
    adopt_orphans()
    print_head(["trace", "pattern", "millions of instructions"] + ["ratio"] * (len(programs) - 1)
               + ["peak, MB"] * len(programs))
    with tempfile.TemporaryDirectory() as folder:
        for shape, pattern in ROWS:
            options = (["--format", "vcd"] if shape is dump else []) + [pattern]
            large = written(folder, shape, LARGE)
            print_row([shape.__name__, cell(pattern)]
                      + cells(programs, options, written(folder, shape, SEGMENTS))[1]
                      + [peak([program] + options, large) for program in programs])


if __name__ == "__main__":
    main()
