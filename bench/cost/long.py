#!/usr/bin/env python3
"""montre over 10^7 segments, at the end and online: one markdown table, and whether all is right.

    python3 bench/cost/long.py PATH_OF_MONTRE [SEGMENTS]

For Linux. Standard library alone.
"""

import os
import sys
import tempfile
from itertools import zip_longest

from measure import adopt_orphans, cell, print_head, print_row, run_once

SEGMENTS = 10**7
NAMES = [" p", " q", " r", ""]  # one segment after the other
RUNS = [([], "p"), ([], "p;q;r"), (["--online"], "p")]


def length_of(place):
    return 1 + place % 3


def lines_of(segments):
    return ("%d%s\n" % (length_of(place), NAMES[place % 4]) for place in range(segments))


def zone_of(pattern, place, start):
    """The line of the only zone that starts in this segment: p's, or that of p, q and r."""
    first, second, third = (length_of(place + more) for more in range(3))
    if pattern == "p":
        return "[%d,%d) (%d,%d] (0,%d]\n" % (start, start + first, start, start + first, first)
    early, late = first + second, first + second + third
    return "[%d,%d) (%d,%d] (%d,%d]\n" % (start, start + first, start + early, start + late,
                                          second, late)


def wanted_lines(options, pattern, segments):
    start = 0
    for place in range(segments):
        if place % 4 == 0 and (pattern == "p" or place + 2 < segments):
            yield zone_of(pattern, place, start)
        start += length_of(place)
        if options:
            yield "at %d\n" % start
    yield "end %d\n" % start


def is_right(output, options, pattern, segments):
    with open(output, encoding="ascii") as file:
        return all(found == wanted for found, wanted
                   in zip_longest(file, wanted_lines(options, pattern, segments)))


def main():
    if len(sys.argv) not in (2, 3):
        sys.exit("usage: python3 bench/cost/long.py PATH_OF_MONTRE [SEGMENTS]")
    montre = os.path.abspath(sys.argv[1])
    segments = int(sys.argv[2]) if len(sys.argv) == 3 else SEGMENTS
    adopt_orphans()
    wrong = 0
    with tempfile.TemporaryDirectory() as folder:
        trace, output = os.path.join(folder, "trace"), os.path.join(folder, "output")
        with open(trace, "w", encoding="ascii") as file:
            file.writelines(lines_of(segments))
        print_head(["pattern", "segments", "seconds", "in the system", "MB", "MB printed"])
        for options, pattern in RUNS:
            status, usage = run_once([montre, *options, pattern], trace, output)
            print_row([cell(" ".join([*options, pattern])), str(segments),
                       "%.2f" % (usage.ru_utime + usage.ru_stime), "%.2f" % usage.ru_stime,
                       "%.1f" % (usage.ru_maxrss / 1024),
                       "%.1f" % (os.path.getsize(output) / 2**20)])
            if status != 0 or not is_right(output, options, pattern, segments):
                wrong += 1
                print("wrong: %s %s: status %d" % (options, pattern, status))
    print("%d runs, %d wrong" % (len(RUNS), wrong))
    sys.exit(1 if wrong else 0)


if __name__ == "__main__":
    main()
