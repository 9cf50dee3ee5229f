#!/usr/bin/env python3
"""How time and memory of montre grow with the trace: one markdown table.

    python3 bench/cost/growth.py PATH_OF_MONTRE [MOST_SEGMENTS]

For Linux. Standard library alone.
"""

import os
import sys
import tempfile
from statistics import median

from measure import adopt_orphans, cell, count_lines, measure_by_turns, print_head, print_row, ratio

SIZES = [10**4, 10**5, 10**6]
PATTERNS = [
    "p",
    "p;q",
    "<:p:>",
    "<:p:> % [2,10]",
    "p;q;r",
    "<:req:> ; (!ack % [1,4]) ; rise(ack)",
    "(rise(p);true;fall(q)) % [0,20]",
    "q;((rise(p);true;fall(q)) % [0,26])",
    "((rise(p);true;fall(q)) % [0,26]) & ((<:p;true;q) % [0,26])",
    "((p % [1,2]);(q % [1,2]))+ % [5,20]",
    "(p % [1,1])*",
    "(p;q)*",
]

# What is true on the segments, in turn. p and q take turns, with gaps between,
# so that no chain of them is long; a request is answered after two gaps.
TURNS = ["p", "q", "p", "q", "r", "", "p req", "q req", "", "", "ack", "p", "q",
         "p", "q", ""]


def segment(place):
    names = TURNS[place % len(TURNS)]
    return ("%d %s" % (1 + place % 3, names)).rstrip() + "\n"


def write_trace(folder, size):
    path = os.path.join(folder, "trace%d" % size)
    if not os.path.exists(path):
        with open(path, "w") as file:
            file.writelines(segment(place) for place in range(size))
    return path


def turns_of(montre, folder, sizes, patterns):
    """The turns of each pattern at each size, and where the last output is. So many runs are one
    turn that all sizes take as long, and none is told by a moment in which the machine is fast."""
    keys = [(pattern, size) for size in sizes for pattern in patterns]
    outputs = [os.path.join(folder, "output%d" % place) for place in range(len(keys))]
    jobs = [([montre, pattern], write_trace(folder, size), output, sizes[-1] // size)
            for (pattern, size), output in zip(keys, outputs)]
    return dict(zip(keys, zip(measure_by_turns(jobs), outputs)))


def middle_ratio(runs, others, scale=1):
    """The middle of the ratios of two jobs, turn by turn."""
    return median(run.seconds / (scale * other.seconds) for run, other in zip(runs, others))


def print_rows(montre, folder, sizes, pattern):
    """A row for each size, beside `p` by turns."""
    turns = turns_of(montre, folder, sizes, sorted({PATTERNS[0], pattern}))
    before = None
    for size in sizes:
        runs, output = turns[pattern, size]
        if runs[-1].stopped is not None:
            print_row([cell(pattern), str(size), "-", runs[-1].stopped] + ["-"] * 6)
            return
        zones = count_lines(output) - 1
        seconds = median(run.seconds for run in runs)
        peak = min(run.peak for run in runs)
        growth = "%.3g" % middle_ratio(runs, before[0], size / before[1]) if before else "-"
        print_row([cell(pattern), str(size), str(zones), "%.4f" % seconds,
                   "%.3g" % middle_ratio(runs, turns[PATTERNS[0], size][0]), growth,
                   "%.1f" % (peak / 1024), "%d" % (peak * 1024 / size),
                   ratio(peak * 1024, zones), ratio(1e6 * seconds, zones)])
        before = runs, size


def main():
    if len(sys.argv) not in (2, 3):
        sys.exit("usage: python3 bench/cost/growth.py PATH_OF_MONTRE [MOST_SEGMENTS]")
    montre = os.path.abspath(sys.argv[1])
    most = int(sys.argv[2]) if len(sys.argv) == 3 else SIZES[-1]
    adopt_orphans()
    with tempfile.TemporaryDirectory() as folder:
        print_head(["pattern", "segments", "zones", "seconds", "times `p`",
                    "growth", "MB", "bytes a segment", "bytes a zone",
                    "microseconds a zone"])
        for pattern in PATTERNS:
            print_rows(montre, folder, [size for size in SIZES if size <= most],
                       pattern)


if __name__ == "__main__":
    main()
