#!/usr/bin/env python3
"""What --normal and --minus take beside the same runs without them: two markdown tables.

    python3 bench/cost/strips.py PATH_OF_MONTRE [MOST_SEGMENTS]

For Linux, with valgrind.
"""

import os
import re
import subprocess
import sys
import tempfile

from growth import write_trace
from measure import adopt_orphans, cell, measure, print_head, print_row, ratio

SIZES = [10**4, 10**5]
PATTERNS = [
    "<:p:> % [2,10]",
    "(p % [1,1])*",
    "(p;q)*",
    "<:req:> ; (!ack % [1,4]) ; rise(ack)",
    "(p|q|r)*",
]
# Many zones over one start, whose bars join to few.
MANY = ("true;p;true", 20000)
# A pattern, and what is taken away from it.
DIFFERENCES = [
    ("<:p:>", "<:p:> % [0,1]"),
    ("true", "p"),
    ("p", "true"),
    ("{p || q}", "p % [0,1]"),
]


def counted(words, trace, output):
    """The instructions of a run, the zones and the bytes that it prints."""
    command = ["valgrind", "--tool=callgrind", "--callgrind-out-file=/dev/null"] + words
    with open(trace, "rb") as given, open(output, "wb") as printed:
        run = subprocess.run(command, stdin=given, stdout=printed, stderr=subprocess.PIPE, check=True)
    with open(output, "rb") as printed:
        lines = sum(1 for _ in printed)
    count = int(re.search(rb"Collected : (\d+)", run.stderr).group(1))
    return count, lines - 1, os.path.getsize(output)


def print_rows(label, words, beside, folder, sizes):
    """A row for each size of a run, and of the run beside it."""
    output, before = os.path.join(folder, "output"), None
    for size in sizes:
        trace = write_trace(folder, size)
        (count, zones, printed), (other, others, _) = (counted(run, trace, output)
                                                       for run in (words, beside))
        peak = measure(words, trace, output).peak / 1024
        growth = ratio(count / size, before) if before else "-"
        print_row([label, str(size), str(others), str(zones), "%.1f" % (count / 1e6),
                   ratio(count, other), growth, "%d" % printed, "%.1f" % peak])
        before = count / size


def main():
    if len(sys.argv) not in (2, 3):
        sys.exit("usage: python3 bench/cost/strips.py PATH_OF_MONTRE [MOST_SEGMENTS]")
    montre = os.path.abspath(sys.argv[1])
    most = int(sys.argv[2]) if len(sys.argv) == 3 else SIZES[-1]
    adopt_orphans()
    sizes = [size for size in SIZES if size <= most]
    with tempfile.TemporaryDirectory() as folder:
        print_head(["pattern", "segments", "zones", "strips' zones", "millions of instructions",
                    "times without", "growth", "bytes", "MB"])
        for pattern in PATTERNS:
            print_rows(cell(pattern), [montre, "--normal", pattern], [montre, pattern], folder, sizes)
        pattern, size = MANY
        print_rows(cell(pattern), [montre, "--normal", pattern], [montre, pattern], folder, [size])
        trace, output = write_trace(folder, size), os.path.join(folder, "output")
        normal, plain = (measure([montre] + words + [pattern], trace, output).seconds
                         for words in (["--normal"], []))
        print("\n%s: %.1f ms of processor time, %s times without\n"
              % (pattern, 1000 * normal, ratio(normal, plain)))
        print_head(["pattern less another", "segments", "zones", "zones left",
                    "millions of instructions", "times the first alone", "growth", "bytes", "MB"])
        for pattern, other in DIFFERENCES:
            print_rows("%s less %s" % (cell(pattern), cell(other)),
                       [montre, "--minus", other, pattern], [montre, pattern], folder, sizes)


if __name__ == "__main__":
    main()
