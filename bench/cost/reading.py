#!/usr/bin/env python3
"""What reading a long trace takes, beside `wc -w` on the same file: one markdown table.

    python3 bench/cost/reading.py PATH_OF_MONTRE [MEGABYTES]

For Linux. Standard library alone.
"""

import os
import sys
import tempfile

from measure import BESIDE_WORDS, adopt_orphans, count_lines, print_beside_words, print_head

MEGABYTES = 100
PATTERN = "bus.valid"
MANY = (6, 64)  # names of the longer patterns, of which one stands on the lines
NAMES = ["clk", "reset_n", "bus.req", "bus.ack", "bus.ready", "bus.addr_7",
         "cpu0.fetch", "cpu0.stall", "dma.busy", "irq_3", "cache.hit"]


def six_names(place):
    """A duration, the pattern's name at one of six places, and five others."""
    others = [NAMES[(place * 7 + turn * 3) % len(NAMES)] for turn in range(5)]
    others.insert(place % 6, PATTERN)
    return "%d %s\n" % (1 + place % 9, " ".join(others))


def pattern_of(count):
    """True where the pattern's name is, and asking for this many names."""
    return "{%s}" % " || ".join([PATTERN] + ["unit%d.ready" % i for i in range(1, count)])


def comments(place):
    """Lines that say nothing, so that no segment is kept."""
    return "# line %d, and nothing on it counts\n" % place


def write_file(path, line, megabytes):
    with open(path, "w") as file:
        place = written = 0
        while written < megabytes * 1000000:
            written += file.write(line(place))
            place += 1


def report(montre, folder, name, line, megabytes, counts=(1,)):
    trace, output = os.path.join(folder, "trace"), os.path.join(folder, "output")
    write_file(trace, line, megabytes)
    for count in counts:
        print_beside_words([name, str(count), str(megabytes), str(count_lines(trace))],
                           [montre, pattern_of(count)], trace, output)


def main():
    if len(sys.argv) not in (2, 3):
        sys.exit("usage: python3 bench/cost/reading.py PATH_OF_MONTRE [MEGABYTES]")
    montre = os.path.abspath(sys.argv[1])
    most = int(sys.argv[2]) if len(sys.argv) == 3 else MEGABYTES
    adopt_orphans()
    with tempfile.TemporaryDirectory() as folder:
        print_head(["lines", "names of the pattern", "MB of input", "lines"] + BESIDE_WORDS)
        report(montre, folder, "six names", six_names, most, (1,) + MANY)
        report(montre, folder, "comments", comments, max(1, most // 10))
        report(montre, folder, "comments", comments, most)


if __name__ == "__main__":
    main()
