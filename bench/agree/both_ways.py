#!/usr/bin/env python3
"""Random patterns both ways: the blocks of `--online` against the zones that are found at the end.

    python3 bench/agree/both_ways.py PATH_OF_MONTRE [COUNT]

The patterns, each with a short trace of its own, are the same in each run.
"""

import math
import os
import random
import re
import subprocess
import sys
from dataclasses import dataclass

sys.path.append(os.path.join(os.path.dirname(os.path.abspath(__file__)), "..", "cost"))
from random_growth import SIZE, pattern

COUNT = 3000
SEGMENTS = 8        # of a trace, at most
RANGE = re.compile(r"([\[(])([\d.]+),([\d.]+|inf)([\])])")


@dataclass(frozen=True)
class Range:
    low: float
    high: float
    has_low: bool
    has_high: bool

    def holds(self, time):
        above = self.low < time or self.has_low and self.low == time
        return above and (time < self.high or self.has_high and self.high == time)


def trace(pick):
    rows = ("%d %s" % (pick.randint(1, 3), " ".join(n for n in "pqr" if pick.random() < 0.5))
            for _ in range(pick.randint(1, SEGMENTS)))
    return "".join(row.rstrip() + "\n" for row in rows)


def zones_of(output):
    """The zones of all blocks: of each its begins, its ends and its durations."""
    found = []
    for line in output.splitlines():
        ranges = [Range(float(low), math.inf if high == "inf" else float(high), left == "[",
                        right == "]") for left, low, high, right in RANGE.findall(line)]
        if ranges:
            found.append(ranges)
    return found


def is_held(zones, begin, end):
    return any(begins.holds(begin) and ends.holds(end) and durations.holds(end - begin)
               for begins, ends, durations in zones)


def pairs_of(output):
    """All pairs of half ticks up to the end of the trace, which the last line tells."""
    count = 2 * int(output.split()[-1]) + 1
    return [(i / 2, j / 2) for i in range(count) for j in range(i, count)]


def run(words, given):
    done = subprocess.run(words, input=given, capture_output=True, text=True, check=True)
    return done.stdout


def main():
    montre = sys.argv[1]
    count = int(sys.argv[2]) if len(sys.argv) > 2 else COUNT
    pick = random.Random(1)
    pairs = differ = 0
    for _ in range(count):
        text, given = pattern(pick.randint(1, SIZE), pick), trace(pick)
        at_the_end = run([montre, text], given)
        here, there = zones_of(at_the_end), zones_of(run([montre, "--online", text], given))
        both = [(is_held(here, *pair), is_held(there, *pair)) for pair in pairs_of(at_the_end)]
        pairs += len(both)
        if any(one != other for one, other in both):
            differ += 1
            print("%s over %r" % (text, given))
    print("%d patterns, %d pairs, %d differ" % (count, pairs, differ))
    return 1 if differ else 0


if __name__ == "__main__":
    sys.exit(main())
