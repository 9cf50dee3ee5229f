#!/usr/bin/env python3
"""examples/pieces.py against one run over the whole trace: the same pairs at each quarter of a tick.

    python3 bench/agree/against_whole.py PATH_OF_MONTRE

200 traces and patterns by a fixed seed, over text and dump, with scales, cut at many places.
"""

import os
import random
import re
import subprocess
import sys
from decimal import Decimal
from math import ceil, floor

from cases import ALL, dump_form, events_at, lines_of, scaled
from meaning import Segment, Trace

CASES = 200
PIECES = os.path.join(os.path.dirname(os.path.abspath(__file__)), "..", "..", "examples", "pieces.py")
RANGE = re.compile(r"([\[(])([\d.]+),([\d.]+)([\])])")
ENDLESS = ("true", "<:p:>", "p;p", "(p;q)*", "rise(p);true;rise(q)", "event(a);true;event(b)")


def random_trace(chance):
    """A trace of up to thirty segments, and of none now and then."""
    segments = []
    for place in range(chance.randrange(31)):
        names = frozenset(name for name in "pqr" if chance.random() < 0.4)
        events = events_at(chance.randrange(99), place) if chance.random() < 0.3 else frozenset()
        segments.append(Segment(chance.choice((1, 1, 2, 3, 9)), names, events))
    return Trace(tuple(segments), frozenset("a") if chance.random() < 0.3 else frozenset())


def places(low, least, most, high, digits):
    """The quarters in a printed range; a number has so many digits more."""
    first, last = (Decimal(number).scaleb(digits) * 4 for number in (least, most))
    first = floor(first) + 1 if low == "(" else ceil(first)
    last = ceil(last) - 1 if high == ")" else floor(last)
    return first, last


def pairs_of(text, digits):
    """The pairs of quarters that the zones hold, and the last line."""
    found = set()
    *lines, last = text.splitlines()
    for line in lines:
        begins, ends, lasts = (places(*part, digits) for part in RANGE.findall(line))
        for begin in range(begins[0], begins[1] + 1):
            low, high = max(ends[0], begin + lasts[0]), min(ends[1], begin + lasts[1])
            found.update((begin, end) for end in range(low, high + 1))
    return found, last


def printed(words, text, program):
    run = subprocess.run(words, input=text.encode(), capture_output=True, check=False,
                         env=dict(os.environ, MONTRE=program))
    return run.returncode, run.stdout.decode(), run.stderr.decode()


def differs(program, chance):
    """One case: what is different, if anything, and how many pairs there are."""
    trace = random_trace(chance)
    form, scale = chance.choice((("text", 0), ("text", 1), ("vcd", 0), ("vcd", 2)))
    dump = dump_form(trace, chance.randrange(2), scale)     # of every other one names are defined
    whole = "(%s) %% [0,%d]" % (chance.choice(ALL)[0], chance.randrange(9))
    inside = "(%s) & (true | eps) %% (0,%d]" % (chance.choice(ALL)[0], chance.randrange(1, 9))
    pattern = chance.choice((whole, inside, whole + " ; (" + inside + ")"))
    text = dump.text if form == "vcd" else lines_of(trace, scale)
    words = list(dump.options) if form == "vcd" else ["--format", form, "--scale", str(scale)]
    pattern = pattern if form == "vcd" else scaled(pattern, scale)
    every = Decimal(chance.randrange(1, 25)).scaleb(0 if form == "vcd" else -scale)
    cut = words + ["--every", str(every), "--jobs", "2", pattern]
    status, out, err = printed([sys.executable, PIECES, *cut], text, program)
    wanted = printed([program, *words, "--", pattern], text, program)
    if status or wanted[0]:
        return "%s: %s %s, %s" % (cut, status, err, wanted), 0
    digits = 0 if form == "vcd" else scale
    found, right = pairs_of(out, digits), pairs_of(wanted[1], digits)
    missing, more = sorted(right[0] - found[0])[:3], sorted(found[0] - right[0])[:3]
    if found != right:
        return "%s over\n%s%s are missing, %s too many" % (cut, text, missing, more), len(right[0])
    return "", len(right[0])


def main():
    if len(sys.argv) != 2:
        sys.exit("usage: python3 bench/agree/against_whole.py PATH_OF_MONTRE")
    program, chance = os.path.abspath(sys.argv[1]), random.Random(7)
    wrong = pairs = 0
    for _ in range(CASES):
        difference, count = differs(program, chance)
        pairs += count
        wrong += difference != ""
        print(difference, end="\n" if difference else "")
    for pattern in ENDLESS:
        status = printed([sys.executable, PIECES, "--every", "9", pattern], "9 p\n", program)[0]
        wrong += status != 2
    print("%d cases, %d pairs, %d wrong" % (CASES, pairs, wrong))
    sys.exit(1 if wrong else 0)


if __name__ == "__main__":
    main()
