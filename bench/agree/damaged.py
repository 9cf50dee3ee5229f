#!/usr/bin/env python3
"""Damaged inputs, given whole and a byte at a time: the run is the same.

    python3 bench/agree/damaged.py PATH_OF_MONTRE

2,000 inputs of each form by a fixed seed. For Linux, with a C compiler `cc`.
"""

import os
import random
import sys
import tempfile

from against_whole import random_trace
from cases import forms_of, spelled
from faults import Runs

INPUTS = 2000
PATTERNS = ["p", "p;q;r", "{p || q}", "p % [1,2]", "eps"]
EVENTS = ["event(a)", "event(a) & event(b)", "rise(p);event(b)"]
# What a form hangs on, and what it has no use for.
BYTES = [byte.encode() for byte in "\r\n \t#@.,_0129pqrab$-\"x\0\x7f"] + [b"\xff", b"\xc3\xa9"]
PARTS = [b"\r\n", b"\n\n", b"  ", b"\r\r\n", b" \r\n", b"# p\r\n", b"#9 ", b"b01 p ", b"1p ",
         b"xq ", b"r1.5 q\n", b"@ a\n", b"$comment $end ", b"$dumpoff $end\n", b"0 p\n",
         b"7 p_ q.0 r\n",
         b"18446744073709551616 ", b"4398046511104 q\n", b"q" * 40, b"$end ", b"$var "]


def damaged(chance, text):
    """The text with some bytes changed, put in or left out, and cut at random."""
    for _ in range(chance.choice((0, 1, 1, 2, 5))):
        at = chance.randrange(len(text) + 1)
        more = chance.choice((b"", chance.choice(BYTES), chance.choice(PARTS), text[at:at + 30]))
        text = text[:at] + more + text[at + chance.choice((0, 0, 1, len(more))):]
    return text if chance.random() < 0.3 else text[:chance.randrange(len(text) + 1)]


def input_of(chance, place):
    """The words of a run, and what it is given."""
    form = forms_of(random_trace(chance), chance.randrange(10))[place % 3]
    pattern = chance.choice(PATTERNS if "csv" in form.options else PATTERNS + EVENTS)
    online = ["--online"] if "csv" not in form.options and chance.random() < 0.3 else []
    text = form.text.replace("\n", chance.choice(("\n", "\n", "\r\n", " \t\r\n"))).encode()
    words = [*online, *form.options, "--", spelled(pattern, form)]
    return words, damaged(chance, text)


def main():
    if len(sys.argv) != 2:
        sys.exit("usage: python3 bench/agree/damaged.py PATH_OF_MONTRE")
    chance, faults, wrong = random.Random(66), 0, 0
    with tempfile.TemporaryDirectory() as folder:
        runs = Runs(os.path.abspath(sys.argv[1]), folder)
        for place in range(3 * INPUTS):
            words, text = input_of(chance, place)
            with open(os.path.join(folder, "text"), "wb") as file:
                file.write(text)
            whole = runs.run(words, "")
            faults += whole[0] != 0
            for cut in ("short 1", "part %d" % chance.randrange(1, 4)):
                found = runs.run(words, cut)
                if found != whole:
                    wrong += 1
                    print("wrong: %s over %r, %s: %s, and not %s"
                          % (words, text, cut, found, whole))
    print("%d inputs, %d with a fault, %d runs, %d wrong"
          % (3 * INPUTS, faults, runs.count, wrong))
    sys.exit(1 if wrong else 0)


if __name__ == "__main__":
    main()
