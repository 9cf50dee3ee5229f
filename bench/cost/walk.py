#!/usr/bin/env python3
"""What matching takes as the input comes, beside another program: one markdown table.

    python3 bench/cost/walk.py PATH_OF_MONTRE PATH_OF_ANOTHER [ROW..]

Instructions of --online over 30,000 segments, by valgrind; the ratio to those of the other program,
and what of them is wanted. With numbers of rows those alone. For Linux.
"""

import os
import sys
import tempfile
from concurrent.futures import ThreadPoolExecutor

from growth import write_trace
from instructions import MIX, SEGMENTS, instructions
from measure import cell, print_head, print_row, ratio
from watch import PATTERNS as WATCHED

BUS = "<:req:> ; (!ack % [1,4]) ; rise(ack)"
REACH = "(rise(p);true;fall(q)) % [0,20]"
LASTING = "((p % [1,2]);(q % [1,2]))+ % [5,20]"
PATTERNS = 64       # of a watch
WATCH_SEGMENTS = 3000
TURNS = [           # a pattern, and what is wanted
    ("p", .66), ("<:p:> % [2,10]", .54), (BUS, .67), ("p;q;r", .66), (REACH, .49), (LASTING, .34),
    ("(p % [1,1])*", .41), (MIX, .59), ("(p;q)*", .50), ("((p;q)*;r)*", .39),
    ("(p;q) & (true % [1,6])", .53), ("p*?*?*?*?", 2.1),
]
HELD = [("p", .73), ("p;p", .79), ("p % [2,inf)", .61), ("({p || q})+", .63)]


def write_held(folder, size):
    """p, a tick each."""
    path = os.path.join(folder, "held")
    with open(path, "w") as file:
        file.writelines("1 p\n" for _ in range(size))
    return path


def write_dump(folder, size):
    """A dump of a request and an answer."""
    path = os.path.join(folder, "bus.vcd")
    with open(path, "w") as file:
        file.write("$var wire 1 ! req $end\n$var wire 1 \" ack $end\n$enddefinitions $end\n")
        for place in range(size):
            file.write("#%d\n%s\n" % (2 * place, ("1!", "0!", "1\"", "0\"")[place % 4]))
        file.write("#%d\n" % (2 * size))
    return path


def write_checks(folder):
    path = os.path.join(folder, "checks")
    with open(path, "w") as file:
        file.writelines("check%d = %s\n" % (number, WATCHED[number % len(WATCHED)])
                        for number in range(PATTERNS))
    return path


def rows(folder):
    """A label, the arguments, the trace, and what is wanted."""
    turns = write_trace(folder, SEGMENTS)
    for pattern, wanted in TURNS:
        yield cell(pattern), ["--online", pattern], turns, wanted
    yield ("a dump's bus", ["--online", "--format", "vcd", BUS], write_dump(folder, SEGMENTS), .73)
    held = write_held(folder, SEGMENTS)
    for pattern, wanted in HELD:
        yield cell(pattern) + ", held", ["--online", pattern], held, wanted
    yield ("a watch of %d" % PATTERNS, ["--watch", write_checks(folder)],
           write_trace(folder, WATCH_SEGMENTS), .6)


def main():
    if len(sys.argv) < 3:
        sys.exit("usage: python3 bench/cost/walk.py PATH_OF_MONTRE PATH_OF_ANOTHER [ROW..]")
    programs = [os.path.abspath(path) for path in sys.argv[1:3]]
    some = [int(number) for number in sys.argv[3:]]
    print_head(["row", "millions of instructions", "ratio", "wanted"])
    with tempfile.TemporaryDirectory() as folder:
        all_rows = [row for number, row in enumerate(rows(folder)) if not some or number in some]
        with ThreadPoolExecutor(2) as pool:
            jobs = [[pool.submit(instructions, [program] + words, trace) for program in programs]
                    for _, words, trace, _ in all_rows]
            for (label, _, _, wanted), job in zip(all_rows, jobs):
                one, other = (counted.result() for counted in job)
                print_row([label, "%.1f" % (one / 1e6), ratio(one, other), "%.2f" % wanted])
                sys.stdout.flush()


if __name__ == "__main__":
    main()
