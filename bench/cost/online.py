#!/usr/bin/env python3
"""How time and memory of an online run grow with the trace, what a run takes over a literal that
stays true, over segments by chance and in turn, and how deep repetitions may go: four markdown
tables.

    python3 bench/cost/online.py PATH_OF_MONTRE [MOST_SEGMENTS]

For Linux. Standard library alone, and valgrind for all tables but the first.
"""

import os
import random
import re
import shutil
import subprocess
import sys
import tempfile

from growth import PATTERNS, SIZES, write_trace
from measure import adopt_orphans, cell, measure, print_head, print_row, ratio


# Over a literal that stays true: matches may begin at all times that went by.
STEADY = [
    "p",
    "true",
    "p;p",
    "p % [2,inf)",
    "p % [0,3]",
    "(true)*",
    "({p || q})+",
    "p & p",
    "true & true",
    # Several durations, whose sums an upper end around all of them leaves out.
    "(p % [7,7]|p % [9,9])* % [0,20]",
    "(true % [7,7]|true % [11,11])* % [0,20]",
]
STEADY_SIZES = [10**3, 10**4, 10**5]
BYTES = 10**8  # a run that writes more is stopped
# Over these what a block tells grows with the trace, so look at what a zone takes.
MANY = ["(p;q)*", "(p % [1,1])*"]
MANY_SIZES = [200, 800]
# Repetitions in repetitions, over a few segments.
DEEP = ["*", "*?"]
DEEP_SIZES = [4, 100, 200, 400]
DEEP_SEGMENTS = 8


def write_steady(folder, size):
    path = os.path.join(folder, "steady%d" % size)
    if not os.path.exists(path):
        with open(path, "w") as file:
            file.writelines("1 p\n" for _ in range(size))
    return path


def write_turns(folder, size):
    """p and q in turn."""
    path = os.path.join(folder, "turns%d" % size)
    if not os.path.exists(path):
        with open(path, "w") as file:
            file.writelines("1 %s\n" % "pq"[place % 2] for place in range(size))
    return path


def write_chance(folder, size):
    """p, q and r by chance, by a fixed seed."""
    path = os.path.join(folder, "chance%d" % size)
    if not os.path.exists(path):
        chance = random.Random(1)
        with open(path, "w") as file:
            for _ in range(size):
                names = [name for name in "pqr" if chance.random() < 0.5]
                file.write(" ".join([str(chance.randint(1, 5))] + names) + "\n")
    return path


def write_clock(folder, size):
    """A dump with a clock, and a signal that stays high."""
    path = os.path.join(folder, "clock%d.vcd" % size)
    if not os.path.exists(path):
        with open(path, "w") as file:
            file.write("$timescale 1 ns $end\n$scope module top $end\n"
                       "$var wire 1 ! clk $end\n$var wire 1 \" req $end\n"
                       "$upscope $end\n$enddefinitions $end\n#0\n0!\n1\"\n")
            file.writelines("#%d\n%d!\n" % (time, time % 2) for time in range(1, size))
            file.write("#%d\n" % size)
    return path


def counted(words, trace):
    """The instructions of a run and the bytes that it writes, or why there are none."""
    command = ["valgrind", "--tool=callgrind", "--callgrind-out-file=/dev/null"] + words
    written = 0
    with open(trace, "rb") as given:
        with subprocess.Popen(command, stdin=given, stdout=subprocess.PIPE,
                              stderr=subprocess.PIPE) as run:
            while piece := run.stdout.read(1 << 16):
                written += len(piece)
                if written > BYTES:
                    run.kill()
                    return None, "over %d MB" % (BYTES // 10**6)
            told = run.stderr.read().decode()
    if run.returncode != 0:
        return None, "status %d" % run.returncode
    return int(re.search(r"Collected : (\d+)", told).group(1)), written


def print_steady_row(label, words, write, folder, sizes):
    """A row for each size: what a segment takes, and how that grew."""
    before = None
    for size in sizes:
        instructions, written = counted(words, write(folder, size))
        if instructions is None:
            print_row([label, str(size), written, "-", "-", "-"])
            return
        each = instructions / size, written / size
        print_row([label, str(size), "%.0f" % each[0], ratio(each[0], before[0]) if before else "-",
                   "%.0f" % each[1], ratio(each[1], before[1]) if before else "-"])
        before = each


def print_steady(montre, folder, most):
    sizes = [size for size in STEADY_SIZES if size <= most]
    print_head(["pattern", "segments", "instructions a segment", "growth", "bytes a segment",
                "growth of the bytes"])
    for pattern in STEADY:
        print_steady_row(cell(pattern), [montre, "--online", pattern], write_steady, folder, sizes)
    print_steady_row("`top.req` of a dump with a clock",
                     [montre, "--online", "--format", "vcd", "top.req"], write_clock, folder, sizes)


def print_many(montre, folder):
    print_head(["pattern", "trace", "segments", "instructions a segment", "bytes a segment",
                "instructions a byte"])
    for pattern in MANY:
        for label, write in (("in turn", write_turns), ("by chance", write_chance)):
            for size in MANY_SIZES:
                trace = write(folder, size)
                instructions, written = counted([montre, "--online", pattern], trace)
                if instructions is None:
                    print_row([cell(pattern), label, str(size), written, "-", "-"])
                    continue
                print_row([cell(pattern), label, str(size), "%.0f" % (instructions / size),
                           "%.0f" % (written / size), "%.0f" % (instructions / written)])


def print_deep(montre, folder):
    print_head(["pattern", "times", "instructions a segment", "growth with the depth"])
    for sign in DEEP:
        before = None
        for depth in DEEP_SIZES:
            pattern = "p" + depth * sign
            instructions, written = counted([montre, "--online", pattern],
                                            write_chance(folder, DEEP_SEGMENTS))
            if instructions is None:
                print_row([cell("p" + sign), str(depth), written, "-"])
                break
            each = instructions / DEEP_SEGMENTS
            growth = ratio(each, before[0] * depth / before[1]) if before else "-"
            print_row([cell("p" + sign), str(depth), "%.0f" % each, growth])
            before = each, depth


def print_rows(montre, folder, sizes, pattern, of_p):
    """A row for each size; `of_p` keeps the seconds of `p` by size."""
    output = os.path.join(folder, "output")
    before = None
    for size in sizes:
        trace = write_trace(folder, size)
        whole = measure([montre, pattern], trace, output)
        run = measure([montre, "--online", pattern], trace, output)
        if run.stopped is not None or whole.stopped is not None:
            print_row([cell(pattern), str(size), run.stopped or whole.stopped] + ["-"] * 5)
            return
        of_p.setdefault(size, run.seconds)
        growth = ratio(run.seconds, before[0] * size / before[1]) if before else "-"
        print_row([cell(pattern), str(size), "%.4f" % run.seconds,
                   "%.1f" % (1e6 * run.seconds / size), growth,
                   ratio(run.seconds, of_p[size]), ratio(run.seconds, whole.seconds),
                   "%.1f" % (run.peak / 1024)])
        before = run.seconds, size


def main():
    if len(sys.argv) not in (2, 3):
        sys.exit("usage: python3 bench/cost/online.py PATH_OF_MONTRE [MOST_SEGMENTS]")
    montre = os.path.abspath(sys.argv[1])
    most = int(sys.argv[2]) if len(sys.argv) == 3 else SIZES[-1]
    adopt_orphans()
    of_p = {}
    with tempfile.TemporaryDirectory() as folder:
        print_head(["pattern", "segments", "seconds", "microseconds a segment", "growth",
                    "times `p`", "times offline", "MB"])
        for pattern in PATTERNS:
            print_rows(montre, folder, [size for size in SIZES if size <= most], pattern, of_p)
        if shutil.which("valgrind"):
            print("")
            print_steady(montre, folder, most)
            print("")
            print_many(montre, folder)
            print("")
            print_deep(montre, folder)


if __name__ == "__main__":
    main()
