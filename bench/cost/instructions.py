#!/usr/bin/env python3
"""The instructions that matching and reading take, by valgrind: two markdown tables.

    python3 bench/cost/instructions.py PATH_OF_MONTRE [PATH_OF_ANOTHER]

With another program each row has the ratio to it. For Linux, with valgrind.
"""

import os
import re
import subprocess
import sys
import tempfile

import vcd
from growth import write_trace
from measure import cell, print_head, print_row, ratio
from reading import PATTERN, pattern_of, six_names, write_file

SEGMENTS = 30000
MEGABYTES = 2
MIX = "(p;q) & (true % [1,6]) | <:req:> % [1,4]"
COMPARED = "low = top.u0.s1 == 0x5a"    # a vector of vcd.VECTORS
NUMBERS = "one = tb.write == 1; other = tb.read == 1"
FULL = "full = tb.write == tb.read"
SCOPE = "s" * 80
PATTERNS = [
    "p",
    "<:p:>",
    "<:p:> % [2,10]",
    "<:req:> ; (!ack % [1,4]) ; rise(ack)",
    "p;q;r",
    MIX,
    "(rise(p);true;fall(q)) % [0,20]",
    "(p;q)*",
    "((p % [1,2]);(q % [1,2]))+ % [5,20]",
    "(p % [1,1])*",
    "p*?*?*?*?",
    "((p;q)*;r)*",
]


def instructions(words, given):
    """How many instructions a run takes."""
    command = ["valgrind", "--tool=callgrind", "--callgrind-out-file=/dev/null"] + words
    with open(given, "rb") as trace:
        run = subprocess.run(command, stdin=trace, stdout=subprocess.DEVNULL,
                             stderr=subprocess.PIPE, check=True)
    return int(re.search(rb"Collected : (\d+)", run.stderr).group(1))


def cells(programs, options, given):
    """The millions of instructions of the first program, and its ratio to the second."""
    counts = [instructions([program] + options, given) for program in programs]
    told = ["%.1f" % (counts[0] / 1e6)]
    return counts[0], told + [ratio(counts[0], other) for other in counts[1:]]


def matching(programs, folder):
    """A row for each pattern, whole and as the input comes."""
    beside = ["ratio"] * (len(programs) - 1)
    print_head(["pattern", "millions of instructions"] + beside + ["growth", "online"] + beside
               + ["growth"])
    trace, large, small = (write_trace(folder, size)
                           for size in (SEGMENTS, 10 * SEGMENTS, SEGMENTS // 10))
    for pattern in PATTERNS:
        count, told = cells(programs, [pattern], trace)
        grown = instructions([programs[0], pattern], large) / 10
        online, told_online = cells(programs, ["--online", pattern], trace)
        before = 10 * instructions([programs[0], "--online", pattern], small)
        print_row([cell(pattern)] + told + [ratio(grown, count)] + told_online
                  + [ratio(online, before)])


def one_name(place):
    """A duration and the pattern's name, so that there is one zone."""
    return "%d p\n" % (1 + place % 9)


def lines_rows(folder):
    """Lines of text: a label, the options, and the file."""
    short, long = os.path.join(folder, "short"), os.path.join(folder, "long")
    write_file(short, one_name, MEGABYTES)
    write_file(long, six_names, MEGABYTES)
    return [("lines of one name, which is asked for", ["p"], short),
            ("lines of six names, none asked for", ["none"], long),
            ("the same, one asked for", [PATTERN], long),
            ("the same, of six asked for", [pattern_of(6)], long),
            ("the same, of 64 asked for", [pattern_of(64)], long)]


def dump_rows(folder):
    """Dumps, likewise."""
    labels = [("a dump of 64 signals, two asked for", vcd.ALL),
              ("a dump of two signals, both asked for", vcd.FEW),
              ("a dump of 2,000 signals, two asked for", vcd.MANY),
              ("a dump mostly of vectors, two bits asked for", vcd.VECTORS)]
    rows = []
    for place, (label, dump) in enumerate(labels):
        path = os.path.join(folder, "dump%d" % place)
        vcd.write_dump(path, dump, dump.block, MEGABYTES)
        rows.append((label, ["--format", "vcd", dump.pattern()], path))
    every = ("the same, 56 asked for", ["--format", "vcd", vcd.ALL.pattern_of_all()], rows[0][2])
    compared = ("the same, and a vector compared", ["--format", "vcd", "--define", COMPARED, "low"],
                rows[-1][2])
    return rows[:1] + [every] + rows[1:] + [compared]


def pointers(place):
    """Two numbers of 32 bits at a time, which are alike at every sixteenth."""
    write = place * 0x9E3779B1 % 2**32
    read = write if place % 16 == 0 else place * 0x85EBCA77 % 2**32
    return "#%d\nb%s !\nb%s %%\n" % (5 * place, format(write, "b"), format(read, "b"))


def pointer_rows(folder):
    """A dump of two signals of 32 bits, each compared with a number, or with the other."""
    path = os.path.join(folder, "pointers")
    write_file(path, pointers, MEGABYTES)
    with open(path) as file:
        changes = file.read()
    with open(path, "w") as file:
        file.write("$scope module tb $end\n$var wire 32 ! write $end\n"
                   "$var wire 32 % read $end\n$upscope $end\n$enddefinitions $end\n" + changes)
    return [("a dump of two signals of 32 bits, each compared with a number",
             ["--format", "vcd", "--define", NUMBERS, "{one && other}"], path),
            ("the same, compared with one another",
             ["--format", "vcd", "--define", FULL, "full"], path)]


def declared(place):
    """A declaration: every other one has a range at the end of its name."""
    return "$var wire 8 %s v%d%s $end\n" % (vcd.identifier(place), place,
                                           " [7:0]" if place % 2 else "")


def declaration_rows(folder):
    """A dump of declarations alone, of which a pattern asks a few by names that are defined."""
    path = os.path.join(folder, "declared")
    write_file(path, declared, MEGABYTES)
    with open(path) as file:
        declarations = file.read()
    with open(path, "w") as file:
        file.write("$scope module %s $end\n%s$enddefinitions $end\n#0\n" % (SCOPE, declarations))
    for label, count in (("declarations under a path of 80 bytes, one name defined", 1),
                         ("the same, 64 names defined", 64)):
        defined = ["n%d" % number for number in range(count)]
        text = ";".join("%s = %s.v%d == 1" % (name, SCOPE, place)
                        for place, name in enumerate(defined))
        yield label, ["--format", "vcd", "--define", text, "|".join(defined)], path


def reading(programs, folder):
    """A row for each form of a trace, and how many of its names the pattern asks for."""
    print_head(["2 MB of", "millions of instructions"] + ["ratio"] * (len(programs) - 1))
    rows = (lines_rows(folder) + dump_rows(folder) + pointer_rows(folder)
            + list(declaration_rows(folder)))
    for label, options, given in rows:
        print_row([label] + cells(programs, options, given)[1])


def main():
    if len(sys.argv) not in (2, 3):
        sys.exit("usage: python3 bench/cost/instructions.py PATH_OF_MONTRE [PATH_OF_ANOTHER]")
    programs = [os.path.abspath(path) for path in sys.argv[1:]]
    with tempfile.TemporaryDirectory() as folder:
        matching(programs, folder)
        print("")
        reading(programs, folder)


if __name__ == "__main__":
    main()
