#!/usr/bin/env python3
"""What a watch of several patterns takes beside runs of one pattern each: three markdown tables.

    python3 bench/cost/watch.py PATH_OF_MONTRE [SEGMENTS]

For Linux, with valgrind.
"""

import os
import re
import subprocess
import sys
import tempfile

from growth import write_trace
from measure import print_head, print_row, ratio

SEGMENTS = 10000
PATTERNS = [
    "p",
    "<:p:>",
    "<:p:> % [2,10]",
    "<:req:> ; (!ack % [1,4]) ; rise(ack)",
    "p;q;r",
    "rise(q)",
    "{p && req}",
    "rise(ack) ; !req ; rise(req)",
]
NOTHING = "rise(none)"  # never in the trace: a run that reads, and finds nothing
WATCHED = [1, 8, 64]
OTHERS = 100  # of so many changes of the dump one is of a signal that is asked


def counted(words, source):
    """The instructions of a run, in millions."""
    command = ["valgrind", "--tool=callgrind", "--callgrind-out-file=/dev/null"] + words
    with open(source, "rb") as given:
        run = subprocess.run(command, stdin=given, stdout=subprocess.DEVNULL,
                             stderr=subprocess.PIPE, check=True)
    return int(re.search(rb"Collected : (\d+)", run.stderr).group(1)) / 1e6


def write_checks(folder, patterns):
    path = os.path.join(folder, "checks")
    with open(path, "w", encoding="utf-8") as file:
        file.writelines("check%d = %s\n" % named for named in enumerate(patterns))
    return path


def print_text(montre, folder, segments):
    """Over text: a watch, and what the runs of its patterns take together with one reading."""
    trace = write_trace(folder, segments)
    singles = [counted([montre, "--online", pattern], trace) for pattern in PATTERNS]
    reading = counted([montre, NOTHING], trace)
    print_head(["patterns over text", "a watch", "their runs", "a reading", "runs less readings",
                "ratio"])
    for count in WATCHED:
        places = [number % len(PATTERNS) for number in range(count)]
        checks = write_checks(folder, [PATTERNS[place] for place in places])
        runs = sum(singles[place] for place in places)
        watch = counted([montre, "--watch", checks], trace)
        least = runs - (count - 1) * reading
        print_row([str(count), "%.1f" % watch, "%.1f" % runs, "%.1f" % reading, "%.1f" % least,
                   ratio(watch, least)])


def write_dump(folder, changes, with_others):
    """A dump with 64 pairs of signals that are asked, and others that change mostly, or don't."""
    path = os.path.join(folder, "many.vcd" if with_others else "few.vcd")
    with open(path, "w", encoding="utf-8") as file:
        file.write("$timescale 1 ns $end\n$scope module top $end\n")
        for number in range(128):
            file.write("$var wire 1 a%d s%d $end\n" % (number, number))
        for number in range(OTHERS):
            file.write("$var wire 1 o%d other%d $end\n" % (number, number))
        file.write("$upscope $end\n$enddefinitions $end\n")
        for time in range(changes // OTHERS):
            file.write("#%d\n%da%d\n" % (time, time // 128 % 2, time % 128))
            if with_others:
                file.writelines("%do%d\n" % (time % 2, number) for number in range(1, OTHERS))
        file.write("#%d\n" % (changes // OTHERS))
    return path


def print_dump(montre, folder, changes):
    """Over a dump: a watch of patterns of two names each, which find next to nothing. What reading
    takes is what the changes of the other signals add."""
    dump, without = (write_dump(folder, changes, with_others) for with_others in (True, False))
    one = None
    print_head(["patterns over a dump", "a watch", "without the others' changes", "these changes",
                "times one pattern"])
    for count in WATCHED:
        patterns = ["rise(top.s%d) & rise(top.s%d)" % (2 * n, 2 * n + 1) for n in range(count)]
        checks = write_checks(folder, patterns)
        watch, least = (counted([montre, "--watch", "--format", "vcd", checks], source)
                        for source in (dump, without))
        one = one or watch - least
        print_row([str(count), "%.1f" % watch, "%.1f" % least, "%.1f" % (watch - least),
                   ratio(watch - least, one)])


def write_wide(folder, count):
    """A dump that declares so many variables, each of which changes once."""
    path = os.path.join(folder, "wide.vcd")
    with open(path, "w", encoding="utf-8") as file:
        file.writelines("$var wire 1 a%d s%d $end\n" % (n, n) for n in range(count))
        file.write("$enddefinitions $end\n")
        file.writelines("#%d\n1a%d\n" % (n, n) for n in range(count))
        file.write("#%d\n" % count)
    return path


def print_wide(montre, folder):
    """Over a dump: patterns that share no reader, since each has as many names as one reads, and
    the dump must declare those of all."""
    print_head(["patterns of 64 names", "variables of the dump", "a watch", "for each pattern"])
    for count in WATCHED:
        patterns = ["rise(%s)" % " && ".join("s%d" % (64 * n + k) for k in range(64))
                    for n in range(count)]
        checks = write_checks(folder, patterns)
        watch = counted([montre, "--watch", "--format", "vcd", checks], write_wide(folder, 4096))
        print_row([str(count), "4,096", "%.1f" % watch, "%.1f" % (watch / count)])


def main():
    if len(sys.argv) not in (2, 3):
        sys.exit("usage: python3 bench/cost/watch.py PATH_OF_MONTRE [SEGMENTS]")
    montre = os.path.abspath(sys.argv[1])
    segments = int(sys.argv[2]) if len(sys.argv) == 3 else SEGMENTS
    with tempfile.TemporaryDirectory() as folder:
        print_text(montre, folder, segments)
        print("")
        print_dump(montre, folder, 20 * segments)
        print("")
        print_wide(montre, folder)


if __name__ == "__main__":
    main()
