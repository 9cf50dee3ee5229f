#!/usr/bin/env python3
"""What files of checks with a verdict take beside runs of one pattern each: three markdown tables.

    python3 bench/cost/verdicts.py PATH_OF_MONTRE [MEGABYTES [PAGE]]

A row that takes more than is wanted is told behind the tables. With a page its tables are written
anew, between the comments that name this script. For Linux, with valgrind.
"""

import contextlib
import io
import os
import re
import subprocess
import sys
import tempfile

import vcd
from growth import write_trace
from measure import adopt_orphans, cell, measure, print_head, print_row, ratio

MEGABYTES = 20
LINES = 240000
SIZES = [10000, 100000]
TIMES_FIRST, TIMES_RUNS, MOST_MB, GROWTH = 5, 2, 40, 1.1
# Over a dump, of a signal A and another one B.
FORMS = [
    "each %s = rise(A) |-> (!B ; rise(B)) %% [0,400]",
    "never %s = <:A:> %% (0,3)",
    "some %s = rise(A) ; B",
    "each %s = <:A:> => true %% [5,inf)",
    "never %s = {A && B} %% [1000,inf)",
]
# Over lines of text, each with its subject.
CHECKS = [
    ("each served = %s |-> (!ack ; rise(ack)) %% [0,20]", "rise(req)"),
    ("never short = %s", "<:p:> % (0,1)"),
    ("each long = %s => true %% [1,3]", "<:q:>"),
    ("some both = %s", "p;q"),
    ("each next = %s |-> (!p ; rise(p)) %% [0,40]", "fall(q)"),
]
MARK = "(<!-- bench/cost/verdicts.py -->)"
WITHIN = "each %s = <:p:> => true? ; fall(q) ; true?"


def write_checks(folder, checks):
    path = os.path.join(folder, "checks")
    with open(path, "w", encoding="utf-8") as file:
        file.writelines(check + "\n" for check in checks)
    return path


def counted(words, given):
    """The millions of instructions of a run, which may end with a check that fails."""
    command = ["valgrind", "--tool=callgrind", "--callgrind-out-file=/dev/null"] + words
    with open(given, "rb") as trace:
        run = subprocess.run(command, stdin=trace, stdout=subprocess.DEVNULL,
                             stderr=subprocess.PIPE, check=False)
    if run.returncode not in (0, 13):
        sys.exit("%s: status %d" % (words, run.returncode))
    return int(re.search(rb"Collected : (\d+)", run.stderr).group(1)) / 1e6


def dump_checks(count):
    """So many checks, of signals of one bit each."""
    signals = [number for number in range(vcd.ALL.signals) if not vcd.ALL.is_wide(number)]
    for place in range(count):
        names = ["top.u0.s%d" % signals[(2 * place + more) % len(signals)] for more in (0, 1)]
        form = FORMS[place % len(FORMS)] % ("c%d" % place)
        yield form.replace("A", names[0]).replace("B", names[1])


def subject_of(check):
    text = check.split("=", 1)[1]
    return text.split("|->")[0].split("=>")[0].strip()


def over_a_dump(montre, folder, megabytes):
    """Checks beside a run of the first one's subject."""
    dump = os.path.join(folder, "dump")
    vcd.write_dump(dump, vcd.ALL, vcd.ALL.block, megabytes)
    checks = list(dump_checks(10))
    words = [montre, "--format", "vcd"]
    first = counted([*words, subject_of(checks[0])], dump)
    print_head(["checks over a dump of %d MB" % megabytes, "millions of instructions",
                "times the first one's subject"])
    for count in (1, 5, 10):
        path = write_checks(folder, checks[:count])
        many = counted([montre, "--check", "--format", "vcd", path], dump)
        print_row([str(count), "%.1f" % many, ratio(many, first)])
    return [("ten checks over a dump", many / first, TIMES_FIRST)]


def over_text(montre, folder):
    """Five checks beside the runs of their subjects, and their memory."""
    trace = write_trace(folder, LINES)
    runs = [counted([montre, subject], trace) for _, subject in CHECKS]
    path = write_checks(folder, [form % subject for form, subject in CHECKS])
    many = counted([montre, "--check", path], trace)
    output = os.path.join(folder, "output")
    peak = measure(["sh", "-c", '"$@" || [ $? -eq 13 ]', "sh", montre, "--check", path], trace,
                   output).peak / 1000
    print_head(["checks over %d lines" % LINES, "millions of instructions", "their subjects' runs",
                "ratio", "MB"])
    print_row([str(len(CHECKS)), "%.1f" % many, "%.1f" % sum(runs), ratio(many, sum(runs)),
               "%.1f" % peak])
    return [("five checks over text", many / sum(runs), TIMES_RUNS),
            ("MB of five checks", peak, MOST_MB)]


def over_windows(montre, folder):
    """What something inside of each pulse takes, of which all the stretches are quadratic."""
    print_head(["check", "segments", "millions of instructions", "growth"])
    before = None
    for size in SIZES:
        path = write_checks(folder, [WITHIN % "inside"])
        count = counted([montre, "--check", path], write_trace(folder, size))
        grown = count / before / 10 if before else None
        print_row([cell(WITHIN % "inside"), str(size), "%.1f" % count,
                   "%.3g" % grown if grown else ""])
        before = count
    return [("growth of a check with =>", grown, GROWTH)]


def all_tables(montre, megabytes):
    with tempfile.TemporaryDirectory() as folder:
        rows = over_a_dump(montre, folder, megabytes)
        print("")
        rows += over_text(montre, folder)
        print("")
        return rows + over_windows(montre, folder)


def write_page(page, tables):
    """Puts the tables between the two comments of a page that name this script."""
    with open(page, encoding="utf-8") as file:
        before, _, _, sign, behind = re.split(MARK, file.read())
    with open(page, "w", encoding="utf-8") as file:
        file.write("%s%s\n\n%s\n%s%s" % (before, sign, tables, sign, behind))


def main():
    if len(sys.argv) not in (2, 3, 4):
        sys.exit("usage: python3 bench/cost/verdicts.py PATH_OF_MONTRE [MEGABYTES [PAGE]]")
    montre = os.path.abspath(sys.argv[1])
    megabytes = int(sys.argv[2]) if len(sys.argv) > 2 else MEGABYTES
    adopt_orphans()
    told = io.StringIO()
    with contextlib.redirect_stdout(told):
        rows = all_tables(montre, megabytes)
    print(told.getvalue())
    if len(sys.argv) > 3:
        write_page(sys.argv[3], told.getvalue())
    above = [row for row in rows if row[1] > row[2]]
    for name, found, most in above:
        print("%s: %.3g, and not %s at most" % (name, found, most))
    print("%d limits, %d above" % (len(rows), len(above)))
    sys.exit(1 if above else 0)


if __name__ == "__main__":
    main()
