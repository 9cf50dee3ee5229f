#!/usr/bin/env python3
"""What the state of a literal takes, beside reading the trace: one markdown table.

    python3 bench/cost/states.py PATH_OF_MONTRE [PATH_OF_ANOTHER]

With a second program each row has its time too. For Linux. Standard library alone.
"""

import os
import sys
import tempfile

from measure import adopt_orphans, cell, count_lines, measure, print_head, print_row, ratio

SIZE = 10**6

# Each trace by its name: the names on the segment at a place.
TRACES = {
    "one long run": lambda place: "p",
    "runs of 100": lambda place: "p r" if place // 100 % 2 else "p q",
    "turns": lambda place: ["p", "p q", "q", "r", ""][place % 5],
}

PATTERNS = ["p", "{p && !q || r}", "rise(p && !q || r)"]

# Nothing on the trace has this name, so next to nothing is done but reading.
READING = "rise(none)"


def write_trace(folder, names):
    path = os.path.join(folder, "trace")
    with open(path, "w") as file:
        file.writelines(("1 %s" % names(place)).rstrip() + "\n" for place in range(SIZE))
    return path


def print_rows(programs, folder, name, names):
    trace = write_trace(folder, names)
    output = os.path.join(folder, "output")
    reading = measure([programs[0], READING], trace, output)
    for pattern in PATTERNS:
        run = measure([programs[0], pattern], trace, output)
        cells = [name, cell(pattern), str(count_lines(output) - 1), "%.4f" % run.seconds,
                 ratio(run.seconds, reading.seconds)]
        for other in programs[1:]:
            cells.append(ratio(run.seconds, measure([other, pattern], trace, output).seconds))
        print_row(cells)


def main():
    if len(sys.argv) not in (2, 3):
        sys.exit("usage: python3 bench/cost/states.py PATH_OF_MONTRE [PATH_OF_ANOTHER]")
    programs = [os.path.abspath(path) for path in sys.argv[1:]]
    adopt_orphans()
    with tempfile.TemporaryDirectory() as folder:
        print_head(["trace", "pattern", "zones", "seconds", "times reading"]
                   + ["times the other program"] * (len(programs) - 1))
        for name, names in TRACES.items():
            print_rows(programs, folder, name, names)


if __name__ == "__main__":
    main()
