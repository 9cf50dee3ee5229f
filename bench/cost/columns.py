#!/usr/bin/env python3
"""What reading columns takes beside the same trace in lines of text: one markdown table.

    python3 bench/cost/columns.py PATH_OF_MONTRE [ROWS]

For Linux. Standard library alone.
"""

import os
import sys
import tempfile

from measure import adopt_orphans, measure, print_head, print_row, ratio

ROWS = 1000000
LETS = "hot = temp >= 80; low = level < 5"
# The two are never true together, so next to nothing is done but reading.
PATTERN = "{hot && low}"


def numbers(place):
    """The temperature and the level of a row."""
    temperature = 60 + place * 7 % 40
    return temperature, place % 5 if temperature < 80 else 5 + place % 90


def row(place):
    return "%d,%d,%d,%d\n" % (1 + place % 9, *numbers(place), place)


def line(place):
    temperature, level = numbers(place)
    names = " hot" * (temperature >= 80) + " low" * (level < 5)
    return "%d%s\n" % (1 + place % 9, names)


def main():
    if len(sys.argv) not in (2, 3):
        sys.exit("usage: python3 bench/cost/columns.py PATH_OF_MONTRE [ROWS]")
    montre = os.path.abspath(sys.argv[1])
    rows = int(sys.argv[2]) if len(sys.argv) == 3 else ROWS
    adopt_orphans()
    with tempfile.TemporaryDirectory() as folder:
        table, text, output = (os.path.join(folder, name) for name in ("table", "text", "output"))
        with open(table, "w") as file:
            file.write("dt,temp,level,place\n")
            file.writelines(row(place) for place in range(rows))
        with open(text, "w") as file:
            file.writelines(line(place) for place in range(rows))
        of_text = measure([montre, PATTERN], text, output)
        run = measure([montre, "--format", "csv", "--let", LETS, PATTERN], table, output)
        print_head(["rows", "bytes", "seconds", "seconds as text", "ratio", "MB", "MB of the bytes",
                    "other bytes a row"])
        size = os.path.getsize(table)
        print_row([str(rows), str(size), "%.3f" % run.seconds, "%.3f" % of_text.seconds,
                   ratio(run.seconds, of_text.seconds), "%.1f" % (run.peak / 1024),
                   "%.1f" % (size / 2**20), "%.0f" % ((run.peak * 1024 - size) / rows)])


if __name__ == "__main__":
    main()
