#!/usr/bin/env python3
"""How the time of random patterns grows with the trace: those whose time a segment grows.

    python3 bench/cost/random_growth.py PATH_OF_MONTRE [COUNT]

A pattern whose time a segment grows past 1.5 times from 1,000 to 4,000 segments is printed, unless
its zones explain it. The patterns are the same in each run. For Linux. Standard library alone.
"""

import os
import random
import resource
import subprocess
import sys
import tempfile

SHORT, LONG = 1000, 4000
COUNT = 500
SIZE = 12       # nodes of a pattern, at most
GROWTH = 1.5    # of the time a segment, at most
SECONDS = 20    # processor time that one run may take
BYTES = 3 << 30
TURNS = 3       # runs of each, of which the fastest counts
SHAPES = ["turns", "gaps", "pulses", "held", "mixed"]


def segment(shape, place, pick):
    """What is true on a segment."""
    if shape == "turns":
        return ["p", "q"][place % 2]
    if shape == "gaps":
        return ["p", "q", "", "r", "p q", ""][place % 6]
    if shape == "pulses":
        return ["p", ""][place % 2]
    if shape == "held":
        return "p q" if pick.random() < 0.9 else "p"
    return " ".join(name for name in "pqr" if pick.random() < 0.5)


def trace(shape, size):
    pick = random.Random(7)
    rows = ("%d %s" % (pick.randrange(1, 5), segment(shape, place, pick)) for place in range(size))
    return "\n".join(row.rstrip() for row in rows) + "\n"


def interval(pick):
    low = pick.randrange(0, 4)
    return "[%d,%d]" % (low, low + pick.randrange(0, 5))


def atom(pick):
    name = pick.choice("pqr")
    forms = [name, name, "!" + name, "eps", "rise(%s)" % name, "fall(%s)" % name, "<:%s:>" % name]
    return pick.choice(forms)


def pattern(size, pick):
    """A pattern of so many nodes."""
    if size <= 1:
        return atom(pick)
    form = pick.choice(["%s", "%s", "*", "+", ";", ";", "|", "&"])
    if form == "%s":
        return "(%s) %% %s" % (pattern(size - 1, pick), interval(pick))
    if form in "*+":
        return "(%s)%s" % (pattern(size - 1, pick), form)
    left = pick.randrange(1, max(size - 1, 2))
    return "(%s)%s(%s)" % (pattern(left, pick), form, pattern(max(size - 1 - left, 1), pick))


def limit():
    resource.setrlimit(resource.RLIMIT_CPU, (SECONDS, SECONDS))
    resource.setrlimit(resource.RLIMIT_AS, (BYTES, BYTES))


def run_once(montre, words, path):
    """The processor time, and how many lines were printed; None where the run was stopped."""
    before = resource.getrusage(resource.RUSAGE_CHILDREN)
    with open(path) as given:
        run = subprocess.run([montre, words], stdin=given, stdout=subprocess.PIPE,
                             stderr=subprocess.DEVNULL, check=False, preexec_fn=limit)
    after = resource.getrusage(resource.RUSAGE_CHILDREN)
    if run.returncode != 0:
        return None
    seconds = after.ru_utime + after.ru_stime - before.ru_utime - before.ru_stime
    return seconds, run.stdout.count(b"\n")


def fastest(montre, words, path):
    runs = [run_once(montre, words, path)]
    while None not in runs and len(runs) < TURNS:
        runs.append(run_once(montre, words, path))
    return None if None in runs else min(runs)


def grows(montre, words, paths):
    """Says how the time and the zones grow, where the time a segment grows too much."""
    few, many = (fastest(montre, words, path) for path in paths)
    if few is None or many is None:
        return "stopped"
    least = 0.002  # what starting the program takes
    time = (many[0] + least) / (few[0] + least) * SHORT / LONG
    zones = many[1] / few[1] * SHORT / LONG
    if time <= GROWTH:
        return None
    told = "time %.2f, zones %.2f" % (time, zones)
    return told + (", by its zones" if time <= GROWTH * zones else "")


def main():
    if len(sys.argv) not in (2, 3):
        sys.exit("usage: python3 bench/cost/random_growth.py PATH_OF_MONTRE [COUNT]")
    montre = os.path.abspath(sys.argv[1])
    count = int(sys.argv[2]) if len(sys.argv) == 3 else COUNT
    pick = random.Random(1)
    many = explained = 0
    with tempfile.TemporaryDirectory() as folder:
        for shape in SHAPES:
            for size in (SHORT, LONG):
                with open(os.path.join(folder, "%s%d" % (shape, size)), "w") as file:
                    file.write(trace(shape, size))
        for place in range(count):
            shape = SHAPES[place % len(SHAPES)]
            words = pattern(pick.randrange(1, SIZE + 1), pick)
            paths = [os.path.join(folder, "%s%d" % (shape, size)) for size in (SHORT, LONG)]
            told = grows(montre, words, paths)
            if told is not None:
                many += 1
                explained += told.endswith("zones")
                print("%s over %s: %s" % (words, shape, told), flush=True)
    print("%d patterns, %d grow, %d of them by their zones" % (count, many, explained))


if __name__ == "__main__":
    main()
