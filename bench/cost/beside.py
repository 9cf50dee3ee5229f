#!/usr/bin/env python3
"""Random patterns online, by two programs: where the first takes longer, and where they differ.

    python3 bench/cost/beside.py PATH_OF_MONTRE PATH_OF_ANOTHER [COUNT [FIRST]]

Each pattern runs over 40 segments, where the pairs that both tell have to be the same, and over
1,000 and 4,000 segments of one of seven shapes. It is printed where the first program takes 1.5
times the instructions of the other, by valgrind where the seconds say that it may, or where its
seconds grow 1.5 times as much. The patterns are the same in each run. For Linux, with valgrind.
"""

import os
import random
import re
import resource
import subprocess
import sys
import tempfile
from concurrent.futures import ThreadPoolExecutor

import random_growth
from random_growth import pattern

COUNT = 2000
SIZE = 20
FEW, SHORT, LONG = 40, 1000, 4000
SECONDS = 20
BYTES = 3 << 30
LEAST = 0.003       # what starting a program takes, and what isn't told from chance
FACTOR = 1.5
SHAPES = random_growth.SHAPES + ["clock", "equal"]
RANGE = re.compile(r"([\[(])([\d.]+),([\d.]+|inf)([\])])")


def trace(shape, size):
    if shape == "clock":
        pick = random.Random(5)
        return "".join("1%s%s%s\n" % ("" if place % 2 else " p", " q" if pick.random() < .3 else "",
                                      " r" if pick.random() < .1 else "") for place in range(size))
    if shape == "equal":
        return "1 p q r\n" * size
    return random_growth.trace(shape, size)


def limit():
    resource.setrlimit(resource.RLIMIT_CPU, (SECONDS, SECONDS))
    resource.setrlimit(resource.RLIMIT_AS, (BYTES, BYTES))


def told(montre, words, path):
    """What the run prints, or None where it was stopped."""
    with open(path) as given:
        run = subprocess.run([montre, "--online", words], stdin=given, stdout=subprocess.PIPE,
                             stderr=subprocess.DEVNULL, check=False, preexec_fn=limit)
    return run.stdout.decode() if run.returncode == 0 else None


def seconds(montre, words, path):
    """The processor time of the run, and the bytes of its text."""
    with open(path) as given:
        run = subprocess.Popen([montre, "--online", words], stdin=given, stdout=subprocess.PIPE,
                               stderr=subprocess.DEVNULL, preexec_fn=limit)
        size = 0
        while piece := run.stdout.read(1 << 20):
            size += len(piece)
        _, status, usage = os.wait4(run.pid, 0)
        run.returncode = status
        run.stdout.close()
    if status != 0:
        return float(SECONDS), size
    return usage.ru_utime + usage.ru_stime, size


def counted(montre, words, path):
    command = ["valgrind", "--tool=callgrind", "--callgrind-out-file=/dev/null", montre, "--online",
               words]
    with open(path) as given:
        run = subprocess.run(command, stdin=given, stdout=subprocess.DEVNULL,
                             stderr=subprocess.PIPE, check=False)
    found = re.search(rb"Collected : (\d+)", run.stderr)
    return int(found.group(1)) if found else 0


def places(low, high, has_low, has_high, count):
    """The half ticks from one time to the other, as the first place and the last."""
    first = 2 * float(low)
    last = 2 * float(high) if high != "inf" else float(count)
    first = int(first) if first == int(first) and has_low else int(first) + 1
    if last == int(last) and not has_high:
        last -= 1
    return first, min(int(last), count)


def pairs(output):
    """For each half tick the ends of the pairs that begin there, as bits."""
    count = 2 * int(output.split()[-1])
    rows = [0] * (count + 1)
    for line in output.splitlines():
        ranges = [places(low, high, left == "[", right == "]", count)
                  for left, low, high, right in RANGE.findall(line)]
        if not ranges:
            continue
        begins, ends, lasts = ranges
        for begin in range(max(begins[0], 0), begins[1] + 1):
            first = max(ends[0], begin + lasts[0], 0)
            last = min(ends[1], begin + lasts[1], count)
            if first <= last:
                rows[begin] |= (1 << last + 1) - (1 << first)
    return rows


def differs(programs, words, path):
    one, other = (told(program, words, path) for program in programs)
    if one is None or other is None:
        return "stopped" if one != other else None
    return None if pairs(one) == pairs(other) else "DIFFER"


def slower(programs, words, paths):
    """Says how much slower the first is, where it is."""
    first, second = ([seconds(program, words, path) for path in paths] for program in programs)
    both = "%.3f %.3f, before %.3f %.3f, kB %d" % (first[0][0], first[1][0], second[0][0],
                                                   second[1][0], first[1][1] // 1000)
    new = [one[0] + LEAST for one in first]
    old = [one[0] + LEAST for one in second]
    if new[1] / new[0] > FACTOR * old[1] / old[0] and new[1] > old[1] and new[1] > 4 * LEAST:
        again = [min(seconds(program, words, path)[0] for _ in range(3)) + LEAST
                 for program in programs for path in paths]
        if again[1] / again[0] > FACTOR * again[3] / again[2]:
            return "grows: " + both
    if new[1] < 1.2 * old[1]:
        return None
    if old[1] > 2:
        return "longer: " + both if new[1] > FACTOR * old[1] else None
    if new[1] > 3:
        return "longer: " + both
    one, other = (counted(program, words, paths[0]) for program in programs)
    if one > FACTOR * other:
        return "%.2f of the instructions: %s" % (one / max(other, 1), both)
    one, other = (counted(program, words, paths[1]) for program in programs)
    return "%.2f of the instructions: %s" % (one / other, both) if one > FACTOR * other else None


def look(programs, folder, place, shape, words):
    few, short, long = (os.path.join(folder, "%s%d" % (shape, size)) for size in (FEW, SHORT, LONG))
    found = [said for said in (differs(programs, words, few),
                               slower(programs, words, (short, long))) if said is not None]
    if found:
        print("%d %s over %s: %s" % (place, words, shape, "; ".join(found)), flush=True)
    return found


def main():
    if len(sys.argv) < 3:
        sys.exit("usage: python3 bench/cost/beside.py PATH_OF_MONTRE PATH_OF_ANOTHER "
                 "[COUNT [FIRST]]")
    programs = [os.path.abspath(path) for path in sys.argv[1:3]]
    count = int(sys.argv[3]) if len(sys.argv) > 3 else COUNT
    first = int(sys.argv[4]) if len(sys.argv) > 4 else 0
    pick = random.Random(84)
    with tempfile.TemporaryDirectory() as folder, ThreadPoolExecutor(2) as pool:
        for shape in SHAPES:
            for size in (FEW, SHORT, LONG):
                with open(os.path.join(folder, "%s%d" % (shape, size)), "w") as file:
                    file.write(trace(shape, size))
        jobs = []
        for place in range(count):
            words = pattern(pick.randrange(1, SIZE + 1), pick)
            if place >= first:
                jobs.append(pool.submit(look, programs, folder, place,
                                        SHAPES[place % len(SHAPES)], words))
        found = [said for job in jobs for said in job.result()]
    print("%d patterns, %d differ, %d slower or growing" % (
        len(jobs), sum(said == "DIFFER" for said in found),
        sum(said != "DIFFER" for said in found)))


if __name__ == "__main__":
    main()
