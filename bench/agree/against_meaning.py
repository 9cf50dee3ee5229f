#!/usr/bin/env python3
"""montre beside a plain slow reading of docs/meaning.md.

    python3 bench/agree/against_meaning.py PATH_OF_MONTRE

Each pattern stands in cases.py as a tree beside its spelling. Over each small trace
the tree is read by the definitions (meaning.py), and each pair of half ticks is
compared with the zones that montre prints: over lines of text, a dump and columns,
with a scale, less another pattern, as strips, after each block of --online, and
after each block of --watch, where many patterns stand in one file.
"""

import os
import re
import subprocess
import sys
import tempfile
from functools import lru_cache

import meaning
from cases import (ALL, are_in_order, declared, end_of, forms_of, holds, key_of, make_trace,
                   read_zone, spelled, star_of_turns, with_names)
from meaning import FINE, STEP, cuts, front, strip_zones

TRACES = 42
NAMES = ["at", "end", "p", "_", "b.c_1", *("check%d" % place for place in range(59))]

pairs = lru_cache(maxsize=1000)(meaning.pairs)


def run_montre(montre, words, text):
    """The lines that are printed."""
    done = subprocess.run([montre, *words], input=text, text=True,
                          stdout=subprocess.PIPE, check=True)
    return done.stdout.splitlines()


@lru_cache(maxsize=2 * len(ALL))
def online(montre, spelling, form):
    """The lines of --online."""
    words = [*form.options, "--online", spelled(spelling, form)]
    return run_montre(montre, words, form.text)


# ---- comparing

def seen(trace):
    return [(segment.length, sorted(segment.on | segment.events)) for segment in trace.segments[:9]]


def differing(spelling, zones, meant, trace, count):
    """How many pairs were compared, are matches, and differ."""
    zones = [zone for zone in zones if zone[0][0] * FINE < count]
    times = range(0, count, STEP)
    grid = [(begin, end) for begin in times for end in times]
    wrong = [pair for pair in grid
             if (pair in meant) != any(holds(zone, *pair) for zone in zones)]
    for begin, end in wrong:
        print("differs: %s over %s from %g to %g: the meaning says %s"
              % (spelling, seen(trace), begin / FINE, end / FINE, (begin, end) in meant))
    return len(grid), len(meant.intersection(grid)), len(wrong)


def compare(montre, words, form, meant, trace, count):
    """The zones of an offline run, and its last line."""
    words = [*form.options, *words]
    lines = run_montre(montre, words, form.text)
    zones = [read_zone(line, form) for line in lines[:-1]]
    compared, matches, differ = differing(words, zones, meant, trace, count)
    is_fine = lines[-1] == "end " + end_of(cuts(trace, 1)[-1], form) and are_in_order(zones, [])
    if not is_fine:
        print("differs: %s over %s prints %s" % (words, seen(trace), lines))
    return compared, matches, differ + (not is_fine)


def blocks_of(lines):
    """The lines of each block, and the line behind them."""
    blocks, block = [], []
    for line in lines:
        if re.match(r"(at|end) \d", line):
            blocks.append((block, line))
            block = []
        else:
            block.append(line)
    return blocks + ([(block, None)] if block else [])


def is_fine_block(zones, before, begin, end):
    """Zones that end in a segment, in order, none of which is included in one before."""
    return are_in_order(zones, before) and all(
        begin <= zone[1][0] and zone[1][1] <= end for zone in zones)


def compare_blocks(words, lines, form, tree, trace, count):
    """After each block, for the segments up to there; and behind the last, for the whole trace."""
    ends, size = cuts(trace, 1), len(trace.segments)
    ends.append(ends[-1])
    wanted = ["at " + end_of(end, form) for end in ends[1:-1]] + ["end " + end_of(ends[-1], form)]
    blocks = blocks_of(lines)
    is_fine = [behind for _, behind in blocks] == wanted
    # What the events at the end complete; without them there is nothing behind the last block.
    closes = any("event(%s)" % name in words[-1] for name in trace.last)
    all_zones, before, results = [], [], []
    for place, (block, _) in enumerate(blocks[:size + closes]):
        so_far = trace if place == size else front(trace, place + 1)
        zones = [read_zone(line, form) for line in block]
        is_fine &= is_fine_block(zones, before, *ends[place:place + 2])
        all_zones, before = all_zones + zones, zones
        here = min(count, cuts(so_far)[-1] + FINE + 1)
        results.append(differing(words, all_zones, pairs(tree, so_far, here), so_far, here))
    is_fine &= closes or blocks[-1][0] == []
    if not is_fine:
        print("differs: %s over %s prints %s" % (words, seen(trace), lines))
    compared, matches, differ = map(sum, zip(*results)) if results else (0, 0, 0)
    return compared, matches, differ + (not is_fine)


def compare_strips(montre, words, form, trees, trace):
    """The zones of --normal, of a pattern or of what another leaves of it, one by one."""
    ends, fine = cuts(trace, 1), 4 * STEP
    count = ends[-1] * fine + 1
    meant = pairs(trees[0], trace, count, fine).difference(
        *(pairs(tree, trace, count, fine) for tree in trees[1:]))
    quarters = {}
    for begin, end in meant:
        if begin % 8 == 0 and end % 4 == 0:
            quarters.setdefault(begin // 8, set()).add(end // 4)
    wanted = strip_zones(lambda begin: quarters.get(begin, set()), ends[-1])
    lines = run_montre(montre, [*form.options, "--normal", *words], form.text)
    differ = [read_zone(line, form) for line in lines[:-1]] != sorted(wanted, key=key_of)
    if differ:
        print("differs: --normal %s over %s: %s are the strips" % (words, seen(trace), wanted))
    return 0, len(wanted), int(differ)


def compare_all(montre, place, spelling, tree, trace, forms):
    """One pattern over one trace, in each way but --watch."""
    # To one tick past the end, where nothing may match.
    count = cuts(trace)[-1] + FINE + 1
    meant = pairs(tree, trace, count)
    forms = forms[:2] if "event" in spelling else forms
    results = [compare(montre, [spelled(spelling, form)], form, meant, trace, count)
               for form in forms]
    for form in forms[:2]:
        lines = online(montre, spelling, form)
        words = [*form.options, "--online", spelling]
        results.append(compare_blocks(words, lines, form, tree, trace, count))
    # Over columns there is no --minus.
    turn = place + len(trace.segments)
    other, form = ALL[turn * 7 % len(ALL)], forms[turn % 2]
    words = ["--minus", spelled(other[0], form), spelled(spelling, form)]
    left = meant - pairs(other[1], trace, count)
    results.append(compare(montre, words, form, left, trace, count))
    if cuts(trace, 1)[-1] <= 7:
        results.append(compare_strips(montre, words, form, [tree, other[1]], trace))
        form = forms[turn % len(forms)]
        results.append(compare_strips(montre, [spelled(spelling, form)], form, [tree], trace))
    return results


# ---- several patterns at once

def write_checks(path, names, checks, form):
    with open(path, "w", encoding="utf-8") as file:
        file.write("# Some checks.\n\n")
        for name, (spelling, _) in zip(names, checks):
            file.write("\t%s =%s\n" % (name, spelled(spelling, form)))


def lines_by_name(lines, names):
    """What each name has, with the lines behind all blocks; and whether names are in order."""
    own, in_order = {name: [] for name in names}, True
    for block, behind in blocks_of(lines):
        labels = [line.partition(" ")[::2] for line in block]
        places = [names.index(name) for name, _ in labels]
        in_order &= places == sorted(places)
        for name, line in labels:
            own[name].append(line)
        for name in names:
            own[name].append(behind)
    return own, in_order


def compare_watch(montre, path, checks, trace, form):
    """Some patterns in one file: by the meaning, and beside the lines of each alone."""
    count = cuts(trace)[-1] + FINE + 1
    names = NAMES[:len(checks)]
    write_checks(path, names, checks, form)
    lines = run_montre(montre, ["--watch", *form.options, path], form.text)
    own, in_order = lines_by_name(lines, names)
    results = [(0, 0, int(not in_order))]
    for name, (spelling, tree) in zip(names, checks):
        words = ["--watch", *form.options, name, spelling]
        compared, matches, differ = compare_blocks(words, own[name], form, tree, trace, count)
        is_alone = own[name] == online(montre, spelling, form)
        if not is_alone:
            print("differs: %s over %s prints %s" % (words, seen(trace), own[name]))
        results.append((compared, matches, differ + (not is_alone)))
    return results


def watch_all(montre, path, place, trace, forms):
    """All patterns over one trace, in files of some checks each, whose names make several groups in
    every other file."""
    size, results = (5, 11, len(ALL))[place % 3], []
    for turn, start in enumerate(range(0, len(ALL), size)):
        checks, form = ALL[start:start + size], forms[(turn + place // 2) % 2]
        if (turn // 2 + place // 4) % 2:
            checks = list(with_names(checks))
            form = declared(form, checks)
        results += compare_watch(montre, path, checks, trace, form)
    return results


def compare_trace(montre, path, place):
    """All patterns over one trace. The first has no segment, the others have one to five; every
    other one has events."""
    trace = make_trace(place, 1 + place % 5 if place else 0, place % 2 == 0)
    forms, results = forms_of(trace, place), []
    for number, (spelling, tree) in enumerate(ALL):
        results += compare_all(montre, number, spelling, tree, trace, forms)
    return results + watch_all(montre, path, place, trace, forms)


def compare_long(montre):
    """Of a long trace the first 12 ticks: what comes later can't change them."""
    spelling, tree, trace = star_of_turns(200)
    count = 12 * FINE + 1
    form = forms_of(trace, 0)[0]
    zones = [read_zone(line, form) for line in run_montre(montre, [spelling], form.text)[:-1]]
    return differing(spelling, zones, pairs(tree, trace, count), trace, count)


def main():
    if len(sys.argv) != 2:
        sys.exit("usage: python3 bench/agree/against_meaning.py PATH_OF_MONTRE")
    montre = os.path.abspath(sys.argv[1])
    results = []
    with tempfile.TemporaryDirectory() as folder:
        for place in range(TRACES):
            results += compare_trace(montre, os.path.join(folder, "checks"), place)
    results.append(compare_long(montre))
    compared, matches, differ = map(sum, zip(*results))
    print("%d runs, %d matches" % (len(results), matches))
    print("%d pairs, %d differ" % (compared, differ))
    sys.exit(1 if differ else 0)


if __name__ == "__main__":
    main()
