#!/usr/bin/env python3
"""Compares the patterns of docs/clocked.md with a plain reading of the assertions beside them.

    python3 bench/agree/assertions.py PROGRAM [TRACES]

An assertion is read over cycles alone: of each edge of the clock the set of the signals that are
true in the tick before it. Its matches are pairs of edges, each tried by the words of the
assertion. The pattern of the row has to find just these pairs over random traces, from one tick
before the first edge to the last one, alone and as a check of --watch. Where the row has a check,
`--check` has to say of it whether it holds, and to show just the samples that fail, or that wait.
"""

import os
import random
import re
import subprocess
import sys
import tempfile
from collections import Counter

PAGE = os.path.join(os.path.dirname(os.path.abspath(__file__)), "..", "..", "docs", "clocked.md")
ROW = re.compile(r"\| `([^`]*)` \|(?: `(\w+) NAME = ([^`]*)` \|)? `([^`]*)` \|$")
SEED = 2014


# ---- the assertions, over the sampled cycles

def p(cycle): return "p" in cycle
def q(cycle): return "q" in cycle
def r(cycle): return "r" in cycle


def one(state):
    """A sequence of one cycle."""
    return lambda cycles: {(i, i) for i, cycle in enumerate(cycles) if state(cycle)}


def delay(first, low, high, second):
    """`first ##[low:high] second`; a high of None is `$`."""
    return lambda cycles: {(i, l) for i, j in first(cycles) for k, l in second(cycles)
                           if low <= k - j and (high is None or k - j <= high)}


def throughout(state, inner):
    return lambda cycles: {(i, j) for i, j in inner(cycles) if all(map(state, cycles[i:j + 1]))}


def within(inner, outer):
    return lambda cycles: {(i, j) for i, j in outer(cycles)
                           if any(i <= k and l <= j for k, l in inner(cycles))}


def both_ends(first, second):
    """`first and second`: one begin, and the later of the two ends."""
    return lambda cycles: {(i, max(j, l)) for i, j in first(cycles)
                           for k, l in second(cycles) if i == k}


def first_match(inner):
    return lambda cycles: {(i, j) for i, j in inner(cycles)
                           if j == min(l for k, l in inner(cycles) if k == i)}


def spans(holds):
    """The pairs of cycles of which this is true: it is given the cycles from one to the other."""
    return lambda cycles: {(i, j) for j in range(len(cycles)) for i in range(j + 1)
                           if holds(cycles[i:j + 1])}


def stepping(holds):
    """A value function as $rose: from the cycle before to the one that it is true of."""
    return lambda cycles: {(i, i + 1) for i in range(len(cycles) - 1)
                           if holds(cycles[i], cycles[i + 1])}


def fails(first, low, high, second):
    """Where `first |-> ##[low:high] second` fails: there are the cycles, and none serves."""
    return lambda cycles: {(i, j + high) for i, j in first(cycles) if j + high < len(cycles)
                           and not any(map(second, cycles[j + low:j + high + 1]))}


def breaks_until(run):
    """p |-> (q until r) fails at the last of these cycles, and at none before it."""
    return p(run[0]) and not any(map(r, run)) and all(map(q, run[:-1])) and not q(run[-1])


X, X_TEXT = delay(one(q), 1, 1, one(r)), "AT(q) ; NEXT(r)"
W, W_TEXT = delay(one(p), 1, 3, one(p)), "AT(p) ; N? ; N? ; NEXT(p)"
PQ, ROSE = delay(one(p), 1, 3, one(q)), stepping(lambda old, new: not p(old) and p(new))
LATE = fails(one(p), 1, 3, q)
READINGS = {
    "p": one(p),
    "p ##0 q": delay(one(p), 0, 0, one(q)),
    "p ##1 q": delay(one(p), 1, 1, one(q)),
    "p ##2 q": delay(one(p), 2, 2, one(q)),
    "p ##[1:3] q": PQ,
    "p ##[1:$] q": delay(one(p), 1, None, one(q)),
    "x ##1 w": delay(X, 1, 1, W),
    "p[*3]": spans(lambda run: len(run) == 3 and all(map(p, run))),
    "p[*1:$] ##1 q": spans(lambda run: len(run) > 1 and all(map(p, run[:-1])) and q(run[-1])),
    "p[->1]": spans(lambda run: p(run[-1]) and not any(map(p, run[:-1]))),
    "first_match(p ##[1:3] q)": first_match(PQ),
    "p throughout (q ##[1:3] r)": throughout(p, delay(one(q), 1, 3, one(r))),
    "x within w": within(X, W),
    "x intersect w": lambda cycles: X(cycles) & W(cycles),
    "x or w": lambda cycles: X(cycles) | W(cycles),
    "x and w": both_ends(X, W),
    "$rose(p)": ROSE,
    "$fell(p)": stepping(lambda old, new: p(old) and not p(new)),
    "$rose(p) && $fell(q)": stepping(lambda old, new: not p(old) and p(new)
                                     and q(old) and not q(new)),
    "$changed(p)": stepping(lambda old, new: p(old) != p(new)),
    "$stable(p)": stepping(lambda old, new: p(old) == p(new)),
    "$past(p) && q": stepping(lambda old, new: p(old) and q(new)),
    "p |-> q": fails(one(p), 0, 0, q),
    "p |=> q": fails(one(p), 1, 1, q),
    "p |-> ##[1:3] q": LATE,
    "$rose(p) |-> ##[1:3] q": fails(ROSE, 1, 3, q),
    "p ##1 q |=> r": fails(delay(one(p), 1, 1, one(q)), 1, 1, r),
    "p |-> $stable(q)": stepping(lambda old, new: p(new) and q(old) != q(new)),
    "p |-> (q until r)": spans(breaks_until),
    "disable iff (r) p |-> ##[1:3] q": LATE,
}


def served(first, low, high, second):
    """`first |-> ##[low:high] second` as a check: what it is asked of, what fails, what waits."""
    def read(cycles):
        asked = first(cycles)
        left = {(i, j) for i, j in asked if not any(map(second, cycles[j + low:j + high + 1]))}
        fail = {(i, j) for i, j in left if j + high < len(cycles)}
        return asked, fail, left - fail
    return read


def all_of(first, second):
    """Each of the first is one of the second."""
    return lambda cycles: (first(cycles), first(cycles) - second(cycles), set())


def found_where(fails_at):
    """A check by `never`: it isn't asked of anything, and nothing waits."""
    return lambda cycles: ({None}, fails_at(cycles), set())


STABLE = stepping(lambda old, new: q(old) == q(new))
CHECKS = {
    "p |-> q": served(one(p), 0, 0, q),
    "p |=> q": served(one(p), 1, 1, q),
    "p |-> ##[1:3] q": served(one(p), 1, 3, q),
    "$rose(p) |-> ##[1:3] q": served(ROSE, 1, 3, q),
    "p ##1 q |=> r": served(delay(one(p), 1, 1, one(q)), 1, 1, r),
    "p |-> $stable(q)": all_of(stepping(lambda old, new: p(new)), STABLE),
    "p |-> (q until r)": found_where(spans(breaks_until)),
    "disable iff (r) p |-> ##[1:3] q": found_where(LATE),
}


# ---- the traces

def random_trace(dice):
    """Some cycles of a clock, as the set of the signals that are true for each tick."""
    clock = []
    for _ in range(dice.randint(0, 14)):
        clock += [False] * dice.randint(1, 3) + [True] * dice.randint(1, 3)
    clock = clock[dice.randint(0, 3):] + [False] * dice.randint(0, 2)
    ticks = [{"clk"} if high else set() for high in clock]
    for name in "pqr":
        at_edges, on = dice.random() < 0.5, dice.random() < 0.5
        often = dice.choice([0.05, 0.2, 0.5, 0.8])
        for place, tick in enumerate(ticks):
            edge = place > 0 and clock[place] and not clock[place - 1]
            if dice.random() < often and (edge or not at_edges):
                on = not on
            if on:
                tick.add(name)
    return ticks


def edges_of(ticks):
    clock = ["clk" in tick for tick in ticks]
    return [time for time in range(1, len(ticks)) if clock[time] and not clock[time - 1]]


def cycles_of(ticks):
    return [ticks[time - 1] for time in edges_of(ticks)]


def times_of(assertion, found, ticks):
    """The times of pairs of cycles, each from a tick before its first edge to its last edge."""
    edges = edges_of(ticks)
    times = {(edges[i] - 1, edges[j]) for i, j in found}
    if assertion.startswith("disable iff (r)"):
        times = {(begin, end) for begin, end in times if not any(map(r, ticks[begin:end]))}
    return times


def wanted(assertion, ticks):
    """The matches of an assertion."""
    return times_of(assertion, READINGS[assertion](cycles_of(ticks)), ticks)


def verdict(assertion, ticks):
    """The verdict on an assertion, and the samples that it is about."""
    asked, fail, wait = CHECKS[assertion](cycles_of(ticks))
    fail, wait = times_of(assertion, fail, ticks), times_of(assertion, wait, ticks)
    if fail:
        return "fail", fail
    if not asked:
        return "vacuous", set()
    return ("open", wait) if wait else ("pass", set())


# ---- the patterns

def at(state):
    return "({!clk && (%s)} %% [1,1]) ; rise(clk)" % state


def spelled(pattern):
    """A pattern of the page, with what its short words stand for."""
    pattern = re.sub(r"\bx\b", "(%s)" % X_TEXT, re.sub(r"\bw\b", "(%s)" % W_TEXT, pattern))
    pattern = re.sub(r"\bN\b", "(clk ; !clk ; rise(clk))", pattern)
    pattern = re.sub(r"NEXT\(([^()]*)\)", lambda word: "clk ; !clk? ; " + at(word[1]), pattern)
    return re.sub(r"\bAT\(([^()]*)\)", lambda word: at(word[1]), pattern)


def rows_of(page):
    with open(page, encoding="utf-8") as opened:
        cells = [ROW.match(line.replace("\\|", "\1")) for line in opened if line.startswith("| `")]
    rows = [[(cell or "").replace("\1", "|") for cell in found.groups()] for found in cells if found]
    return [(assertion, spelled(pattern), word, spelled(check))
            for assertion, word, check, pattern in rows]


def run(program, *words):
    done = subprocess.run([program, *words], capture_output=True, text=True)
    if done.returncode not in (0, 13):
        sys.exit("%s: %s" % (words, done.stderr))
    return done.stdout.splitlines()


def pair(line):
    """The one pair of a zone, or the zone where it holds more."""
    low, high, first, last = map(int, re.findall(r"\d+", line)[:4])
    return (low, last) if low == high and first == last else line


def answers(program, rows, folder):
    """For each row its answers alone, and as a check of a file."""
    trace, checks = os.path.join(folder, "trace"), os.path.join(folder, "checks")
    lines = [line.partition(" ") for line in run(program, "--watch", "--input", trace, checks)]
    for place, (_, pattern, *_) in enumerate(rows):
        alone = {pair(line) for line in run(program, "--input", trace, "--", pattern)[:-1]}
        yield alone, {pair(zone) for name, _, zone in lines if name == "c%d" % place}


def verdicts(program, rows, folder):
    """For each row with a check its verdict, and the pairs below it."""
    trace, checks = os.path.join(folder, "trace"), os.path.join(folder, "verdicts")
    lines = [line.split(" ", 1) for line in run(program, "--check", "--input", trace, checks)]
    for place, row in enumerate(rows):
        name = "c%d" % place
        if row[2]:
            said = [first for first, rest in lines if rest == name]
            yield row[0], (" ".join(said), {pair(rest) for first, rest in lines if first == name})


def write_checks(folder, rows):
    with open(os.path.join(folder, "checks"), "w") as checks:
        checks.writelines("c%d = %s\n" % (place, row[1]) for place, row in enumerate(rows))
    with open(os.path.join(folder, "verdicts"), "w") as checks:
        checks.writelines("%s c%d = %s\n" % (row[2], place, row[3])
                          for place, row in enumerate(rows) if row[2])


def main(program, count=200):
    rows, dice, wrong = rows_of(PAGE), random.Random(SEED), 0
    matches = dict.fromkeys(READINGS, 0)
    told = Counter()
    missing = set(READINGS) ^ {row[0] for row in rows} | set(CHECKS) ^ {row[0] for row in rows if row[2]}
    if missing:
        sys.exit("no row of the page, or no reading: %s" % ", ".join(sorted(missing)))
    with tempfile.TemporaryDirectory() as folder:
        write_checks(folder, rows)
        for _ in range(int(count)):
            ticks = random_trace(dice)
            with open(os.path.join(folder, "trace"), "w") as trace:
                trace.writelines(" ".join(["1", *sorted(tick)]) + "\n" for tick in ticks)
            for assertion, found in verdicts(program, rows, folder):
                told[found[0]] += 1
                if found != verdict(assertion, ticks):
                    wrong += 1
                    print("%s over %s: %s, and not %s"
                          % (assertion, ticks, found, verdict(assertion, ticks)))
            for (assertion, *_), found in zip(rows, answers(program, rows, folder)):
                right = wanted(assertion, ticks)
                matches[assertion] += len(right)
                if any(answer != right for answer in found):
                    wrong += 1
                    print("%s over %s: %s, and not %s" % (assertion, ticks, found, right))
    print("%d rows, %s traces, %d matches, of each row at least %d"
          % (len(rows), count, sum(matches.values()), min(matches.values())))
    print(", ".join("%d %s" % (told[word], word) for word in sorted(told)))
    print("%d differ" % wrong)
    return 1 if wrong else 0


if __name__ == "__main__":
    sys.exit(main(*sys.argv[1:]))
