#!/usr/bin/env python3
"""The times of a dump in a unit, against a plain reading of what docs/vcd.md says of --unit.

    python3 bench/agree/units.py PATH_OF_MONTRE

2,000 dumps by a fixed seed, with a $timescale of every shape, or with several or none, and times of
which some are no whole number of units.
"""

import random
import re
import subprocess
import sys
from fractions import Fraction

CASES = 2000
SECONDS = {"s": Fraction(1), "ms": Fraction(1, 10 ** 3), "us": Fraction(1, 10 ** 6),
           "ns": Fraction(1, 10 ** 9), "ps": Fraction(1, 10 ** 12), "fs": Fraction(1, 10 ** 15)}
LATEST = 2 ** 40
SPELLINGS = ["%d%s", "%d %s", "%d\n%s", "%d  %s"]
NO_TICKS = ["", "ns", "5ns", "20ns", "1 NS", "01ns", "1.0ns", "1n s", "1 0ns", "1sec", "1000ns", "ns 1",
            "1 ns ns", "-1ns", "232830 fs"]


# ---- the plain reading

def tick_of(said):
    """How long a tick of the dump is, if the words of its first $timescale say it."""
    words = said.split() if said is not None else []
    if len(words) == 1:
        words = list(re.fullmatch(r"(\d*)(.*)", words[0], re.DOTALL).groups())
    if len(words) == 2 and words[0] in ("1", "10", "100") and words[1] in SECONDS:
        return int(words[0]) * SECONDS[words[1]]
    return None


def reading(statements, scale, unit, said, is_declared, end_of_head):
    """The runs of the signal and the end, in units, or the first fault with its place."""
    tick = Fraction(1) if unit is None else tick_of(said)
    if tick is None:
        return "BadScale", end_of_head
    if not is_declared:
        return "UnknownName", end_of_head
    size = tick * 10 ** scale / (SECONDS[unit] if unit else 1)
    last, level, runs, is_first = 0, "0", [], True
    for place, token in statements:
        if token[0] != "#":
            level = token[0]
            continue
        if not token[1:].isdigit():
            return "BadToken", place
        now = int(token[1:]) * size
        if now.denominator != 1:
            return "TooFine", place
        now = int(now)
        if now < last:
            return "TimeBack", place
        if now > LATEST:
            return "TooLate", place
        if is_first and now > 0:
            last = 0
        if now > last and level == "1":
            begin = runs.pop()[0] if runs and runs[-1][1] == last else last
            runs.append((begin, now))
        last, is_first = now, False
    return runs, last


def written(time, scale):
    digits = str(time).rjust(scale + 1, "0")
    return digits if scale == 0 else digits[:-scale] + "." + digits[-scale:]


def answer(found, scale):
    told, at = found
    if isinstance(told, str):
        return 4, "", "montre: trace: %s at %d\n" % (told, at)
    lines = []
    for begin, end in told:
        a, b, d = (written(time, scale) for time in (begin, end, end - begin))
        lines.append("[%s,%s) (%s,%s] (%s,%s]" % (a, b, a, b, written(0, scale), d))
    return 0, "".join(line + "\n" for line in lines + ["end " + written(at, scale)]), ""


# ---- dumps by chance

def random_scale(chance):
    """The words of a $timescale."""
    if chance.random() < 0.15:
        return chance.choice(NO_TICKS)
    return chance.choice(SPELLINGS) % (chance.choice([1, 10, 100]), chance.choice(list(SECONDS)))


def random_head(chance):
    """The text of the declarations, the words of the first $timescale in them, and whether the signal
    is there."""
    commands, said = ["$scope module tb $end\n"], None
    is_declared = chance.random() < 0.95
    if is_declared:
        commands.append("$var wire 1 ! p $end\n")
    commands.append("$upscope $end\n")
    scales = [random_scale(chance) for _ in range(chance.choice([0, 1, 1, 1, 1, 1, 2]))]
    for words in scales:
        said = words if said is None else said
        commands.insert(chance.randrange(len(commands) + 1) if len(scales) == 1 else len(commands),
                        "$timescale %s $end\n" % words)
    if chance.random() < 0.2:
        commands.insert(0, "$comment $timescale 10ns $end\n")
    return "".join(commands), said, is_declared


def random_body(chance, size):
    """Tokens with times, mostly whole numbers of units that are `size` ticks."""
    tokens, time = [], 0
    for _ in range(chance.randrange(1, 10)):
        step = chance.choice([0, 1, 2, 3, 7, 50]) * max(1, chance.choice([size, size, size, 1]))
        time = max(0, time + step - chance.choice([0] * 30 + [2 * step + 1]))
        digits = "0" * chance.choice([0, 0, 0, 2, 20]) + str(time)
        tokens.append("#" + digits + chance.choice([""] * 60 + ["x"]))
        tokens += [chance.choice("01xz") + "!" for _ in range(chance.randrange(3))]
    if chance.random() < 0.1:
        tokens.append("#%d" % (time + chance.choice([10 ** 12, 2 ** 40, 10 ** 18, 10 ** 30])))
    return tokens


def case(chance):
    head, said, is_declared = random_head(chance)
    unit = None if chance.random() < 0.1 else chance.choice(list(SECONDS))
    scale = chance.choice([0, 0, 0, 1, 2, 3, 6, 9])
    tick = tick_of(said)
    size = int(SECONDS[unit] / 10 ** scale / tick) if unit and tick else 1
    text, statements = head + "$enddefinitions $end\n", []
    for token in random_body(chance, size):
        statements.append((len(text), token))
        text += token + chance.choice(["\n", "\n", " ", "\r\n"])
    words = ["--format", "vcd", "--scale", str(scale)] + (["--unit", unit] if unit else [])
    return words, text, answer(reading(statements, scale, unit, said, is_declared, len(head)), scale)


def is_right(montre, chance):
    words, text, wanted = case(chance)
    run = subprocess.run([montre, *words, "tb.p"], input=text.encode(), capture_output=True,
                         check=False)
    found = run.returncode, run.stdout.decode(), run.stderr.decode()
    if found != wanted:
        print("%r\n%sWANTED %r\nFOUND %r" % (words, text, wanted, found))
    return found == wanted, wanted[2].split()[2] if wanted[2] else "Done"


def main():
    if len(sys.argv) != 2:
        sys.exit("usage: python3 bench/agree/units.py PATH_OF_MONTRE")
    chance = random.Random(23)
    results = [is_right(sys.argv[1], chance) for _ in range(CASES)]
    kinds = [kind for _, kind in results]
    print(", ".join("%d %s" % (kinds.count(kind), kind) for kind in sorted(set(kinds))))
    wrong = sum(not right for right, _ in results)
    print("%d dumps, %d wrong" % (len(results), wrong))
    sys.exit(wrong > 0)


if __name__ == "__main__":
    main()
