#!/usr/bin/env python3
"""What reading a long value change dump takes, beside `wc -w` on the same file: one markdown table.

    python3 bench/cost/vcd.py PATH_OF_MONTRE [MEGABYTES]

For Linux. Standard library alone.
"""

import functools
import os
import sys
import tempfile

from measure import BESIDE_WORDS, adopt_orphans, print_beside_words, print_head

MEGABYTES = 100
AT_ONCE = 8    # signals that change at one time
ROUNDS = 28    # after which all begins anew
FIRST, LAST = ord("!"), ord("~")


def identifier(number):
    """Signs as simulators give them: one byte each, and the ninety-fifth has two."""
    count = LAST - FIRST + 1
    byte = chr(FIRST + number % count)
    return byte if number < count else byte + identifier(number // count - 1)


def sign_of(signal):
    """Some of one byte and some of two."""
    return identifier(signal + 60)


class Dump:
    """A dump of so many signals. Of each eight the last `wide` have eight bits, the others one.

    The two that are asked for are never high together, so next to nothing is done but reading.
    """

    def __init__(self, signals, asked, wide=1):
        self.signals, self.asked, self.wide = signals, asked, wide
        self.parts = max(1, signals // AT_ONCE)
        self.changes = functools.lru_cache(None)(self.changes_in)

    def is_wide(self, signal):
        return signal % 8 >= 8 - self.wide

    def change(self, signal, on):
        if self.is_wide(signal):
            return "b%s %s\n" % ("10100101" if on else "1011010", sign_of(signal))
        return "%d%s\n" % (on, sign_of(signal))

    def declaration(self, signal):
        size, reach = (8, " [7:0]") if self.is_wide(signal) else (1, "")
        return "$var wire %d %s s%d%s $end\n" % (size, sign_of(signal), signal, reach)

    def pattern(self):
        return "{%s}" % " && ".join("top.u0.s%d" % signal for signal in self.asked)

    def pattern_of_all(self):
        """The same for all signals of one bit."""
        return "{%s}" % " && ".join("top.u0.s%d" % signal for signal in range(self.signals)
                                    if not self.is_wide(signal))

    def head(self):
        signals = range(self.signals)
        return ("$date made by a rule $end\n$timescale 1ns $end\n$scope module top $end\n"
                "$scope module u0 $end\n" + "".join(map(self.declaration, signals))
                + "$upscope $end\n$upscope $end\n$enddefinitions $end\n#0\n$dumpvars\n"
                + "".join(self.change(signal, False) for signal in signals) + "$end\n")

    def is_high(self, signal, round_):
        """Whether a signal is high in this round: one of the two asked is, the other isn't."""
        if signal == self.asked[1]:
            return not self.is_high(self.asked[0], round_)
        return (signal * 5 + round_ * 3 + round_ // 7) % 4 < 2

    def changes_in(self, round_, part):
        return "".join(self.change(signal, self.is_high(signal, round_))
                       for signal in range(part, self.signals, self.parts))

    def changes_at(self, step):
        """At one time eight signals change, or all of fewer: one part behind another."""
        return self.changes(*divmod(step % (ROUNDS * self.parts), self.parts))

    def block(self, step):
        return "#%d\n%s" % (5 * step, self.changes_at(step))

    def block_without_time(self, step):
        """The same changes, and hardly a time among them, so that hardly a segment is kept."""
        return ("#%d\n" % step if step % 100000 == 0 else "") + self.changes_at(step)


ALL = Dump(64, (5, 45))           # the dump of the pages
FEW = Dump(2, (0, 1))
MANY = Dump(2000, (4, 254))
VECTORS = Dump(64, (0, 40), 7)    # of which only eight signals have one bit


def write_dump(path, dump, block, megabytes):
    """Writes the dump, and counts its times."""
    times = 0
    with open(path, "w") as file:
        step, written = 1, file.write(dump.head())
        while written < megabytes * 1000000:
            text = block(step)
            times += text.startswith("#")
            written += file.write(text)
            step += 1
        file.write("#%d\n" % (5 * step))
    return times + 1


def report(montre, folder, name, block, megabytes, patterns=(ALL.pattern(),)):
    dump, output = os.path.join(folder, "dump"), os.path.join(folder, "output")
    times = write_dump(dump, ALL, block, megabytes)
    for pattern in patterns:
        names = str(1 + pattern.count("&&"))
        print_beside_words([name, names, str(megabytes), str(times)],
                           [montre, "--format", "vcd", pattern], dump, output)


def main():
    if len(sys.argv) not in (2, 3):
        sys.exit("usage: python3 bench/cost/vcd.py PATH_OF_MONTRE [MEGABYTES]")
    montre = os.path.abspath(sys.argv[1])
    most = int(sys.argv[2]) if len(sys.argv) == 3 else MEGABYTES
    adopt_orphans()
    with tempfile.TemporaryDirectory() as folder:
        print_head(["dump", "names of the pattern", "MB of input", "times"] + BESIDE_WORDS)
        report(montre, folder, "64 signals", ALL.block, most,
               (ALL.pattern(), ALL.pattern_of_all()))
        report(montre, folder, "hardly a time", ALL.block_without_time, max(1, most // 10))
        report(montre, folder, "hardly a time", ALL.block_without_time, most)


if __name__ == "__main__":
    main()
