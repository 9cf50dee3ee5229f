"""Writes a copy of a dump with signals for the matches of patterns, for a waveform viewer.

usage: to_vcd.py [--checks FILE] [--define TEXT] [--scale K] DUMP [NAME=]PATTERN.. > COPY
       to_vcd.py .. --out COPY DUMP [NAME=]PATTERN..

The signal montre.NAME is high from the start of a match to its end, and at each match that is a
single moment the event montre.NAME_moment happens. Without a name it is montre.match. A zone counts
from its earliest start to its latest end, and matches that touch as one. --checks takes the
patterns of such a file, and --define and --scale are those of montre. It runs `montre`, or the
program that MONTRE names, once for each pattern.

With --out it writes a file for GTKWave beside the copy too, COPY with .gtkw for .vcd, in which the
signals of the patterns and the matches are shown, with a marker at the first match of each.

Refused: two patterns of one name, a name that the dump has already, and a match that begins or ends
between two ticks of the dump.
"""
import argparse
import itertools
import math
import os
import re
import sys
from fractions import Fraction

import dumps
from matches import checks_of, matches, named, with_lets
from waves import definitions, names_in


def joined(stretches):
    """The stretches that take time, those that touch made one."""
    whole = []
    for start, end in stretches:
        if whole and start <= whole[-1][1]:
            whole[-1] = whole[-1][0], max(end, whole[-1][1])
        elif start < end:
            whole.append((start, end))
    return whole


def changes(stretches, level, moment):
    """The changes of a pattern's two signals, by their times."""
    at = {0: [b"0" + level]}
    for start, end in joined(stretches):
        at.setdefault(start, []).append(b"1" + level)
        at.setdefault(end, []).append(b"0" + level)
    for start, end in stretches:
        if start == end:
            at.setdefault(start, []).append(b"1" + moment)
    return at


def with_signals(header, names):
    """The text of a header with two signals for each name, and their identifiers."""
    text = b"$upscope $end\n" * len(header.scopes) + b"$scope module montre $end\n"
    given, number = [], 0
    for name in names:
        for kind, own in (("wire", name), ("event", name + "_moment")):
            taken = header.events if kind == "event" else header.signals
            if "montre." + own in taken:
                sys.exit("to_vcd.py: the dump has a montre.%s already" % own)
            number += 1
            while b"montre~%d" % number in header.identifiers:
                number += 1
            given.append(b"montre~%d" % number)
            taken["montre." + own] = given[-1]
            text += b"$var %s 1 %s %s $end\n" % (kind.encode(), given[-1], own.encode())
    return header.head + text + b"$upscope $end\n" + header.tail, given


class Copy:
    """The values of a dump, with more changes: those of a time before the first time after it."""

    def __init__(self, at):
        self.at, self.times, self.now = at, sorted(at, reverse=True), 0
        self.waits = self.comment = False

    def changes_before(self, time):
        """The new changes that come before a time, all of them without one."""
        text = b""
        while self.times and (time is None or self.times[-1] < time):
            own = self.times.pop()
            text += b"" if own == self.now else b"#%d\n" % own
            text += b"".join(change + b"\n" for change in self.at[own])
        return text

    def word(self, word, begins):
        """What is written before a word, which may begin its line."""
        if not word:
            return b""
        if self.waits:
            self.waits = False      # the identifier of a vector, which may begin with `#` or `$`
        elif self.comment:
            self.comment = word != b"$end"
        elif word[:1] == b"#":
            text, self.now = self.changes_before(int(word[1:])), int(word[1:])
            return text if begins or not text else b"\n" + text
        else:
            self.comment = word == b"$comment"
            self.waits = word[:1] in (b"b", b"B", b"r", b"R", b"s", b"S")
        return b""

    def line(self, line):
        words = line.split()
        if not self.waits and not self.comment and self.is_plain(words):
            self.now = int(words[0][1:]) if words[0][:1] == b"#" else self.now
            return line
        pieces = re.findall(rb"\s*\S+|\s+$", line)
        return b"".join(self.word(piece.strip(), piece is pieces[0]) + piece for piece in pieces)

    def is_plain(self, words):
        """Whether a line is one change, or a time before which nothing has to be written."""
        if len(words) == 1:
            first = words[0][:1]
            if first == b"#":
                return not self.times or self.times[-1] >= int(words[0][1:])
            return first in b"01xXzZ"
        return len(words) == 2 and words[0][:1] in b"bBrRsS"


def in_ticks(stretches, tick, name):
    """The stretches in ticks of the dump, each of which has to be whole."""
    whole = [tuple(Fraction(time) / tick for time in stretch) for stretch in stretches]
    if any(time.denominator != 1 for stretch in whole for time in stretch):
        sys.exit("to_vcd.py: a match of %s isn't at ticks of the dump" % name)
    return [(int(start), int(end)) for start, end in whole]


def shown(header, patterns, define):
    """The signals and events of the patterns, as GTKWave names them, each with how it is drawn."""
    signals, events = names_in(pattern for _, pattern in patterns)
    defined = definitions(define or "")
    for name in dict.fromkeys(defined[name].signal if name in defined else name
                              for name in [*signals, *events]):
        identifier = header.events.get(name) or header.part(name)[0]
        sizes = {found.size: full for full, found in header.vectors.items()
                 if found.identifier == identifier and (found.size == 1 or full.endswith("]"))}
        size, full = max(sizes.items(), default=(1, name))
        yield ("@22" if size > 1 else "@28"), full if size > 1 else name


def save_file(copy, header, patterns, found, end, define):
    """What GTKWave is to show of the copy: all of it, its signals, and a marker at each first match."""
    zoom = 1.4 - math.log2(max(1, end))     # at 0 a tick has 200 points
    marks = [stretches[0][0] for stretches in found if stretches][:26]
    lines = ['[dumpfile] "%s"' % os.path.abspath(copy), "[timestart] 0"]
    lines.append("*%.6f -1 %s" % (zoom, " ".join(str(mark) for mark in marks + [-1] * (26 - len(marks)))))
    for kind, name in shown(header, patterns, define):
        lines += [kind, name]
    for (name, _), stretches in zip(patterns, found):
        lines += ["@28", "montre." + name] if any(a < b for a, b in stretches) or not stretches else []
        lines += ["@28", "montre.%s_moment" % name] if any(a == b for a, b in stretches) else []
    return "\n".join(lines) + "\n"


def main():
    arguments = argparse.ArgumentParser(usage=__doc__, add_help=False)
    arguments.add_argument("--checks", default=([], []), type=checks_of)
    arguments.add_argument("--define")
    arguments.add_argument("--scale", default="0")
    arguments.add_argument("--unit", choices=dumps.PLACES)
    arguments.add_argument("--out")
    arguments.add_argument("dump")
    arguments.add_argument("patterns", nargs="*", type=named)
    options = arguments.parse_intermixed_args()
    checks, lets = options.checks
    patterns = checks + options.patterns
    options.define = with_lets(options.define, lets)
    asked = ["--format", "vcd", "--input", options.dump, "--scale", options.scale]
    asked += ["--define", options.define] if options.define else []
    asked += ["--unit", options.unit] if options.unit else []
    answers = [matches(asked, pattern) for _, pattern in patterns]
    with open(options.dump, "rb") as file:
        header, rest = dumps.header_of(file)
        tick = dumps.factor_of(header.unit, options.unit, 0)
        found = [in_ticks(stretches, tick, name)
                 for (name, _), (stretches, _) in zip(patterns, answers)]
        head, identifiers = with_signals(header, [name for name, _ in patterns])
        at = {}
        for place, stretches in enumerate(found):
            for time, new in changes(stretches, *identifiers[2 * place:2 * place + 2]).items():
                at.setdefault(time, []).extend(new)
        with open(options.out, "wb") if options.out else sys.stdout.buffer as out:
            write(out, head, Copy(at), itertools.chain([rest], file))
    if options.out:
        with open(os.path.splitext(options.out)[0] + ".gtkw", "w") as beside:
            end = int(answers[0][1] / tick) if answers else 0
            beside.write(save_file(options.out, header, patterns, found, end, options.define))


def write(out, head, copy, lines):
    out.write(head)
    for line in lines:
        out.write(copy.line(line))
    rest = copy.changes_before(None)
    out.write(rest if line.endswith(b"\n") else b"\n" + rest)


if __name__ == "__main__":
    try:
        main()
    except OSError as fault:
        sys.exit("to_vcd.py: %s" % fault)
