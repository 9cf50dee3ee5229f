"""Matches a pattern over a trace in pieces, for a trace that is too long for one run.

usage: pieces.py [--format text|vcd] [--define TEXT] [--unit U] [--scale K] [--jobs N]
                 --every TICKS PATTERN < TRACE

The trace is cut about every TICKS, between two segments. Behind its end a piece has as much more
as a match may take, and one segment; before its start it has one segment. `montre`, or the program
that MONTRE names, matches the pieces, N at a time. Of the zones of a piece the part is kept that
starts in it, at the times of the whole trace: so the zones printed hold the matches that one run
over all of it would find. A zone that starts on both sides of a cut is printed as two.

--define, --unit and --scale are those of montre. A pattern without a longest duration is refused. The whole trace may be longer than a run allows.
"""
import argparse
import collections
import concurrent.futures
import os
import re
import subprocess
import sys

import dumps

Piece = collections.namedtuple("Piece", "first start behind text")
DURATION = re.compile(rb"[0-9]+(\.[0-9]+)?$")
RANGE = re.compile(r"([\[(])([\d.]+),([\d.]+)([\])])")


class Refused(Exception):
    """Why there is no answer, and the exit status."""

    def __init__(self, why, status=2):
        super().__init__(why)
        self.status = status


def montre(words, text=b""):
    """What montre prints; that it refuses is a refusal here."""
    program = os.environ.get("MONTRE", "montre")
    try:
        run = subprocess.run([program, *words], input=text, capture_output=True, check=False)
    except FileNotFoundError:
        raise Refused("there is no program %s: set MONTRE" % program, 127) from None
    if run.returncode != 0:
        raise Refused(run.stderr.decode().strip() or "montre was ended", run.returncode)
    return run.stdout.decode()


def units(word, scale):
    """A number with up to so many decimals, as a whole number of units."""
    whole, _, decimals = word.partition(".")
    return int(whole + decimals.ljust(scale, "0")[:scale])


def number(count, scale):
    """A whole number of units, as montre prints it."""
    digits = str(count).rjust(scale + 1, "0")
    return digits[:-scale] + "." + digits[-scale:] if scale else digits


class Longest:
    """How long a match may be, of a pattern as --show prints it. None is without end."""

    def __init__(self, text, scale):
        self.scale = scale
        self.tokens = collections.deque(re.findall(r"\{[^}]*\}|[\w.]+|\S", text))

    def takes(self, sign):
        return bool(self.tokens) and self.tokens[0] == sign and bool(self.tokens.popleft())

    def alternation(self):
        longest = self.intersection()
        while self.takes("|"):
            other = self.intersection()
            longest = None if None in (longest, other) else max(longest, other)
        return longest

    def intersection(self):
        longest = self.sequence()
        while self.takes("&"):
            ends = [end for end in (longest, self.sequence()) if end is not None]
            longest = min(ends, default=None)
        return longest

    def sequence(self):
        longest = self.repetition()
        while self.takes(";"):
            other = self.repetition()
            longest = None if None in (longest, other) else longest + other
        return longest

    def repetition(self):
        longest = self.operand()
        while self.tokens and self.tokens[0] in "*%":
            if self.takes("*"):
                longest = longest if longest == 0 else None
            elif self.takes("%"):
                _, _, _, high, _ = (self.tokens.popleft() for _ in range(5))
                ends = [longest, None if high == "inf" else units(high, self.scale)]
                longest = min((end for end in ends if end is not None), default=None)
        return longest

    def operand(self):
        if self.takes("("):
            longest = self.alternation()
            self.takes(")")
            return longest
        word = self.tokens.popleft()
        if word in ("rise", "fall", "event"):
            self.skip_parentheses()
        elif word == "!":
            self.tokens.popleft()
        return 0 if word in ("eps", "rise", "fall", "event") else None

    def skip_parentheses(self):
        depth = 0
        while True:
            depth += {"(": 1, ")": -1}.get(self.tokens.popleft(), 0)
            if depth == 0:
                return


class Lines:
    """The text form. A segment is its line, behind the lines of the events that begin it."""

    def __init__(self, source, scale, _unit):
        self.source, self.scale, self.end, self.last = source, scale, 0, b""

    def segments(self):
        """Each segment by its start and its text."""
        for place, line in enumerate(self.source, 1):
            fields = line.split()
            if not fields or fields[0].startswith(b"#"):
                continue
            self.last += line.rstrip(b"\r\n") + b"\n"
            if fields[0] == b"@":
                continue
            if not DURATION.match(fields[0]):
                raise Refused("line %d has no duration" % place, 4)
            yield self.end, self.last
            self.end, self.last = self.end + units(fields[0].decode(), self.scale), b""

    def leave(self, text):
        """A segment is before the pieces that are left."""

    def piece(self, segments, end, last):
        return b"".join(text for _, text in segments) + last


class Dump:
    """A value change dump. A segment has the changes at the time at which it begins."""

    def __init__(self, source, scale, unit):
        self.source, self.scale, self.unit, self.end, self.last = source, scale, unit, 0, b""
        self.head, self.values, self.tick = b"", {}, None

    def tokens(self):
        """The tokens behind the declarations; the identifier behind a vector is of its token."""
        tokens = (token for line in self.source for token in line.split())
        head = []
        for token in tokens:
            head.append(token)
            if token == b"$enddefinitions":
                break
        self.head = b" ".join(head) + b" $end\n"
        next(tokens, None)
        tick = dumps.Header(self.head).unit
        if self.unit and not dumps.TICK.fullmatch(tick or ""):
            raise Refused("the dump doesn't say how long a tick is", 4)
        self.tick = dumps.factor_of(tick, self.unit, self.scale)
        for token in tokens:
            if token == b"$comment":
                while next(tokens, b"$end") != b"$end":
                    pass
            elif token[:1] in b"bBrRsS":
                yield token + b" " + next(tokens, b"")
            else:
                yield token

    def segments(self):
        """Each segment by its start and its changes."""
        changes = []
        for token in self.tokens():
            if token[:1] != b"#" or not token[1:].isdigit():
                changes.append(token)
                continue
            time, rest = divmod(int(token[1:]) * self.tick.numerator, self.tick.denominator)
            if rest:
                raise Refused("a time is no whole number of units: %s" % token.decode(), 4)
            if time < self.end:
                raise Refused("the time goes back at %s" % token.decode(), 4)
            if time > self.end:
                yield self.end, b"\n".join(changes)
                self.end, changes = time, []
        self.last = b"\n".join(changes)

    def leave(self, text):
        """The values of a segment before the pieces that are left are those that they begin with."""
        for change in text.split(b"\n"):
            value, space, identifier = change.partition(b" ")
            if not change.startswith(b"$"):
                self.values[identifier if space else value[1:]] = change

    def piece(self, segments, end, last):
        texts = [self.head, b"$dumpvars\n", b"\n".join(self.values.values()), b"\n$end\n"]
        for time, changes in segments:
            texts.append(b"#%d\n%s\n" % (self.ticks(time - segments[0][0]), changes))
        return b"".join(texts) + b"#%d\n%s\n" % (self.ticks(end - segments[0][0]), last)

    def ticks(self, units):
        return units * self.tick.denominator // self.tick.numerator


def cut(trace, every, longest):
    """The pieces, in their order. Kept is the segment before the first start, and all behind it."""
    kept, start, behind = collections.deque(), 0, None
    for time, text in trace.segments():
        if behind is None and time >= start + every:
            behind = time
        while behind is not None and kept[-1][0] >= behind + longest:
            yield Piece(kept[0][0], start, behind, trace.piece(kept, time, b""))
            start = behind
            while kept[1][0] < start:
                trace.leave(kept.popleft()[1])
            times = [at for at, _ in kept] + [time]
            behind = next((at for at in times if at >= start + every), None)
        kept.append((time, text))
    first = kept[0][0] if kept else start
    yield Piece(first, start, None, trace.piece(kept or [(first, b"")], trace.end, trace.last))


class Bound(collections.namedtuple("Bound", "value met")):
    """A bound from above, and whether it may be met itself."""

    def then(self, other):
        return Bound(self.value + other.value, self.met and other.met)


def zone_of(line, first, scale):
    """Bounds of a printed zone on -begin, begin, -end, end, -duration and duration."""
    zone = []
    for place, (low, least, most, high) in enumerate(RANGE.findall(line)):
        shift = first if place < 2 else 0
        zone.append(Bound(-units(least, scale) - shift, low == "["))
        zone.append(Bound(units(most, scale) + shift, high == "]"))
    return zone


def tightened(zone):
    """The same pairs by the tightest bounds; None where there is none."""
    late, begin, after, end, long, lasts = zone
    for _ in range(2):
        late, begin = min(late, after.then(lasts)), min(begin, end.then(long))
        after, end = min(after, late.then(long)), min(end, begin.then(lasts))
        long, lasts = min(long, after.then(begin)), min(lasts, end.then(late))
    rooms = (late.then(begin), after.then(end), long.then(lasts))
    if any(room < Bound(0, True) for room in rooms):
        return None
    return late, begin, after, end, long, lasts


def line_of(zone, scale):
    ranges = ["%s%s,%s%s" % ("(["[low.met], number(-low.value, scale), number(high.value, scale),
                             ")]"[high.met])
              for low, high in zip(zone[::2], zone[1::2])]
    return " ".join(ranges)


def part_of(zone, piece):
    """What of a zone starts in the piece, if anything."""
    first = Bound(-piece.start, True)
    last = zone[1] if piece.behind is None else Bound(piece.behind, False)
    if zone[0] <= first and zone[1] <= last:
        return zone
    return tightened([min(zone[0], first), min(zone[1], last), *zone[2:]])


def zones_of(piece, scale, options):
    """The zones of a piece that start in it, at the times of the whole trace."""
    try:
        lines = montre(options, piece.text).splitlines()[:-1]
    except Refused as refused:
        why = "the piece from %s on: %s" % (number(piece.first, scale), refused)
        raise Refused(why, refused.status) from None
    parts = (part_of(zone_of(line, piece.first, scale), piece) for line in lines)
    return sorted((zone for zone in parts if zone), key=lambda zone: (-zone[0].value, *zone[1:]))


def answers(pieces, jobs, scale, options):
    """The zones of each piece in turn. Few more pieces are in memory than are at work."""
    with concurrent.futures.ThreadPoolExecutor(jobs) as workers:
        begun = collections.deque()
        for piece in pieces:
            begun.append(workers.submit(zones_of, piece, scale, options))
            if len(begun) > jobs:
                yield begun.popleft().result()
        while begun:
            yield begun.popleft().result()


def main():
    parser = argparse.ArgumentParser(usage=__doc__.partition("usage: ")[2].partition("\n\n")[0])
    parser.add_argument("--format", choices=("text", "vcd"), default="text")
    parser.add_argument("--define")
    parser.add_argument("--unit", choices=dumps.PLACES)
    parser.add_argument("--scale", type=int, default=0)
    parser.add_argument("--jobs", type=int, default=1)
    parser.add_argument("--every", required=True)
    parser.add_argument("pattern")
    given = parser.parse_args()
    scale = given.scale
    options = ["--scale", str(scale), "--", given.pattern]
    longest = Longest(montre(["--show", *options]), scale).alternation()
    if longest is None:
        raise Refused("a match of the pattern may take any time: give it a bound, as `% [0,100]`")
    every = units(given.every, scale) if DURATION.match(given.every.encode()) else 0
    if every == 0:
        raise Refused("--every takes a number of ticks, of at least one unit")
    trace = (Dump if given.format == "vcd" else Lines)(sys.stdin.buffer, scale, given.unit)
    pieces = cut(trace, every, longest)
    reads = ["--format", given.format] + (["--define", given.define] if given.define else [])
    reads += ["--unit", given.unit] if given.unit else []
    for zones in answers(pieces, given.jobs, scale, [*reads, *options]):
        for zone in zones:
            print(line_of(zone, scale))
    print("end " + number(trace.end, scale))


if __name__ == "__main__":
    try:
        main()
    except Refused as refused:
        print("pieces.py: %s" % refused, file=sys.stderr)
        sys.exit(refused.status)
