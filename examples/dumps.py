"""Reads the header of a dump, and the changes of some of its signals and events, in one pass.

A dump that montre refuses isn't looked through for faults here: ask montre first.
"""
import re
import sys
from collections import namedtuple
from fractions import Fraction

HEADER = re.compile(rb"(?<!\S)\$enddefinitions\s+(?:\S+\s+)*?\$end(?!\S)")
TICK = re.compile(r"(10{0,2})([munpf]?s)")
PLACES = {"s": 0, "ms": 3, "us": 6, "ns": 9, "ps": 12, "fs": 15}    # decimals of a second
BITS = re.compile(r"(.*?)\[(\d+)(?::(\d+))?\]")
SCALARS = b"01xXzZuUwWlLhH-"
SCALAR, TIME, VALUE, COMMAND = range(4)
KINDS = [SCALAR] * 256      # what a token is, by its first byte
KINDS[b"#"[0]], KINDS[b"$"[0]] = TIME, COMMAND
for letter in b"bBrRsS":
    KINDS[letter] = VALUE
NO_BITS = (b"real", b"realtime", b"string")

# How many bits a signal has, and the numbers of its first and its last one.
Declared = namedtuple("Declared", "identifier size high low")


class Header:
    """What a dump declares: its text, its unit, its signals and events that can be named, the
    signals of several bits or with an index, all identifiers, and the scopes that are left open."""

    def __init__(self, text):
        end = HEADER.search(text)
        self.head, self.tail = text[:end.start()], text[end.start():]
        self.signals, self.events, self.identifiers, self.scopes = {}, {}, set(), []
        self.vectors, self.unit = {}, None
        words, place = self.head.split(), 0
        while place < len(words):
            last = words.index(b"$end", place)
            self.declare(words[place:last])
            place = last + 1

    def declare(self, words):
        if words[0] == b"$scope":
            self.scopes.append(words[2])
        elif words[0] == b"$upscope":
            self.scopes.pop()
        elif words[0] == b"$timescale" and self.unit is None:
            self.unit = b"".join(words[1:]).decode("latin-1")
        elif words[0] == b"$var":
            self.identifiers.add(words[3])
            path = b".".join([*self.scopes, *words[4:]]).decode("latin-1")
            if words[1] == b"event":
                self.events.setdefault(path, words[3])
            elif words[1] not in NO_BITS:
                if words[2] == b"1" and len(words) == 5:
                    self.signals.setdefault(path, words[3])
                self.declare_bits(b".".join([*self.scopes, b"".join(words[4:])]), words)

    def declare_bits(self, path, words):
        """A signal by its path with its range and without it."""
        path, size = path.decode("latin-1"), int(words[2])
        ranged = BITS.fullmatch(path)
        high, low = size - 1, 0
        if ranged and ranged[3] is not None:
            high, low = int(ranged[2]), int(ranged[3])
        for name in (path, ranged[1]) if ranged and ranged[3] is not None else (path,):
            self.vectors.setdefault(name, Declared(words[3], size, high, low))

    def part(self, text):
        """The identifier and the bits, from the first to the last, that a text names: a signal, or
        some of its bits."""
        if text in self.vectors:
            found = self.vectors[text]
            return found.identifier, 0, found.size
        bits = BITS.fullmatch(text)
        if not bits or bits[1] not in self.vectors:
            sys.exit("the dump has no %s that can be drawn" % text)
        found = self.vectors[bits[1]]
        step = -1 if found.high >= found.low else 1
        first, last = int(bits[2]), int(bits[3] or bits[2])
        places = [(number - found.high) * step for number in (first, last)]
        if not 0 <= places[0] <= places[1] < found.size:
            sys.exit("%s has no such bits" % text)
        return found.identifier, places[0], places[1] + 1


def factor_of(tick, unit, scale):
    """How many units a tick of a dump is, where a unit is asked for, and has so many decimals."""
    if unit is None:
        return Fraction(10) ** scale
    number, own = TICK.fullmatch(tick).groups()
    return int(number) * Fraction(10) ** (PLACES[unit] - PLACES[own] + scale)


def header_of(file):
    """What an open dump declares, and the values on the last line of that."""
    text = b""
    for line in file:
        text += line
        end = HEADER.search(text) if b"$end" in line and b"$enddefinitions" in text else None
        if end:
            return Header(text[:end.end()] + b"\n"), text[end.end():].lstrip()
    sys.exit("the dump has no $enddefinitions")


def letters(value, size):
    """All letters of a value of so many bits, which may be written short."""
    return value.rjust(size, "0" if value[0] in "01" else value[0])[-size:]


class Changes:
    """The changes of some signals and events, word by word, put into what waves.py says."""

    def __init__(self, header, signals, events, into):
        self.into, self.signals, self.events = into, {}, {}
        for path in signals:
            identifier, first, last = header.part(path)
            size = max(found.size for found in header.vectors.values()
                       if found.identifier == identifier)
            self.signals.setdefault(identifier, []).append((path, size, first, last))
        for path in events:
            if path not in header.events:
                sys.exit("the dump has no %s that can be drawn" % path)
            self.events.setdefault(header.events[path], []).append(path)
        self.scalars = {bytes([letter]) + known for letter in SCALARS
                        for known in self.signals.keys() | self.events.keys()}
        self.time, self.waits, self.comment, self.section = b"#0", None, False, False

    def change(self, identifier, value, is_scalar):
        now, text = int(self.time[1:]), value.decode("latin-1").lower()
        for path, size, first, last in self.signals.get(identifier, ()):
            self.into.put(now, path, text if size == 1 else letters(text, size)[first:last])
        if is_scalar and not self.section:
            for path in self.events.get(identifier, ()):
                self.into.happen(now, path)

    def words(self, words):
        scalars, inside = self.scalars, self.comment or self.waits is not None
        for word in words:
            kind = KINDS[word[0]]
            if inside:
                inside = self.comment = self.comment and word != b"$end"
                if self.waits is not None:
                    # the identifier of a vector, which may begin with `#` or `$`
                    if self.waits:
                        self.change(word, self.waits, False)
                    self.waits = None
            elif kind == SCALAR:
                if word in scalars:
                    self.change(word[1:], word[:1], True)
            elif kind == TIME:
                self.time = word
            elif kind == VALUE:
                inside, self.waits = True, word[1:] if word[0] in b"bB" else b""
            else:
                inside = self.comment = word == b"$comment"
                self.section = word != b"$end"

    def read(self, file, rest=b""):
        while True:
            chunk = file.read(1 << 20)
            words = (rest + chunk).split()
            rest = words.pop() if words and chunk and not chunk[-1:].isspace() else b""
            self.words(words)
            if not chunk:
                return


def read(name, signals, events, into):
    """Reads the values of signals, with a letter for each bit, and the moments of events of a dump,
    in its ticks, and gives its unit."""
    with open(name, "rb") as file:
        header, rest = header_of(file)
        Changes(header, signals, events, into).read(file, rest)
    return header.unit or ""
