"""The signals and the events of a trace for the scripts that show them: lines of text, columns of
numbers or a dump, as waves and moments.

A wave is a list of times and values, each value from its time on; a moment is a time. A reader puts
both into what it is given, `Whole` here: `put(time, name, value)` and `happen(time, name)`. What the
definitions of --let and --define say is read as montre does, but for faults: ask montre first."""
import csv
import operator
import re
import sys
from collections import namedtuple
from decimal import Decimal

import dumps

RESERVED = {"eps", "rise", "fall", "inf", "true", "event"}
EVENT = re.compile(r"\bevent\s*\(\s*([A-Za-z0-9_.]+)\s*\)")
LET = re.compile(r"\s*([A-Za-z_][\w.]*) *= *([A-Za-z_][\w.]*) *([<>=!]=|[<>]) *(-?\d+)\s*")
SIGNAL = r"(?:[^\s<>=!\\]*\\\S*|[^\s<>=!\\]+)"      # from the first `\` on up to the next space
DEFINE = re.compile(r"\s*([A-Za-z_][\w.]*)\s*=\s*(%s)\s*"
                    r"(?:([<>=!]=|[<>])\s*(?:(0x[0-9a-fA-F]+|0b[01]+|\d+)|(?![\d+-])(%s))"
                    r"|(changes)|has +([01xzuwlh-]))?\s*" % (SIGNAL, SIGNAL), re.ASCII)
SIGNS = {"<": operator.lt, "<=": operator.le, ">": operator.gt, ">=": operator.ge,
         "==": operator.eq, "!=": operator.ne}

# What --define says of a name: a signal, and the sign and the number or the other signal that it is
# compared with, or whether it changes, or the letter that one of its bits has.
Definition = namedtuple("Definition", "signal sign number other changes letter")


class Whole:
    """All waves and moments of a trace. Before its first value a signal of a dump has an empty one."""

    def __init__(self, signals, events, first):
        self.waves = {signal: [(0, first)] for signal in signals}
        self.moments = {event: [] for event in events}

    def put(self, time, name, value):
        put(self.waves[name], time, value)

    def happen(self, time, name):
        if self.moments[name][-1:] != [time]:
            self.moments[name].append(time)


def put(wave, time, value):
    """The wave has this value from this time on."""
    if wave[-1][1] != value:
        if wave[-1][0] == time:
            wave.pop()
        if not wave or wave[-1][1] != value:
            wave.append((time, value))


def names_in(patterns):
    """The signals and the events of the patterns, by their first use."""
    text = " ".join(patterns)
    names = re.findall(r"[A-Za-z_][A-Za-z0-9_.]*", EVENT.sub(" ", text))
    signals = dict.fromkeys(name for name in names if name not in RESERVED)
    return list(signals), list(dict.fromkeys(EVENT.findall(text)))


def read_text(name, signals, events, scale, into):
    """Reads a trace in lines of text, in units, and gives its end."""
    now = 0
    with open(name, encoding="latin-1") as lines:
        for words in (line.split() for line in lines):
            if not words or words[0][0] == "#":
                continue
            if words[0] == "@":
                for event in set(words[1:]).intersection(events):
                    into.happen(now, event)
                continue
            for signal in signals:
                into.put(now, signal, "1" if signal in words[1:] else "0")
            now += units(words[0], scale)
    return now


def read_columns(name, signals, let, scale, into):
    """Reads a table by the definitions of --let, in units."""
    now = 0
    parts = [LET.fullmatch(part).groups() for part in let.split(";") if part.strip()]
    with open(name, newline="", encoding="utf-8-sig") as file:
        rows = (row for row in csv.reader(file) if row)
        header = next(rows)
        for row in rows:
            for signal, column, sign, number in parts:
                if signal in signals:
                    holds = SIGNS[sign](int(row[header.index(column, 1)]), int(number))
                    into.put(now, signal, "1" if holds else "0")
            now += units(row[0], scale)


def definitions(text):
    """What --define says of each name."""
    found = [DEFINE.fullmatch(part) for part in text.split(";") if part.strip()]
    if None in found:
        sys.exit("a definition can't be read: " + text)
    return {part[1]: Definition(part[2], part[3], part[4] and int(part[4], 0), *part.groups()[4:])
            for part in found}


def is_known(value):
    return value != "" and set(value) <= {"0", "1"}


def holds(definition, value, other):
    """Whether the definition of a proposition holds of a value, and of that of the other signal."""
    if definition.letter:
        return definition.letter in value
    if definition.other:
        return is_known(value) and is_known(other) and SIGNS[definition.sign](int(value, 2), int(other, 2))
    return is_known(value) and SIGNS[definition.sign](int(value, 2), definition.number)


def defined_wave(definition, wave, other):
    """The wave of a defined name, by those of its signals; the bits that it names have their own."""
    if not definition.sign and not definition.letter:
        return wave
    made, values = [(wave[0][0], "0")], ["", ""]
    both = [(time, 0, value) for time, value in wave] + [(time, 1, value) for time, value in other]
    for time, place, value in sorted(both, key=operator.itemgetter(0)):
        values[place] = value
        put(made, time, "1" if holds(definition, *values) else "0")
    return made


def paths_of(signals, events, defined):
    """The signals of a dump that these names are read of, and the events that aren't defined."""
    own = [defined.get(name) for name in [*signals, *events]]
    paths = [name for name in signals if name not in defined]
    paths += [path for found in own if found for path in (found.signal, found.other) if path]
    return list(dict.fromkeys(paths)), [event for event in events if event not in defined]


def with_defined(waves, moments, signals, events, defined):
    """The waves and the moments of these names, by those that were read for them."""
    named = {}
    for name in signals:
        found = defined.get(name)
        named[name] = defined_wave(found, waves[found.signal], waves.get(found.other, ())) if found \
            else waves[name]
    happened = {}
    for event in events:
        wave = waves[defined[event].signal] if event in defined else ()
        happened[event] = moments[event] if event in moments else \
            [time for (_, before), (time, _) in zip(wave, wave[1:]) if before]
    return named, happened


def read_dump(name, signals, events, defined):
    """The waves and the moments of a dump, in its ticks, with those of defined names, and its unit."""
    paths, plain = paths_of(signals, events, defined)
    whole = Whole(paths, plain, "")
    unit = dumps.read(name, paths, plain, whole)
    return *with_defined(whole.waves, whole.moments, signals, events, defined), unit


def digits(value):
    """The value of a vector in hexadecimal digits; x and z where its bits are, and X for a mix."""
    groups = [value[max(0, end - 4):end] for end in range(len(value), 0, -4)][::-1]
    return "".join("%X" % int(group, 2) if set(group) <= {"0", "1"}
                   else group[0] if len(set(group)) == 1 else "X" for group in groups)


def units(text, scale):
    return int(Decimal(text).scaleb(scale))
