#!/usr/bin/env python3
"""Names defined by the signals of a dump, against a plain reading of what docs/vcd.md says of them.

    python3 bench/agree/definitions.py PATH_OF_MONTRE

2,000 dumps with declarations of every shape, and a definition for each, by a fixed seed.
"""

import operator
import random
import re
import subprocess
import sys
from dataclasses import dataclass

CASES = 2000
SIGNS = {"<": operator.lt, "<=": operator.le, ">": operator.gt, ">=": operator.ge,
         "==": operator.eq, "!=": operator.ne}
KINDS = ["wire", "reg", "logic", "integer", "parameter", "time", "real", "realtime", "string",
         "event"]
WITHOUT_BITS = {"real", "realtime", "string", "event"}
IDENTIFIERS = ["!", '"', "#a", "k", "0", "zz", "$q", "1x"]
SCOPES = ["top", "u", "gen[0]", "m"]
REFERENCES = ["a", "b", "c", "d", "\\e!x"]
LETTERS = "01xzuwlh-"
SIZES = [1, 1, 1, 2, 4, 8, 8, 16, 33, 64, 70]
NUMBERS = [0, 1, 2, 3, 5, 255, 2 ** 16, 2 ** 33, 2 ** 64 - 1]
RANGE = re.compile(r"\[(-?\d+):(-?\d+)\]\Z")
INDEX = re.compile(r"\[(-?\d+)\]\Z")


@dataclass(frozen=True)
class Declaration:
    kind: str
    size: str
    identifier: str
    full_name: str

    def bits(self):
        """How many bits it offers."""
        return 0 if self.kind in WITHOUT_BITS or not self.size.isdigit() else int(self.size)


@dataclass(frozen=True)
class Definition:
    signal: str
    form: str           # "bit", "changes", "has", or a sign
    number: int = 0     # what it is compared with, where there is no other signal
    other: str = ""
    letter: str = ""

    def is_event(self):
        return self.form == "changes"


# ---- the plain reading

def ranged(full_name, size):
    """The name without the range at its end, and the numbers of its first and last bit."""
    for place in range(len(full_name)):
        found = RANGE.match(full_name[place:])
        if found:
            return full_name[:place], int(found[1]), int(found[2])
    return full_name, size - 1, 0


def part_named(text, full_name, size):
    """The lowest bit and the number of bits that a text names, if it names some."""
    base, left, right = ranged(full_name, size)
    if text in (full_name, base):
        return 0, size
    if not text.startswith(base):
        return None
    row, index = RANGE.match(text[len(base):]), INDEX.match(text[len(base):])
    if not row and not index:
        return None
    first, last = (int(row[1]), int(row[2])) if row else (int(index[1]), int(index[1]))
    if left >= first >= last >= right or left <= first <= last <= right:
        return abs(last - right), abs(first - last) + 1
    return None


def letter(value, place):
    if place < len(value):
        return value[-1 - place].lower()
    return "0" if value[0] in "01" else value[0].lower()


def number_of(value, part):
    letters = [letter(value, place) for place in range(sum(part) - 1, part[0] - 1, -1)]
    return int("".join(letters), 2) if set(letters) <= set("01") else None


def read_of(text, declarations, of_one_bit):
    """The identifier and the part of the first declaration of which the text names some."""
    for declared in declarations:
        bits = declared.bits()
        part = part_named(text, declared.full_name, bits) if bits else None
        if part and (part[1] == 1 or not of_one_bit):
            return declared.identifier, part
    return None


def all_read(definition, declarations):
    """The identifiers and the parts that the definition reads, where all are there."""
    texts = [definition.signal] + [definition.other] * bool(definition.other)
    read = [read_of(text, declarations, definition.form == "bit") for text in texts]
    return None if None in read else read


def is_true(definition, values, read):
    found = [(values.get(identifier), part) for identifier, part in read]
    if definition.form == "has":
        value, (low, count) = found[0]
        return bool(value) and any(letter(value, place) == definition.letter
                                   for place in range(low, low + count))
    numbers = [number_of(value, part) if value else None for value, part in found]
    if None in numbers:
        return False
    if definition.form == "bit":
        return numbers[0] == 1
    return SIGNS[definition.form](numbers[0], numbers[1] if definition.other else definition.number)


def has_changed(before, value, part):
    return bool(before and value) and any(letter(before, place) != letter(value, place)
                                          for place in range(part[0], sum(part)))


def lines_of(definition, read, statements):
    """What is printed of the name, as an event or as a signal."""
    values, before, time, runs, moments = {}, None, 0, [], []
    identifier, part = read[0]
    for is_time, what, letters in statements + [(True, None, None)]:
        if not is_time:
            values[what] = letters
        elif what != time:
            if has_changed(before, values.get(identifier), part):
                moments.append(time)
            if what is not None and not definition.is_event() and is_true(definition, values, read):
                begin = runs.pop()[0] if runs and runs[-1][1] == time else time
                runs.append((begin, what))
            before, time = values.get(identifier), time if what is None else what
    if definition.is_event():
        lines = ["[%d,%d] [%d,%d] [0,0]" % ((moment,) * 4) for moment in moments]
    else:
        lines = ["[%d,%d) (%d,%d] (0,%d]" % (a, b, a, b, b - a) for a, b in runs]
    return "".join(line + "\n" for line in lines + ["end %d" % time])


# ---- dumps and definitions by chance

def random_declaration(chance, scopes):
    size, low = chance.choice(SIZES), chance.randrange(-3, 4)
    reference = chance.choice(REFERENCES)
    rows = ["[%d:%d]" % (low + size - 1, low), "[%d:%d]" % (low, low + size - 1),
            "[%d]" % chance.randrange(4), "[%d:%d]" % (chance.randrange(-2, 9), low)]
    row = chance.choice(["", ""] + rows)
    written = str(size) if chance.random() < 0.95 else chance.choice(["0", "x", "[3:0]", "01"])
    declared = Declaration(chance.choice(KINDS[:3] + KINDS), written, chance.choice(IDENTIFIERS),
                           ".".join(scopes + [reference + row]))
    between = chance.choice(["", " "]) if row else ""
    return declared, "$var %s %s %s %s $end\n" % (declared.kind, written, declared.identifier,
                                                  reference + between + row)


def random_head(chance):
    declarations, text, scopes = [], "", []

    def declare():
        nonlocal text
        declared, line = random_declaration(chance, scopes)
        declarations.append(declared)
        text += line

    for _ in range(chance.randrange(1, 4)):
        scopes.append(chance.choice(SCOPES))
        text += "$scope module %s $end\n" % scopes[-1]
        for _ in range(chance.randrange(1, 4)):
            declare()
    while scopes:
        scopes.pop()
        text += "$upscope $end\n"
        if chance.random() < 0.4:
            declare()
    return declarations, text


def random_change(chance):
    identifier, kind = chance.choice(IDENTIFIERS), chance.random()
    if kind < 0.35:
        value = chance.choice("0101xzXZ" if chance.random() < 0.8 else "uUwWlLhH-")
        return "%s%s\n" % (value, identifier), [(False, identifier, value)]
    if kind < 0.9:
        some = chance.choice(["01", "01", "01", "0101xZ", "01UWlh-"])
        value = "".join(chance.choice(some) for _ in range(chance.choice(SIZES + [80])))
        return "%s%s %s\n" % (chance.choice("bB"), value, identifier), [(False, identifier, value)]
    return "r1.5 %s\n" % identifier, []


def random_body(chance):
    statements, text, time = [], "", 0
    for _ in range(chance.randrange(2, 15)):
        text += "#%d\n" % time
        statements.append((True, time, None))
        is_dump = chance.random() < 0.2
        text += "$dumpvars\n" if is_dump else ""
        for _ in range(chance.randrange(5)):
            line, said = random_change(chance)
            text += line
            statements += said
        text += "$end\n" if is_dump else ""
        time += chance.choice([0, 1, 2, 3, 5])
    return statements, text


def random_signal(chance, declarations):
    declared = chance.choice(declarations)
    base, left, right = ranged(declared.full_name, max(declared.bits(), 1))
    low, high = min(left, right), max(left, right)
    one = "[%d]" % chance.randrange(low - 1, high + 2)
    several = "[%d:%d]" % (chance.randrange(low, high + 1), chance.randrange(low, high + 1))
    return chance.choice([declared.full_name, base, base + one, base + several])


def random_definition(chance, declarations):
    signal = random_signal(chance, declarations)
    form = chance.choice(["bit", "changes", "has", *chance.choices(list(SIGNS), k=4)])
    number, other, asked = chance.choice(NUMBERS + [chance.randrange(256)]), "", ""
    behind = {"bit": "", "changes": "changes"}.get(form, form)
    if form == "has":
        asked = chance.choice(LETTERS)
        behind += " " * chance.randrange(1, 3) + asked
    elif form in SIGNS and chance.random() < 0.6:
        other = random_signal(chance, declarations)
        behind += chance.choice(["", " "]) + other + chance.choice(["", " "])
    elif form in SIGNS:
        digits = chance.choice([str(number), "0x%X" % number, hex(number), bin(number)])
        behind += chance.choice(["", " "]) + digits
    space = " " if form in ("changes", "has") or "\\" in signal else chance.choice(["", "  "])
    return Definition(signal, form, number, other, asked), "n%s=%s%s%s%s" % (
        chance.choice(["", " "]), chance.choice(["", " "]), signal, space, behind)


def is_right(montre, chance):
    declarations, head = random_head(chance)
    statements, body = random_body(chance)
    definition, text = random_definition(chance, declarations)
    is_event = definition.is_event() != (chance.random() < 0.1)
    read = all_read(definition, declarations)
    if read and is_event == definition.is_event():
        wanted = 0, lines_of(definition, read, statements), ""
    else:
        wanted = 4, "", "montre: trace: UnknownName at %d\n" % len(head)
    words = [montre, "--format", "vcd", "--define", text, "event(n)" if is_event else "n"]
    given = head + "$enddefinitions $end\n" + body
    run = subprocess.run(words, input=given, capture_output=True, text=True, check=False)
    found = run.returncode, run.stdout, run.stderr
    if found != wanted:
        print("%r\n%sWANTED %r\nFOUND %r" % (words[1:], given, wanted, found))
    return found == wanted, wanted[0] == 0


def main():
    if len(sys.argv) != 2:
        sys.exit("usage: python3 bench/agree/definitions.py PATH_OF_MONTRE")
    chance = random.Random(21)
    results = [is_right(sys.argv[1], chance) for _ in range(CASES)]
    wrong = sum(not right for right, _ in results)
    print("%d definitions, %d of them read something, %d wrong"
          % (len(results), sum(some for _, some in results), wrong))
    sys.exit(wrong > 0)


if __name__ == "__main__":
    main()
