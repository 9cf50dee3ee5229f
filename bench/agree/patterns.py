#!/usr/bin/env python3
"""Random patterns, valid and damaged, as docs/patterns.md reads them and as the program does.

    python3 bench/agree/patterns.py PROGRAM [COUNT [SEED]]

Of each text it is told what `--show` prints of it, read once more, or which refusal comes, at which
place. The page is taken by its sentences and not as a parser does: where the words go wrong is found
by the rules of its grammar alone (which words can still be completed), and what they mean by the
table of strengths (the last of the weakest signs outside brackets parts a pattern). It prints each
text of which the two say different things, and counts the refusals.
"""

import random
import re
import subprocess
import sys
from collections import Counter
from fractions import Fraction

RESERVED = ("eps", "rise", "fall", "inf", "true", "event")
SIGNS = ("||", "&&", "<:", ":>", "(", ")", "[", "]", "{", "}", ",", ";", "|", "&", "!", "*", "+",
         "?", "%")
WORD = re.compile(rb"[A-Za-z_][A-Za-z0-9_.]*|[0-9]+(?:\.[0-9]+)?|"
                  + b"|".join(re.escape(sign.encode()) for sign in SIGNS))
BYTES, LATEST, OPEN, NAMES, NODES, MANY = 16384, 2 ** 40, 200, 64, 1000, 10 ** 9

# What a pattern (E) is made of, the weakest signs first, a literal (L), a formula (S), an interval (I).
GRAMMAR = {
    "E": ["E | M", "M"], "M": ["M & Q", "Q"], "Q": ["Q ; P", "P"],
    "P": ["P *", "P +", "P ?", "P % I", "A"],
    "A": ["( E )", "eps", "rise ( S )", "fall ( S )", "event ( name )", "L", "<: L", "L :>",
          "<: L :>"],
    "L": ["name", "true", "! L", "{ S }"],
    "S": ["S || C", "C"], "C": ["C && U", "U"], "U": ["name", "true", "! U", "( S )"],
    "I": [low + " number , number " + high for low in "[(" for high in "])"]
         + [low + " number , inf )" for low in "[("],
}
RULES = [(head, tuple(rule.split())) for head, rules in GRAMMAR.items() for rule in rules]
OF = {head: [n for n, rule in enumerate(RULES) if rule[0] == head] for head in GRAMMAR}


class Refused(Exception):
    """A kind of refusal, and its place or count."""


def words_of(text):
    """The words of a text, each with its place; the first byte at which none begins is refused."""
    words, at = [], 0
    while at < len(text):
        if text[at:at + 1] in (b" ", b"\t", b"\r", b"\n"):
            at += 1
            continue
        found = WORD.match(text, at)
        if not found:
            raise Refused("BadByte", at)
        words.append((found.group().decode(), at))
        at = found.end()
    return words


def kind_of(word):
    """What a word is to the grammar."""
    if word[0].isdigit():
        return "number"
    return "name" if (word[0].isalpha() or word[0] == "_") and word not in RESERVED else word


def units(word, scale):
    """The number of units that a number is, or None."""
    exact = Fraction(word) * 10 ** scale
    return int(exact) if exact.denominator == 1 else None


def longest_front(kinds):
    """How many of the words some more words complete to a pattern, and whether all are one.

    The items of a place are rules that may have begun before it, with how much of each has been
    seen: the chart of Earley's recognizer, which has an item at a place exactly where the words so
    far begin a pattern."""
    chart, whole = [], False
    items = {(n, 0, 0) for n in OF["E"]}
    for place in range(len(kinds) + 1):
        todo, seen = list(items), set(items)
        while todo:
            n, dot, start = todo.pop()
            head, body = RULES[n]
            if dot == len(body):
                before = chart[start] if start < place else seen
                more = [(m, d + 1, s) for m, d, s in before
                        if d < len(RULES[m][1]) and RULES[m][1][d] == head]
            elif body[dot] in GRAMMAR:
                more = [(m, 0, place) for m in OF[body[dot]]]
            else:
                more = []
            for item in more:
                if item not in seen:
                    seen.add(item)
                    todo.append(item)
        if place and not seen:
            return place - 1, False
        chart.append(seen)
        whole = any(RULES[n][0] == "E" and dot == len(RULES[n][1]) and start == 0
                    for n, dot, start in seen)
        if place < len(kinds):
            items = {(n, dot + 1, start) for n, dot, start in seen
                     if dot < len(RULES[n][1]) and RULES[n][1][dot] == kinds[place]}
            if not items:
                return place, False
    return len(kinds), whole


def parted(words, sign):
    """Where the last such sign outside brackets stands, or None."""
    depth = 0
    for place in range(len(words) - 1, -1, -1):
        word = words[place]
        depth += (word in ")]}") - (word in "([{") if len(word) == 1 else 0
        if depth == 0 and word == sign:
            return place
    return None


def pattern(words, scale):
    """The tree of words that are a pattern."""
    for sign, made in (("|", "alt"), ("&", "meet"), (";", "seq")):
        place = parted(words, sign)
        if place is not None:
            return (made, pattern(words[:place], scale), pattern(words[place + 1:], scale))
    last = words[-1]
    if last == "*":
        return ("star", pattern(words[:-1], scale))
    if last == "+":
        inside = pattern(words[:-1], scale)
        return ("seq", inside, ("star", inside))
    if last == "?":
        return ("alt", pattern(words[:-1], scale), ("eps",))
    place = parted(words, "%")
    if place is not None:
        return ("within", pattern(words[:place], scale), interval(words[place + 1:], scale))
    if words == ["eps"]:
        return ("eps",)
    if words[0] in ("rise", "fall"):
        return (words[0], formula(words[2:-1]))
    if words[0] == "event":
        return ("event", words[2])
    if words[0] == "(":
        return pattern(words[1:-1], scale)
    state = formula([word for word in words if word not in ("<:", ":>")])
    tree = ("literal", state)
    if words[0] == "<:":
        tree = ("seq", ("rise", state), tree)
    return ("seq", tree, ("fall", state)) if last == ":>" else tree


def formula(words):
    """The tree of words that are a formula, or a literal."""
    for sign, made in (("||", "or"), ("&&", "and")):
        place = parted(words, sign)
        if place is not None:
            return (made, formula(words[:place]), formula(words[place + 1:]))
    if words[0] == "!":
        return ("not", formula(words[1:]))
    if words[0] in ("(", "{"):
        return formula(words[1:-1])
    return ("true",) if words == ["true"] else ("name", words[0])


def interval(words, scale):
    """The ends of an interval, each with whether it is included."""
    low, high, closed = units(words[1], scale), words[3], words[4] == "]"
    return (low, words[0] == "[", None if high == "inf" else units(high, scale), closed)


def is_empty(ends):
    """Whether no duration is in the interval."""
    low, low_in, high, high_in = ends
    return high is not None and (low > high or low == high and not (low_in and high_in))


def nodes(tree, known=None):
    """How many operators, atoms and names there are. What `+` takes twice is counted once."""
    known = {} if known is None else known
    if id(tree) not in known:
        known[id(tree)] = 1 + sum(nodes(part, known) for part in tree[1:]
                                  if isinstance(part, tuple) and isinstance(part[0], str))
    return known[id(tree)]


def limits(words, scale):
    """Refuses a number above the latest time, and brackets that are too deep."""
    for word, at in words:
        if word[0].isdigit():
            number = units(word, scale)
            if number is None or number > LATEST:
                raise Refused("Number", at)
    depth = 0
    for word, at in words:
        if word in ("(", "[", "{"):
            depth += 1
            if depth > OPEN:
                raise Refused("TooDeep", at)
        elif word in (")", "]", "}"):
            depth = max(depth - 1, 0)


def names(words):
    """Refuses the first name that is one too many of its kind."""
    seen = {True: set(), False: set()}
    for place, (word, at) in enumerate(words):
        if kind_of(word) == "name":
            kind = [one for one, _ in words[max(place - 2, 0):place]] == ["event", "("]
            seen[kind].add(word)
            if len(seen[kind]) > NAMES:
                raise Refused("TooManyNames", at)


def read(text, scale):
    """The tree of a text, or its refusal."""
    if len(text) > BYTES:
        raise Refused("TooLong")
    words = words_of(text)
    limits(words, scale)
    alone = [word for word, _ in words]
    front, whole = longest_front([kind_of(word) for word in alone])
    if not whole:
        raise Refused("Syntax", words[front][1] if front < len(words) else len(text))
    for place, word in enumerate(alone):
        if word == "%" and is_empty(interval(alone[place + 1:place + 6], scale)):
            raise Refused("EmptyInterval", words[place + 1][1])
    names(words)
    tree = pattern(alone, scale)
    count = nodes(tree)
    if count > NODES:
        raise Refused("TooLarge", min(count, MANY))
    return tree


# ---- random texts

def number(rng, scale):
    """A number in some spelling."""
    value = rng.choice([0, 1, 2, 3, rng.randrange(20), rng.randrange(10 ** (scale + 2)),
                        rng.randrange(LATEST + 1)] + [LATEST] * (rng.random() < 0.1))
    whole, part = divmod(value, 10 ** scale)
    text = str(whole)
    if scale and (part or rng.random() < 0.2):
        text += "." + str(part).rjust(scale, "0")
        text = text.rstrip("0") if rng.random() < 0.5 and not text.endswith(".0") else text
        text += "0" if text.endswith(".") else ""
    elif rng.random() < 0.05:
        text += ".000"
    return "0" * (rng.random() < 0.05) + text


def state(rng, size, inside):
    """Words of a formula, or of a literal."""
    if size <= 1 or rng.random() < 0.3:
        return [rng.choice(["p", "q", "r", "bus.req_1", "_", "false", "Eps", "true", "events"])]
    roll = rng.random()
    if roll < 0.25:
        return ["!"] + state(rng, size - 1, inside)
    if not inside:
        return ["{"] + state(rng, size - 1, True) + ["}"]
    if roll < 0.45:
        return ["("] + state(rng, size - 1, True) + [")"]
    cut = rng.randrange(1, size)
    return state(rng, cut, True) + [rng.choice(["&&", "||"])] + state(rng, size - cut, True)


def ends(rng, scale):
    """Words of an interval."""
    low = number(rng, scale)
    high = rng.choice([number(rng, scale), low, "inf"])
    if high != "inf" and Fraction(high) < Fraction(low) and rng.random() < 0.9:
        low, high = high, low
    return [rng.choice("[("), low, ",", high, ")" if high == "inf" else rng.choice("])]]")]


def expression(rng, size, scale):
    """Words of a pattern."""
    if size <= 1:
        return state(rng, 1, False)
    roll = rng.random()
    if roll < 0.5:
        cut = rng.randrange(1, size)
        return (expression(rng, cut, scale) + [rng.choice([";", ";", "|", "&"])]
                + expression(rng, size - cut, scale))
    if roll < 0.62:
        return expression(rng, size - 1, scale) + [rng.choice("*+?")]
    if roll < 0.72:
        return expression(rng, size - 1, scale) + ["%"] + ends(rng, scale)
    if roll < 0.82:
        return ["("] + expression(rng, size - 1, scale) + [")"]
    if roll < 0.87:
        return [rng.choice(["rise", "fall"]), "("] + state(rng, size - 1, True) + [")"]
    if roll < 0.9:
        return rng.choice([["eps"], ["event", "(", rng.choice(["e", "p", "tick.1"]), ")"]])
    literal = state(rng, size - 1, False)
    return rng.choice([literal, ["<:"] + literal, literal + [":>"], ["<:"] + literal + [":>"]])


ODD = ["p", "e", "1", "0.5", "1.", ".5", "inf", "true", "eps", "event", "rise", "1099511627777",
       "#", "<", ":", "=", "\u00e9", "[3,2]", "% [3,2]", "% (1,1]", "% [2,2]"] + list(SIGNS)


def damaged(rng, words):
    """The words with one to three things wrong."""
    words = list(words)
    for _ in range(rng.choice([1, 1, 1, 2, 3])):
        place, roll = rng.randrange(len(words) + 1), rng.random()
        if roll < 0.3:
            words[place:place + 1] = []
        elif roll < 0.6:
            words.insert(place, rng.choice(ODD))
        elif roll < 0.85:
            words[place:place + 1] = [rng.choice(ODD)]
        else:
            words = words[:place]
    return words


def large(rng, scale):
    """Words of a pattern near one of the limits."""
    roll, near = rng.randrange(6), rng.choice([-1, 0, 1, 2])
    if roll == 0:
        count = NAMES + near
        form = rng.choice([["p%d"], ["event", "(", "p%d", ")"], ["rise", "(", "p%d", ")"]])
        return sum(([word % n if "%" in word else word for word in form] + [rng.choice(";|")]
                    for n in rng.sample(range(count), count)), []) + expression(rng, 4, scale)
    if roll == 1:
        depth = OPEN + near
        return ["("] * depth + expression(rng, 2, scale) + [")"] * (depth - rng.choice([0, 0, 1]))
    if roll == 2:
        count = NODES // 3 + near
        return ["p", ";"] * count + expression(rng, rng.choice([1, 2, 4]), scale)
    if roll == 3:
        return expression(rng, 3, scale) + ["+"] * rng.randrange(4, 40)
    if roll == 4:
        return ["p"] * (rng.random() < 0.5) + ["%"] + ["[", "0", ",", str(LATEST + near), "]"]
    return [" " * (BYTES + near - 1), "p"]


def text_of(rng, words):
    """The words with white space between, and now and then one byte changed."""
    text = ""
    for word in words:
        blank = rng.choice(["", "", " ", "  ", "\t", "\n", "\r\n"])
        plain = text and re.match(r"[\w.]", text[-1]) and re.match(r"[\w.]", word)
        if plain or text[-1:] + word[:1] in ("||", "&&", "<:", ":>"):
            blank = blank or rng.choice([" ", " ", " ", "\n"])
        text += blank + word
    if text and rng.random() < 0.08:
        place = rng.randrange(len(text))
        text = text[:place] + rng.choice("#.<:|&!()[]{};,%p1 ") + text[place + 1:]
    return text


def made(rng):
    """A text and a scale."""
    scale = rng.choice([0, 0, 0, 1, 3, 9])
    roll = rng.random()
    words = large(rng, scale) if roll < 0.04 else expression(rng, rng.randrange(1, 14), scale)
    if rng.random() < 0.5:
        words = damaged(rng, words)
    return text_of(rng, words), scale


# ---- the comparison

def told(program, text, scale):
    """What the program says of a text."""
    words = ["--show"] + (["--scale", str(scale)] if scale else []) + ["--", text]
    ran = subprocess.run([program] + words, capture_output=True, check=False)
    if ran.returncode == 3 and not ran.stdout:
        said = re.fullmatch(rb"montre: expression: (\w+)(?: at)?(?: (\d+))?\n", ran.stderr)
        if said:
            return (said.group(1).decode(),) + ((int(said.group(2)),) if said.group(2) else ())
    if ran.returncode == 0 and not ran.stderr and ran.stdout.endswith(b"\n"):
        words = words_of(ran.stdout[:-1])
        alone = [word for word, _ in words]
        if longest_front([kind_of(word) for word in alone])[1]:
            return pattern(alone, scale)
    return (ran.returncode, ran.stdout, ran.stderr)


def wanted(text, scale):
    """What the page says of it."""
    try:
        return read(text.encode(), scale)
    except Refused as refused:
        return refused.args


def main():
    program = sys.argv[1]
    count = int(sys.argv[2]) if len(sys.argv) > 2 else 20000
    rng = random.Random(sys.argv[3] if len(sys.argv) > 3 else "patterns")
    sys.setrecursionlimit(20000)
    kinds, differ = Counter(), 0
    for _ in range(count):
        text, scale = made(rng)
        want, got = wanted(text, scale), told(program, text, scale)
        kinds[want[0] if want[0][0].isupper() else "read"] += 1
        if want != got:
            differ += 1
            print("%r at scale %d\n    page: %s\n    program: %s"
                  % (text[:300], scale, str(want)[:300], str(got)[:300]))
    print(", ".join("%d %s" % (kinds[kind], kind) for kind in sorted(kinds)))
    print("%d texts, %d differ" % (count, differ))
    sys.exit(differ > 0)


if __name__ == "__main__":
    main()
