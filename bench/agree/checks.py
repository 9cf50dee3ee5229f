#!/usr/bin/env python3
"""Files of checks with a verdict, beside a plain slow reading of what the pages say of them.

    python3 bench/agree/checks.py PATH_OF_MONTRE [FILES]

Each of 2,000 random files, over a short trace of its own, is read here line by line. What the
verdict on a check is, and which pairs it is about, is found on a grid by the definitions of
docs/meaning.md, with what has begun at the end; and the same is done for as many damaged files, of
which most have to be refused, with the line that the reading says. The files are the same in each
run of the script.
"""

import os
import random
import re
import resource
import subprocess
import sys
import tempfile
from collections import Counter, namedtuple

import meaning
import patterns
from cases import (DEFINED, CHANGES, LETS, Form, are_in_order, changes_of, columns_of,
                   defined_dump_of, dump_of, end_of, lines_of, make_trace, read_zone, scale_words,
                   spelled)
from meaning import INF, admits, composed, cuts
from random_meaning import ATOMS, behind, between

FILES = 2000
FINE, STEP = 12, 4  # moments in a tick, and from one compared time to the next
CHECKS = 64
LIMIT = 1048576
SECONDS = 20
NAME = re.compile(r"[A-Za-z_][A-Za-z0-9_.]*\Z")
FRONT = re.compile(r"[A-Za-z0-9_.]*")
LET = re.compile(r"\s*let[ \t]+\w")
ARROW = re.compile(r"=>|\|->")
NEVER, SOME, SAME, FOLLOWS, PLAIN = "never", "some", "=>", "|->", ""

Check = namedtuple("Check", "form name patterns")


class Refused(Exception):
    """What is said of the file."""


# ---- a file of checks, line by line

def is_name(text):
    return NAME.match(text) is not None and text not in patterns.RESERVED


def front(text):
    """The bytes of a name that the text begins with, and what is behind them and blanks."""
    name = FRONT.match(text).group()
    return name, text[len(name):].lstrip(" \t")


def said(line):
    """Nothing, a check as its form, its name and the texts of its patterns, or a definition."""
    content = (line[:-1] if line.endswith(b"\r") else line).lstrip(b" \t")
    if not content or content.startswith(b"#"):
        return None
    if not content.isascii():
        raise Refused("BadLine")
    word, rest = front(content.decode())
    if not is_name(word):
        raise Refused("BadLine")
    if rest.startswith("="):
        return PLAIN, word, [rest[1:]]
    if word == "let":
        return "let", rest, []
    name, rest = front(rest)
    if word not in ("never", "some", "each") or not is_name(name) or not rest.startswith("="):
        raise Refused("BadLine")
    text = rest[1:]
    if word != "each":
        return word, name, [text]
    arrow = ARROW.search(text)
    if not arrow:
        raise Refused("BadLine")
    return arrow.group(), name, [text[:arrow.start()], " " * arrow.end() + text[arrow.end():]]


def defined(text, kind):
    """The name of a definition: one of those that the files of this script are made of."""
    word, rest = front(text)
    known = {"vcd": DEFINED + CHANGES, "csv": LETS}.get(kind, "").split(";")
    bodies = [part.split("=", 1)[1].replace(" ", "") for part in known if part]
    if (";" in text or "\t" in text or not is_name(word) or not rest.startswith("=")
            or rest[1:].replace(" ", "") not in bodies):
        raise Refused("BadLine")
    return word


def pattern_of(text, scale):
    try:
        return patterns.read(text.encode(), scale)
    except patterns.Refused as refused:
        kind, *place = refused.args
        sign = " " if kind == "TooLarge" else " at "
        raise Refused("Pattern", kind + "".join(sign + str(number) for number in place)) from None


def read_line(line, kind, scale, checks, names):
    """Adds what the line says."""
    found = said(line)
    if found is None:
        return
    form, name, texts = found
    if form == "let":
        name = defined(name, kind)
        if name in names:
            raise Refused("Twice")
        names.append(name)
        return
    if len(checks) == CHECKS:
        raise Refused("TooMany")
    if name in [check.name for check in checks]:
        raise Refused("Twice")
    checks.append(Check(form, name, [pattern_of(text, scale) for text in texts]))


def read_file(text, kind, scale, given):
    """The checks and the names that are defined, those given first; or what is refused."""
    if len(text) > LIMIT:
        raise Refused("TooLarge")
    checks, names = [], list(given)
    for number, line in enumerate(text.split(b"\n"), 1):
        try:
            read_line(line, kind, scale, checks, names)
        except Refused as refused:
            what, *more = refused.args
            raise Refused(": ".join(["%s at %d" % (what, number), *more])) from None
    if all(check.form == PLAIN for check in checks):
        raise Refused("Empty")
    return checks, names


# ---- trees of patterns, as the meaning has them

def state_of(tree):
    if tree[0] == "name":
        return lambda on: tree[1] in on
    if tree[0] == "true":
        return lambda on: True
    parts = [state_of(part) for part in tree[1:]]
    if tree[0] == "not":
        return lambda on: not parts[0](on)
    way = all if tree[0] == "and" else any
    return lambda on: way(part(on) for part in parts)


def meant_by(tree, units):
    """The tree, with states as functions and numbers in ticks."""
    kind = tree[0]
    if kind == "literal":
        return "literal", state_of(tree[1])
    if kind in ("rise", "fall"):
        return "edge", state_of(tree[1]), kind == "fall"
    if kind in ("event", "eps"):
        return tree
    first = meant_by(tree[1], units)
    if kind == "star":
        return "star", first
    if kind == "within":
        low, low_in, high, high_in = tree[2]
        high = INF if high is None else high // units
        return "last", first, low // units, high, low_in, high_in
    return {"meet": "both"}.get(kind, kind), first, meant_by(tree[2], units)


def pairs(tree, trace, count):
    return meaning.pairs(tree, trace, count, FINE)


def begun(tree, trace, count):
    """The moments from which up to the end a match may have begun."""
    kind, end = tree[0], count - 1
    if kind in meaning.ATOMS:
        return {end} | {a for a, b in pairs(tree, trace, count) if b == end}
    first = begun(tree[1], trace, count)
    if kind == "last":
        high, high_in = tree[3], tree[5]
        return {a for a in first if admits(end - a, -1, high, True, high_in, FINE)}
    if kind == "star":
        return {end} | led(pairs(tree, trace, count), first)
    second = begun(tree[2], trace, count)
    if kind == "seq":
        return first | led(pairs(tree[1], trace, count), second)
    return first | second if kind == "alt" else first & second


def led(some, moments):
    """The begins of pairs that end at one of the moments."""
    return {a for a, b in some if b in moments}


# ---- verdicts

def judged(check, trace, units):
    """The verdict, and the pairs that are shown."""
    count = cuts(trace, FINE)[-1] + 1
    trees = [meant_by(tree, units) for tree in check.patterns]
    subject = pairs(trees[0], trace, count)
    if check.form == PLAIN:
        return None, subject
    if check.form == SOME:
        return "pass" if subject else "fail", set()
    if check.form == NEVER:
        return ("fail" if seen(subject) else "pass"), subject
    fails, waits = unspared(check.form, subject, trees[1], trace, count)
    if seen(fails):
        return "fail", fails
    if not seen(subject):
        return "vacuous", set()
    return ("open", waits) if seen(waits) else ("pass", set())


def unspared(form, subject, tree, trace, count):
    """The pairs that fail, and those that are unanswered."""
    answers = pairs(tree, trace, count)
    begins = begun(tree, trace, count)
    if form == SAME:
        may = answers | {(a, count - 1) for a in begins}
        return subject - may, subject - answers
    good = {a for a, _ in answers}
    return ({(a, b) for a, b in subject if b not in good | begins},
            {(a, b) for a, b in subject if b not in good})


def seen(some):
    """The pairs of compared times. Where a set has a pair, it has one of these."""
    return {pair for pair in some if pair[0] % STEP == pair[1] % STEP == 0}


def holds(zone, begin, end):
    begins, ends, lasts = zone
    return (admits(begin, *begins, FINE) and admits(end, *ends, FINE)
            and admits(end - begin, *lasts, FINE))


def are_shown(lines, check, shown, trace, form):
    """Whether the lines are zones of the check that hold just these pairs."""
    zones = []
    for line in lines:
        name, _, zone = line.partition(" ")
        if name != check.name:
            return False
        zones.append(read_zone(zone, form))
    times = range(0, cuts(trace, FINE)[-1] + FINE + 1, STEP)
    return are_in_order(zones, []) and all(
        ((a, b) in shown) == any(holds(zone, a, b) for zone in zones) for a in times for b in times)


def is_text(out, checks, trace, form):
    """Whether the text is right, and how many checks fail."""
    lines, place, failed, verdicts = out.splitlines(), 0, 0, Counter()
    for check in checks:
        verdict, shown = judged(check, trace, form.units)
        verdicts[verdict] += 1
        failed += verdict == "fail"
        if verdict is not None:
            if lines[place:place + 1] != ["%s %s" % (verdict, check.name)]:
                return False, failed, verdicts
            place += 1
        end = place
        while end < len(lines) and re.match(re.escape(check.name) + r" [(\[]", lines[end]):
            end += 1
        if not are_shown(lines[place:end], check, shown, trace, form):
            return False, failed, verdicts
        place = end
    return lines[place:] == ["end " + end_of(cuts(trace, 1)[-1], form)], failed, verdicts


# ---- files and traces by chance

def spaced(pick, least=""):
    return pick.choice([least or "", " ", "  ", "\t", " \t "])


def random_pattern(pick, leaves, with_events):
    """The spelling of a pattern with so many atoms at most."""
    while True:
        count = pick.randint(1, leaves)
        if count == 1:
            text = behind(pick, *pick.choice(ATOMS))[0]
        else:
            text = behind(pick, *between(pick, count))[0]
        if with_events or "event" not in text:
            return text


def random_check(pick, name, form, with_events):
    """A line: E and F are often made to have to do with one another."""
    first = random_pattern(pick, 3, with_events)
    kind = pick.choice(["", "never", "some", "=>", "=>", "|->", "|->", "|->"])
    begin = "%s%s%s%s=%s" % (kind if kind in ("never", "some") else "each" if kind else "",
                             spaced(pick, " ") if kind else "", name, spaced(pick), spaced(pick))
    if kind not in (SAME, FOLLOWS):
        return begin + spelled(first, form)
    second = random_pattern(pick, 3, with_events)
    if kind == SAME and pick.random() < 0.5:
        second = pick.choice(["(%s) %% [0,%d]" % (first, pick.randint(0, 3)),
                              "(%s)|(%s)" % (first, second), "true?;(%s);true?" % second])
    return "%s%s%s%s%s%s" % (begin, spelled(first, form), spaced(pick), kind, spaced(pick),
                             spelled(second, form))


def random_file(pick, form, lets, with_events):
    """The lines of a file, and which definitions are given on the command line."""
    names = pick.sample(["a", "p", "never", "some", "each", "let", "end", "at", "_", "x.1", "busy"],
                        pick.randint(1, 5))
    lines = [random_check(pick, name, form, with_events) for name in names]
    lines += [pick.choice(["", "# a comment", " \t", "#"]) for _ in range(pick.randint(0, 2))]
    given = [text for text in lets if pick.random() < 0.4]
    lines += ["let%s%s" % (spaced(pick, " "), text.strip()) for text in lets if text not in given]
    pick.shuffle(lines)
    ends = pick.choice(["\n", "\n", "\r\n"])
    text = "".join(pick.choice(["", "", " "]) + line + ends for line in lines)
    return text[:len(text) - len(ends)] if pick.random() < 0.2 else text, given


def damaged(pick, text):
    """The text with one to three bytes put in, left out or changed, or a line of another kind."""
    if pick.random() < 0.4:
        lines = text.split("\n")
        lines.insert(pick.randint(0, len(lines)), pick.choice(
            ["each x = p", "never p", "all a = p", "each x = p -> q", "let q", "let a b = tb.p",
             "let x = top.v[2]; y = top.v[1]", "let x\t= top.v[2]", "some rise = p", "never a = p",
             "each x = => p", "each x = p =>", "never x = p => q", "some \u00e9 = p", "let = (p",
             "never y = p # why", "each z = p |- > q", "never 1x = p", "x =", "= p"]))
        return "\n".join(lines)
    lines = text.split("\n")
    for _ in range(pick.choice([1, 1, 2, 3])):
        number = pick.choice([n for n, line in enumerate(lines) if not LET.match(line)] or [None])
        if number is not None:
            lines[number] = with_damage(pick, lines[number])
    return "\n".join(lines)


def with_damage(pick, line):
    place = pick.randint(0, len(line))
    return pick.choice([
        line[:place] + pick.choice("=>|-#;%()[]{},. \tpx0\u00e9\r\n!&*") + line[place:],
        line[:place] + line[place + 1:],
        line[:place] + pick.choice("=>|-#;%(x0 \n") + line[place + 1:]])


def random_form(pick, trace, place):
    """The kind of the form, the form with no definitions, and all definitions there are."""
    scale = pick.choice([0, 0, 1, 3])
    kind = ("text", "vcd", "dump", "csv")[place % 4]
    if kind == "text":
        return kind, Form(scale_words(scale), scale, 1, lines_of(trace, scale)), []
    if kind == "csv":
        options = ("--format", "csv", *scale_words(scale))
        return kind, Form(options, scale, 1, columns_of(trace, scale)), LETS.split(";")
    options = ("--format", "vcd", *scale_words(scale))
    if kind == "dump":
        return "vcd", Form(options, scale, 10 ** scale, dump_of(trace)), []
    lets = (DEFINED + (CHANGES if changes_of(trace, "a") else "")).split(";")
    return "vcd", Form(options, scale, 10 ** scale, defined_dump_of(trace)), lets


# ---- the comparison

def limits():
    resource.setrlimit(resource.RLIMIT_AS, (4 << 30, 4 << 30))


def run(montre, path, words, text):
    done = subprocess.run([montre, "--check", *words, path], input=text.encode(),
                          capture_output=True, timeout=SECONDS, preexec_fn=limits, check=False)
    return done.returncode, done.stdout.decode(), done.stderr.decode()


def is_right(found, checks, trace, form):
    """Whether the run is what the checks come to, and their verdicts."""
    status, out, err = found
    right, failed, verdicts = is_text(out, checks, trace, form)
    ending = (13, "montre: failed checks %d\n" % failed) if failed else (0, "")
    return right and (status, err) == ending, verdicts


def limited(montre, path, words, form, found):
    """Whether --max-zones lets through as many zones as there are, and no fewer."""
    zones = found[1].count(",") // 3
    fewer = run(montre, path, [*words, "--max-zones", str(zones - 1)], form.text) if zones else None
    return (run(montre, path, [*words, "--max-zones", str(zones)], form.text) == found
            and fewer in (None, (9, "", "montre: too many zones %d\n" % zones)))


def compare(montre, path, place, is_damaged):
    """One file over one trace: whether it is right, and what came of it."""
    pick = random.Random("%d %s" % (place, is_damaged))
    trace = make_trace(pick.randint(1, 999), pick.randint(0, 4), place % 8 < 4)
    kind, form, lets = random_form(pick, trace, place)
    text, given = random_file(pick, form, lets, kind != "csv")
    text = damaged(pick, text) if is_damaged else text
    with open(path, "wb") as file:
        file.write(text.encode())
    option = {"vcd": "--define", "csv": "--let"}.get(kind)
    words = [*form.options, *([option, ";".join(given)] if given else [])]
    words += ["--normal"] if pick.random() < 0.3 else []
    found = run(montre, path, words, form.text)
    try:
        names = [text.split("=")[0].strip() for text in given]
        checks, _ = read_file(text.encode(), kind, form.scale, names)
        if is_damaged:
            right, kinds = found[0] in (0, 4, 13) and is_told(found), Counter(["taken"])
        else:
            right, kinds = is_right(found, checks, trace, form)
        if right and found[0] in (0, 13) and "--normal" in words:
            right = limited(montre, path, words, form, found)
    except Refused as refused:
        right = found == (12, "", "montre: watch: %s\n" % refused.args)
        kinds = Counter([refused.args[0].split(" ")[0]])
    if not right:
        print("%r\n%s\nover\n%s\nFOUND %r" % (words, text, form.text, found))
    return right, kinds


def is_told(found):
    """Whether the status and the lines fit."""
    status, out, err = found
    if status == 4:
        return out == "" and re.fullmatch(r"montre: trace: \w+ at \d+\n", err) is not None
    failed = len(re.findall(r"^fail \S+$", out, re.M))
    return (status == 13) == (failed > 0) and out.splitlines()[-1].startswith("end ") and (
        err == ("montre: failed checks %d\n" % failed if failed else ""))


def main():
    if len(sys.argv) not in (2, 3):
        sys.exit("usage: python3 bench/agree/checks.py PATH_OF_MONTRE [FILES]")
    montre = os.path.abspath(sys.argv[1])
    count = int(sys.argv[2]) if len(sys.argv) > 2 else FILES
    wrong = 0
    with tempfile.TemporaryDirectory() as folder:
        path = os.path.join(folder, "checks")
        for is_damaged in (False, True):
            kinds = Counter()
            for place in range(count):
                right, came = compare(montre, path, place, is_damaged)
                wrong += not right
                kinds.update(came)
            told = ", ".join("%d %s" % (kinds[kind], kind or "without one")
                             for kind in sorted(kinds, key=str))
            print("%d %s files: %s" % (count, "damaged" if is_damaged else "whole", told))
    print("%d files, %d wrong" % (2 * count, wrong))
    sys.exit(wrong > 0)


if __name__ == "__main__":
    main()
