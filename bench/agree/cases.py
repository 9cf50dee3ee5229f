"""Patterns, small traces and the forms in which montre takes them, and how it prints zones."""

import re
from collections import namedtuple

from meaning import INF, Segment, Trace, admits, cuts

P, Q, R = (lambda on: "p" in on), (lambda on: "q" in on), (lambda on: "r" in on)
TRUE, ANY = (lambda on: True), (lambda on: P(on) or Q(on))
BOTH, P_NOT_Q = (lambda on: P(on) and Q(on)), (lambda on: P(on) and not Q(on))

def no(state): return lambda on: not state(on)
def lit(state): return ("literal", state)
def rise(state): return ("edge", state, False)
def fall(state): return ("edge", state, True)
def event(name): return ("event", name)
def seq(e, *rest): return ("seq", e, seq(*rest)) if rest else e
def alt(e, f): return ("alt", e, f)
def both(e, f): return ("both", e, f)
def star(e): return ("star", e)
def plus(e): return seq(e, star(e))
def last(e, low, high, *ends): return ("last", e, low, high, *(ends or (True, True)))
EPS = ("eps",)
p, q, r, a, b = lit(P), lit(Q), lit(R), event("a"), event("b")
PULSE = seq(rise(P), p, fall(P))

PATTERNS = [
    ("p", p), ("!p", lit(no(P))), ("true", lit(TRUE)), ("eps", EPS),
    ("{p && q}", lit(BOTH)), ("{p && !q}", lit(P_NOT_Q)), ("{p || q}", lit(ANY)),
    ("rise(p)", rise(P)), ("fall(p)", fall(P)), ("rise(p || q)", rise(ANY)),
    ("p|q", alt(p, q)), ("p&q", both(p, q)), ("rise(p)|fall(q)", alt(rise(P), fall(Q))),
    ("p;q", seq(p, q)), ("p;p", seq(p, p)), ("p;q;r", seq(p, q, r)),
    ("<:p", seq(rise(P), p)), ("p:>", seq(p, fall(P))), ("<:p:>", PULSE),
    ("<:!q:>", seq(rise(no(Q)), lit(no(Q)), fall(no(Q)))),
    ("p % [1,2]", last(p, 1, 2)), ("p % (1,2)", last(p, 1, 2, False, False)),
    ("p % (1,2]", last(p, 1, 2, False, True)), ("p % [2,inf)", last(p, 2, INF)),
    ("p % [0,0]", last(p, 0, 0)), ("(p;q) % [0,1]", last(seq(p, q), 0, 1)),
    ("p ; q % (1,3)", seq(p, last(q, 1, 3, False, False))),
    ("(p % (0,1)) ; (q % [1,2))",
     seq(last(p, 0, 1, False, False), last(q, 1, 2, True, False))),
    ("(p;q) & (true;rise(q);true)", both(seq(p, q), seq(lit(TRUE), rise(Q), lit(TRUE)))),
    ("(p;q) % [2,3] | q % [1,1]", alt(last(seq(p, q), 2, 3), last(q, 1, 1))),
    ("<:p:> ; !q % [1,2]", seq(PULSE, last(lit(no(Q)), 1, 2))),
    ("p?", alt(p, EPS)), ("p*", star(p)), ("(p;q)*", star(seq(p, q))),
    ("(p % [1,1])*", star(last(p, 1, 1))), ("(p % [2,2])+", plus(last(p, 2, 2))),
    ("rise(p)*", star(rise(P))), ("(<:p:>|!p)*", star(alt(PULSE, lit(no(P))))),
    ("(p* & q % [1,2])*", star(both(star(p), last(q, 1, 2)))),
    ("((p % [1,2]);(q % [1,2]))+ % [3,6]",
     last(plus(seq(last(p, 1, 2), last(q, 1, 2))), 3, 6)),
    ("(p & true % [1,2]) ; q", seq(both(p, last(lit(TRUE), 1, 2)), q)),
    ("((p;q) & !r)*", star(both(seq(p, q), lit(no(R))))),
    ("(p;q)* & true % (1,4]", both(star(seq(p, q)), last(lit(TRUE), 1, 4, False, True))),
    ("((p | rise(q)) % [0,2])+ & (true;r)",
     both(plus(last(alt(p, rise(Q)), 0, 2)), seq(lit(TRUE), r))),
]

EVENTS = [
    ("event(a)", a), ("event(a)|event(b)", alt(a, b)), ("event(a) & event(b)", both(a, b)),
    ("event(a);p", seq(a, p)), ("p;event(a)", seq(p, a)), ("event(a);event(b)", seq(a, b)),
    ("event(a);true;event(b)", seq(a, lit(TRUE), b)), ("rise(p);event(a)", seq(rise(P), a)),
    ("(event(a);{p || q};event(b)) % [1,3]", last(seq(a, lit(ANY), b), 1, 3)),
    ("(p;event(a))*", star(seq(p, a))), ("event(a)*", star(a)), ("event(a)?", alt(a, EPS)),
    ("(true;event(b)) & q", both(seq(lit(TRUE), b), q)),
    ("(event(a);{p || q};event(b) | eps) % [0,3]", last(alt(seq(a, lit(ANY), b), EPS), 0, 3)),
    ("(q % [1,2];event(b))+ & (event(a);true)",
     both(plus(seq(last(q, 1, 2), b)), seq(a, lit(TRUE)))),
]
ALL = PATTERNS + EVENTS


def make_trace(number, size, with_events):
    """A trace by a fixed rule."""
    segments = []
    for place in range(size):
        code = (number * 5 + place * 3 + place * place * number + number // 7) % 4
        names = [name for bit, name in ((1, "p"), (2, "q")) if code & bit]
        if (number + place) % 3 == 0:
            names.append("r")
        segments.append(Segment(1 + (number + place * place) % 3, frozenset(names),
                                events_at(number, place) if with_events else frozenset()))
    return Trace(tuple(segments), events_at(number, size) if with_events else frozenset())


def events_at(number, place):
    return frozenset(name for factor, name in ((3, "a"), (7, "b"))
                     if (number + factor * place + number * place // 2) % 3 == 0)


def star_of_turns(size):
    """A pattern, its tree, and a trace on which p and q take turns."""
    segments = (Segment(1 + place % 3, frozenset("pq"[place % 2]), frozenset())
                for place in range(size))
    return "(p;q)*", star(seq(p, q)), Trace(tuple(segments), frozenset())


# ---- what montre is given

def number(units, scale):
    """A number of units with as many decimals as the scale is."""
    digits = str(units).rjust(scale + 1, "0")
    return digits if scale == 0 else digits[:-scale] + "." + digits[-scale:]


def scaled(spelling, scale):
    return re.sub(r"\b\d+", lambda digits: number(int(digits[0]), scale), spelling)


def lines_of(trace, scale=0):
    """The trace in lines of text."""
    text = ""
    for segment in trace.segments:
        text += "@ %s\n" % " ".join(sorted(segment.events)) if segment.events else ""
        text += " ".join([number(segment.length, scale)] + sorted(segment.on)) + "\n"
    return text + ("@ %s\n" % " ".join(sorted(trace.last)) if trace.last else "")


def dump_of(trace):
    """The trace as a value change dump."""
    text = "".join("$var wire 1 %s %s $end\n" % (name, name) for name in "pqr")
    text += "".join("$var event 1 %s %s $end\n" % (name, name) for name in "ab")
    text += "$enddefinitions $end\n"
    ends = cuts(trace, 1)
    for segment, begin in zip(trace.segments, ends):
        values = "".join("%d%s " % (name in segment.on, name) for name in "pqr")
        text += "#%d %s%s\n" % (begin, values, "".join("1%s " % name for name in segment.events))
    return text + "#%d %s\n" % (ends[-1], "".join("1%s " % name for name in trace.last))


# Propositions as a bit, a comparison and a path that is no name, and an event as changes.
DEFINED = "p = top.v[2]; q = top.n==0b101 ; r = top.g[1].\\r! "
CHANGES = "; a = top.e changes"


def changes_of(trace, name):
    """Whether each event of the name can be a change: at the first time none is."""
    return bool(trace.segments) and name not in trace.segments[0].events


def moments_of(events, turn):
    """A value that changes with each `a`, and the events themselves."""
    return "b{:02b} e ".format(turn % 4) + "".join("1%s " % name for name in events) + "\n"


def defined_dump_of(trace):
    """The trace as a dump of signals that DEFINED and CHANGES read."""
    wires = [("wire 4 v", "v [3:0]"), ("reg 4 n", "n"), ("reg 2 e", "e [0:1]")]
    wires += [("event 1 %s" % name, name) for name in "ab"]
    text = "$scope module top $end\n"
    text += "".join("$var %s %s $end\n" % wire for wire in wires[:3])
    text += "$scope module g[1] $end\n$var wire 1 r \\r! $end\n$upscope $end\n$upscope $end\n"
    text += "".join("$var %s %s $end\n" % wire for wire in wires[3:])
    text += "$enddefinitions $end\n"
    ends, turn = cuts(trace, 1), 0
    for place, (segment, begin) in enumerate(zip(trace.segments, ends)):
        turn += "a" in segment.events
        text += "#%d b%d%d01 v " % (begin, place % 2, "p" in segment.on)
        text += "%s n %dr " % ("b101" if "q" in segment.on else "bx01", "r" in segment.on)
        text += moments_of(segment.events, turn)
    return text + "#%d " % ends[-1] + moments_of(trace.last, turn + ("a" in trace.last))


def dump_form(trace, place, scale):
    """A dump of the names themselves, or of what they are defined by."""
    options = ("--format", "vcd", *scale_words(scale))
    if place % 4 not in (1, 2):
        return Form(options, scale, 10 ** scale, dump_of(trace))
    defined = DEFINED + (CHANGES if changes_of(trace, "a") else "")
    return Form((*options, "--define", defined), scale, 10 ** scale, defined_dump_of(trace))


LETS = "p = one >= 1; q = two != 0 ; r=three<-5"


def columns_of(trace, scale=0):
    """The trace as comma-separated rows, for the definitions of LETS."""
    text = "dt,two,one,three\n"
    for segment in trace.segments:
        text += "%s,%d,%d,%d\n" % (number(segment.length, scale), 7 if "q" in segment.on else 0,
                                   1 if "p" in segment.on else 0, -6 if "r" in segment.on else -5)
    return text


# A form of a trace: its options, its scale, how many units a tick of the trace is, its text.
Form = namedtuple("Form", "options scale units text")


def with_names(checks):
    """Checks with names of their own that are never true: 0, 20 or 40 of them."""
    for place, (spelling, tree) in enumerate(checks):
        names = ["n%d_%d" % (place, name) for name in range(place % 3 * 20)]
        yield spelling + " | {!true && (%s)}" % " || ".join(["p", *names]), tree


def declared(form, checks):
    """A dump with the names of with_names declared."""
    names = re.findall(r"\bn\d+_\d+", "".join(spelling for spelling, _ in checks))
    more = "".join("$var wire 1 %s %s $end\n" % (name, name) for name in names)
    return form._replace(text=form.text.replace("$enddefinitions", more + "$enddefinitions"))


def scale_words(scale):
    return ("--scale", str(scale)) if scale else ()


def forms_of(trace, place):
    """Lines of text and columns in units, and a dump in ticks, each at some scale."""
    fine, coarse = (place % 10, 0) if place % 3 else (0, place * 7 % 10)
    return [Form(scale_words(fine), fine, 1, lines_of(trace, fine)),
            dump_form(trace, place, coarse),
            Form(("--format", "csv", "--let", LETS, *scale_words(fine)), fine, 1,
                 columns_of(trace, fine))]


def spelled(spelling, form):
    """A pattern, for a form whose ticks are units where they aren't whole."""
    return scaled(spelling, form.scale) if form.units == 1 else spelling


# ---- what it prints

def end_of(ticks, form):
    return number(ticks * form.units, form.scale)


def read_ticks(word, form):
    whole, _, decimals = word.partition(".")
    assert len(decimals) == form.scale
    ticks, rest = divmod(int(whole + decimals), form.units)
    assert rest == 0
    return ticks


def read_range(word, form):
    low, high = word[1:-1].split(",")
    return read_ticks(low, form), read_ticks(high, form), word[0] == "[", word[-1] == "]"


def read_zone(line, form):
    """A zone, as three ranges."""
    return tuple(read_range(word, form) for word in line.split(" "))


def holds(zone, begin, end):
    begins, ends, lasts = zone
    return admits(begin, *begins) and admits(end, *ends) and admits(end - begin, *lasts)


def is_in(zone, other):
    """Each range of a zone is included in that of the other."""
    return all((low, not low_in) >= (lowest, not lowest_in) and
               (high, high_in) <= (highest, highest_in)
               for (low, high, low_in, high_in), (lowest, highest, lowest_in, highest_in)
               in zip(zone, other))


def key_of(zone):
    """By this the lines are in order."""
    return [part for low, high, low_in, high_in in zone
            for part in (low, not low_in, high, high_in)]


def are_in_order(zones, before):
    """They rise, and none is included in another, nor in one of those before."""
    return all(key_of(zone) < key_of(after) for zone, after in zip(zones, zones[1:])) and not any(
        zone is not other and is_in(zone, other) for zone in zones for other in zones + before)
