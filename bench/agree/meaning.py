"""A plain slow reading of docs/meaning.md: what a pattern matches over a small trace.

Moments lie on a grid of FINE to a tick. A trace is a list of segments, each a
length in ticks, the set of the names that are true and the set of the events at
its begin, and the set of the events at the end. A pattern is a tree of tuples.

All bounds are whole numbers. So where some moment between two times fits, one
fits on the grid of these times or halfway between two of its times. A sequence in
a sequence needs one more halving, and no pattern of cases.py needs more than
two: times that are compared stand at every fourth moment of the grid.
Repetitions restrict by closed intervals only, so their cuts need none.
"""

from collections import namedtuple

FINE = 8   # moments in a tick
STEP = 4   # from one compared time to the next
INF = 1 << 60

Segment = namedtuple("Segment", "length on events")
Trace = namedtuple("Trace", "segments last")


def front(trace, count):
    """The first segments of a trace, and no event at their end."""
    return Trace(trace.segments[:count], frozenset())


def cuts(trace, fine=FINE):
    """The moments at which segments begin, and the end of the last."""
    times = [0]
    for segment in trace.segments:
        times.append(times[-1] + segment.length * fine)
    return times


# The pairs of the first `count` moments, for each case of the definition.
def literal_pairs(state, trace, count, fine):
    times = cuts(trace, fine)
    against = [(begin, end) for segment, begin, end in zip(trace.segments, times, times[1:])
               if not state(segment.on)]
    return {(a, b) for a in range(count) for b in range(a + 1, min(count, times[-1] + 1))
            if not any(begin < b and a < end for begin, end in against)}


def edge_pairs(state, before, trace, count, fine):
    times, on = cuts(trace, fine), [segment.on for segment in trace.segments]
    return {(times[i], times[i]) for i in range(1, len(on)) if times[i] < count
            and state(on[i - 1]) == before and state(on[i]) != before}


def event_pairs(name, trace, count, fine):
    events = [segment.events for segment in trace.segments] + [trace.last]
    return {(time, time) for time, here in zip(cuts(trace, fine), events)
            if name in here and time < count}


def empty_pairs(trace, count, fine):
    return {(a, a) for a in range(min(count, cuts(trace, fine)[-1] + 1))}


def composed(first, second):
    ends = {}
    for moment, b in second:
        ends.setdefault(moment, []).append(b)
    return {(a, b) for a, moment in first for b in ends.get(moment, ())}


def chains(once, trace, count, fine):
    """What is reached from each moment by steps of `once`."""
    found = newest = empty_pairs(trace, count, fine)
    while newest:
        newest = composed(newest, once) - found
        found = found | newest
    return found


def admits(time, low, high, low_in, high_in, fine=FINE):
    low, high = low * fine, high * fine
    return (low < time or low_in and low == time) and (time < high or high_in and time == high)


ATOMS = {"literal": literal_pairs, "edge": edge_pairs, "event": event_pairs, "eps": empty_pairs}
WAYS = {"seq": composed, "alt": set.union, "both": set.intersection}


def pairs(tree, trace, count, fine=FINE):
    """The matches among the first `count` moments."""
    kind = tree[0]
    if kind in ATOMS:
        return ATOMS[kind](*tree[1:], trace, count, fine)
    first = pairs(tree[1], trace, count, fine)
    if kind == "star":
        return chains(first, trace, count, fine)
    if kind == "last":
        return {(a, b) for a, b in first if admits(b - a, *tree[2:], fine)}
    return WAYS[kind](first, pairs(tree[2], trace, count, fine))


# ---- strips

# An end of a bar: whether it moves with the begin, its ticks (behind the begin
# where it moves), and whether it stands just after that moment, or just before it.
End = namedtuple("End", "moves ticks after")
Strip = namedtuple("Strip", "first until takes_first takes_until bars")


def place(end, begin):
    """Where an end stands over a begin in half ticks: its quarter tick, and one more just after."""
    return 2 * (2 * end.ticks + (begin if end.moves else 0)) + end.after


def bars_over(ends, begin):
    """The bars over a begin in half ticks, of the quarter ticks at which pairs end."""
    bars, at = [], 0
    on = [quarter in ends for quarter in range(max(ends, default=0) + 2)]
    # Between two half ticks nothing changes, so one quarter tick stands for all times there.
    while at < len(on):
        if not on[at]:
            at += 1
            continue
        low = at
        while on[at]:
            at += 1
        bars.append((end_at(low, begin), end_at(at, begin)))
    return tuple(bars)


def end_at(place, begin):
    """The end that stands there. Its moment is a half tick; where that is no whole one, it moves."""
    half, after = divmod(place, 2)
    if half % 2 == 0:
        return End(False, half // 2, after)
    return End(True, (half - begin) // 2, after)


def fits(bars, ends, begin):
    """No bar is empty over the begin, and together they are these ends."""
    spans = [(place(low, begin), place(high, begin)) for low, high in bars]
    held = {quarter for low, high in spans for quarter in range(low, high)}
    return all(low < high for low, high in spans) and held == ends


def strips(section, last):
    """The strips of a set of pairs that ends by the tick `last`.

    `section(begin)` is the set of the quarter ticks at which pairs end that begin
    at so many half ticks.
    """
    profiles = [bars_over(section(2 * tick + 1), 2 * tick + 1) for tick in range(last)]
    found, taken, tick = [], set(), 0
    while tick < last:
        bars, first = profiles[tick], tick
        tick += 1
        while tick < last and profiles[tick] == bars and fits(bars, section(2 * tick), 2 * tick):
            tick += 1
        if not bars:
            continue
        takes = [fits(bars, section(2 * end), 2 * end) for end in (first, tick)]
        found.append(Strip(first, tick, *takes, bars))
        taken |= set(range(first + 1, tick))
        taken |= {end for end, is_taken in zip((first, tick), takes) if is_taken}
    for point in range(last + 1):
        bars = bars_over(section(2 * point), 2 * point)
        if bars and point not in taken:
            found.append(Strip(point, point, True, True, bars))
    return found


def zone_of(strip, low, high):
    """The tightest ranges of the pairs of a strip that end on a bar."""
    takes = {strip.first: strip.takes_first, strip.until: strip.takes_until}
    def added(end, begin):
        return end.ticks + begin if end.moves else end.ticks
    def lasting(end, begin):
        return end.ticks if end.moves else end.ticks - begin
    begins = (strip.first, strip.until, strip.takes_first, strip.takes_until)
    ends = (added(low, strip.first), added(high, strip.until),
            not low.after and (not low.moves or takes[strip.first]),
            bool(high.after) and (not high.moves or takes[strip.until]))
    lasts = (lasting(low, strip.until), lasting(high, strip.first),
             not low.after and (low.moves or takes[strip.until]),
             bool(high.after) and (high.moves or takes[strip.first]))
    return begins, ends, lasts


def strip_zones(section, last):
    """The zones of the strips, as three ranges each."""
    return [zone_of(strip, low, high) for strip in strips(section, last)
            for low, high in strip.bars]
