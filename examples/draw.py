"""Draws signals and events of a trace or a dump, and the matches of patterns below them.

usage: draw.py [options] TRACE [[NAME=]PATTERN..]

  --text              a timeline in characters, instead of an SVG picture
  --vcd               TRACE is a value change dump, and not lines of text
  --let TEXT          TRACE is columns of numbers, with these names, as for montre
  --define TEXT       names for values, bits and changes of a dump's signals, as for montre
  --unit U            times of a dump are in s, ms, us, ns, ps or fs, as for montre
  --scale K           times have K decimals, as for montre
  --checks FILE       the patterns of such a file too, with its definitions; of `each` what its
                      verdict is about
  --around NAME:N     of the checks this one alone, and only around its Nth match, from 1
  --margin T          so much before and after that match; as much as it takes itself without it
  --from T, --to T    the times to be drawn; the whole trace without them
  --signals A,B       the signals to be drawn, also vectors, bits as tb.q[3], and names of --define;
                      those of the patterns without it
  --width N           how wide the waves of a picture are, 900 without it
  --columns N         how wide a timeline may be, 80 without it

A pattern is drawn with its name, if it has one, and with 0 if it has no match. It runs `montre`, or the program that MONTRE names,
once for each pattern, and reads the trace once for all signals. A zone is drawn from its earliest
start to its latest end. A signal has an edge where montre has one: none at the start of the trace,
and none at its end. What a dump has as z is a line in the middle, and what is neither 0, 1 nor z is
a box. A vector has its value, in hexadecimal digits, from each change on.
"""
import argparse
import re
import sys
import textwrap
from decimal import Decimal
from html import escape

import dumps
from matches import checks_of, matches, named, with_lets
from waves import Whole, definitions, digits, names_in, read_columns, read_dump, read_text, units

COLOURS = ["#1f77b4", "#d62728", "#2ca02c", "#9467bd", "#ff7f0e", "#8c564b"]
LETTERS = {"0": "_", "1": "#", "z": "z"}     # any other is drawn as x


def is_vector(wave):
    return any(len(value) > 1 for _, value in wave)


def ticks(time, scale):
    """A time as it is written at the scale, without zeros behind."""
    text = "%.*f" % (scale, Decimal(time).scaleb(-scale))
    return text.rstrip("0").rstrip(".") if scale else text


class Window:
    """The times to be drawn, in units."""

    def __init__(self, start, end, scale, unit):
        self.start, self.end, self.scale = start, max(end, start + 1), scale
        self.length = self.end - self.start
        self.unit = unit[1:] if re.fullmatch("1[a-z]+", unit) else unit or "ticks"

    def clip(self, stretches):
        inside = [(max(a, self.start), min(b, self.end)) for a, b in stretches]
        return [(a, b) for a, b in inside if a <= b]

    def pieces(self, wave):
        """The stretches of a wave with one value each, those that take some time in the window."""
        ends = [time for time, _ in wave[1:]] + [self.end]
        for (begin, value), end in zip(wave, ends):
            begin, end = max(begin, self.start), min(end, self.end)
            if begin < end:
                yield begin, end, value

    def marks(self, count):
        """Round times for the scale, about so many."""
        step = 1
        while self.length > count * step:
            step = step * 5 // 2 if str(step)[0] == "2" else step * 2
        return range(-(-self.start // step) * step, self.end + 1, step)

    def column(self, time, columns):
        return (time - self.start) * columns // self.length

    def nearest(self, time, columns):
        return round((time - self.start) * columns / self.length)


def rows_of(stretches):
    """The stretches in as few rows as they need, none over another."""
    rows = []
    for stretch in stretches:
        row = next((row for row in rows if row[-1][1] < stretch[0]), None)
        if row is None:
            rows.append([stretch])
        else:
            row.append(stretch)
    return rows


# ---- a timeline in characters

def signal_line(wave, window, columns):
    """A character for each column: its value, or `|` where it changes within."""
    line = [""] * columns
    for begin, end, value in window.pieces(wave):
        last = -((window.start - end) * columns // window.length)
        for place in range(window.column(begin, columns), min(last, columns)):
            letter = LETTERS.get(value or "0", "x")
            line[place] = letter if line[place] in ("", letter) else "|"
    return "".join(line)


def vector_line(wave, window, columns):
    """The values of a vector, each behind a `|`, and cut where the next one comes."""
    line = [" "] * columns
    for begin, end, value in window.pieces(wave):
        first, last = window.column(begin, columns), -((window.start - end) * columns // window.length)
        text = "|" + digits(value) if value else "|"
        line[first:last] = text[:last - first].ljust(last - first)
    return "".join(line[:columns])


def event_line(moments, window, columns):
    line = [" "] * (columns + 1)
    for time, _ in window.clip([(time, time) for time in moments]):
        line[window.nearest(time, columns)] = "^"
    return "".join(line)


def match_line(row, window, columns):
    line = [" "] * (columns + 1)
    for start, end in row:
        first, last = window.nearest(start, columns), window.nearest(end, columns)
        line[first:last + 1] = "-" * (last + 1 - first)
        line[first] = line[last] = "|"
    return "".join(line)


def scale_line(window, columns):
    line = ""
    for mark in window.marks(max(2, columns // 10)):
        place = window.column(mark, columns)
        if place >= len(line):
            line = line.ljust(place) + ticks(mark, window.scale) + " "
    return line


def timeline(waves, moments, found, window, columns):
    columns = columns // window.length * window.length if window.length <= columns else columns
    width = max(len(name) for name in [window.unit, "match", *waves, *moments]) + 2
    lines = [window.unit.ljust(width) + scale_line(window, columns)]
    for name, wave in waves.items():
        draw = vector_line if is_vector(wave) else signal_line
        lines.append(name.ljust(width) + draw(wave, window, columns))
    for name, times in moments.items():
        lines.append(name.ljust(width) + event_line(times, window, columns))
    for label, stretches in found:
        rows = rows_of(window.clip(stretches))
        label += "" if rows else ": 0 here" if stretches else ": 0"
        for row in rows or [[]]:
            lines.append("match".ljust(width) + match_line(row, window, columns) + "  " + label)
    return "\n".join(line.rstrip() for line in lines)


# ---- a picture

class Picture:
    """An SVG picture, row by row from the top."""

    STYLE = ("text{font:13px monospace}path{fill:none;stroke:#222;stroke-width:1.5}"
             ".scale{stroke:#ddd}.z{stroke:#d60;stroke-width:2.5;stroke-dasharray:4 2}"
             ".vector{fill:#fff}.busy{fill:#222}.x{fill:#f6c9c9;stroke:#b22;stroke-width:1}.match{fill-opacity:.7}")

    def __init__(self, window, wide, names):
        self.window, self.wide, self.top, self.rows = window, wide, 30, []
        self.left = 18 + 8 * max(len(name) for name in [window.unit, *names])

    def at(self, time):
        return self.left + (time - self.window.start) * self.wide / self.window.length

    def name(self, text, colour="#000", left=4):
        self.rows.append('<text x="%d" y="%d" fill="%s">%s</text>'
                         % (left, self.top + 17, colour, escape(text)))

    def box(self, kind, begin, end, style=""):
        self.rows.append('<rect class="%s" x="%.1f" y="%d" width="%.1f" height="%d"%s/>'
                         % (kind, begin, self.top + 4, end - begin, 10 if style else 16, style))

    def thinned(self, wave):
        """The pieces of a wave by their places; many within a half point are one that is busy."""
        many = None
        for begin, end, value in self.window.pieces(wave):
            begin, end = self.at(begin), self.at(end)
            if end - begin < 0.5:
                many = (many[0] if many else begin), end
                continue
            if many:
                yield (*many, "busy")
            many = None
            yield begin, end, value
        if many:
            yield (*many, "busy")

    def vector(self, name, wave):
        """A hexagon for each value, with the value where there is room."""
        self.name(name)
        low, middle, high = self.top + 20, self.top + 12, self.top + 4
        for begin, end, value in self.thinned(wave):
            if value == "busy":
                self.box(value, begin, end)
                continue
            slope = min(3, (end - begin) / 2)
            kind = "vector" if set(value) <= {"0", "1"} else "x"
            corners = [(begin, middle), (begin + slope, high), (end - slope, high), (end, middle),
                       (end - slope, low), (begin + slope, low)]
            path = "M%sZ" % " L".join("%.1f,%d" % corner for corner in corners)
            self.rows.append('<path class="%s" d="%s" style="fill:%s"/>'
                             % (kind, path, "#fff" if kind == "vector" else "#f6c9c9"))
            if value and 8 * len(digits(value)) + 6 <= end - begin:
                self.rows.append('<text x="%.1f" y="%d" text-anchor="middle">%s</text>'
                                 % ((begin + end) / 2, self.top + 17, digits(value)))
        self.top += 28

    def signal(self, name, wave):
        if is_vector(wave):
            self.vector(name, wave)
            return
        self.name(name)
        levels = {"1": self.top + 4, "0": self.top + 20, "z": self.top + 12}
        line, before = "", None
        for begin, end, value in self.thinned(wave):
            value = value or "0"
            if value in levels:
                line += "%s%.1f,%d" % ("L" if before in levels else "M", begin, levels[value])
                line += "%s%.1f,%d" % ("M" if value == "z" else "L", end, levels[value])
            else:
                self.box(value, begin, end)
            if value == "z":
                self.rows.append('<path class="z" d="M%.1f,%d H%.1f"/>' % (begin, levels["z"], end))
            before = value
        self.rows.append('<path d="%s"/>' % line)
        self.top += 28

    def event(self, name, moments):
        self.name(name)
        inside = self.window.clip([(time, time) for time in moments])
        places = {"%.1f" % self.at(time) for time, _ in inside}
        self.rows += ['<path d="M%s,%d v16 m-3,-11 l3,-5 l3,5"/>' % (place, self.top + 4)
                      for place in sorted(places, key=float)]
        self.top += 28

    def matches(self, label, stretches, colour):
        rows = rows_of(self.window.clip(stretches))
        label += "" if rows else ": 0 here" if stretches else ": 0"
        for part in textwrap.wrap(label, max(20, self.wide // 8)):
            self.name(part, colour, self.left)
            self.top += 16
        self.top += 4
        for row in rows:
            # of those that would be drawn at one place, one
            for begin, end in {(round(self.at(start) - 1, 1), round(self.at(end) + 1, 1)): 1
                               for start, end in row}:
                self.box("match", begin, end, ' fill="%s"' % colour)
            self.top += 14
        self.top += 4

    def text(self):
        scale = ['<text x="4" y="16">%s</text>' % escape(self.window.unit)]
        widest = 8 * len(ticks(self.window.end, self.window.scale)) + 20
        for mark in self.window.marks(max(2, self.wide // max(75, widest))):
            scale.append('<path class="scale" d="M%.1f,22 V%d"/>' % (self.at(mark), self.top))
            scale.append('<text x="%.1f" y="16" text-anchor="middle">%s</text>'
                         % (self.at(mark), ticks(mark, self.window.scale)))
        size = 'width="%d" height="%d"' % (self.left + self.wide + 30, self.top + 10)
        head = ['<svg xmlns="http://www.w3.org/2000/svg" %s>' % size,
                "<style>%s</style>" % self.STYLE, '<rect width="100%" height="100%" fill="#fff"/>']
        return "\n".join([*head, *scale, *self.rows, "</svg>"])


def picture(waves, moments, found, window, wide):
    drawn = Picture(window, wide, [*waves, *moments])
    for name, wave in waves.items():
        drawn.signal(name, wave)
    for name, times in moments.items():
        drawn.event(name, times)
    for (label, stretches), colour in zip(found, COLOURS * len(found)):
        drawn.matches(label, stretches, colour)
    return drawn.text()


# ---- what is asked

def around(text):
    name, _, number = text.partition(":")
    return name, int(number or 1)


def read_words():
    arguments = argparse.ArgumentParser(usage=__doc__, add_help=False)
    arguments.add_argument("trace")
    arguments.add_argument("patterns", nargs="*")
    arguments.add_argument("--text", action="store_true")
    arguments.add_argument("--vcd", action="store_true")
    arguments.add_argument("--let")
    arguments.add_argument("--define")
    arguments.add_argument("--scale", type=int, default=0)
    arguments.add_argument("--unit", choices=dumps.PLACES)
    arguments.add_argument("--checks", type=checks_of, default=([], []))
    arguments.add_argument("--around", type=around)
    for name in ("margin", "from", "to"):
        arguments.add_argument("--" + name, type=Decimal)
    arguments.add_argument("--signals", type=lambda names: names.split(","))
    arguments.add_argument("--width", type=int, default=900)
    arguments.add_argument("--columns", type=int, default=80)
    options = arguments.parse_intermixed_args()
    options.patterns = [(*named(text), "=" in text) for text in options.patterns]
    checks, lets = options.checks
    options.checks = [(name, pattern, True) for name, pattern in checks]
    if options.let:
        options.let = with_lets(options.let, lets)
    else:
        options.define = with_lets(options.define, lets)
    return options


def window_of(options, end, found, unit):
    """The window that the options ask for, in a trace that ends there."""
    times = vars(options)
    start = 0 if times["from"] is None else units(times["from"], options.scale)
    end = end if times["to"] is None else min(end, units(times["to"], options.scale))
    if options.around:
        name, number = options.around
        stretches = found.get(name, [])
        if not 1 <= number <= len(stretches):
            sys.exit("draw.py: no match %d of %s, which has %d" % (number, name, len(stretches)))
        first, last = stretches[number - 1]
        margin = last - first or 10 * 10 ** options.scale
        if options.margin is not None:
            margin = units(options.margin, options.scale)
        start, end = max(start, first - margin), min(end, last + margin)
    return Window(start, end, options.scale, unit)


def read(options, signals, events):
    """The waves of the signals and the moments of the events, in units, and what a tick is."""
    whole = Whole(signals, events, "0")
    if options.let:
        read_columns(options.trace, signals, options.let, options.scale, whole)
        return whole.waves, {}, ""
    if not options.vcd:
        read_text(options.trace, signals, events, options.scale, whole)
        return whole.waves, whole.moments, ""
    defined = definitions(options.define or "")
    waves, moments, tick = read_dump(options.trace, signals, events, defined)
    factor = dumps.factor_of(tick, options.unit, options.scale)
    waves = {name: [(int(time * factor), value) for time, value in wave]
             for name, wave in waves.items()}
    moments = {name: [int(time * factor) for time in times] for name, times in moments.items()}
    return waves, moments, options.unit or tick


def asked_by(options):
    """The arguments of montre but for the pattern."""
    asked = ["--input", options.trace, "--scale", str(options.scale)]
    asked += ["--format", "vcd"] if options.vcd else []
    asked += ["--define", options.define] if options.define else []
    asked += ["--unit", options.unit] if options.unit else []
    return asked + (["--format", "csv", "--let", options.let] if options.let else [])


def main():
    options = read_words()
    checks = options.checks
    if options.around:
        checks = [check for check in checks if check[0] == options.around[0]]
    patterns = checks + options.patterns
    if not patterns and (options.around or not options.signals):
        sys.exit("draw.py: no pattern" + (" of that name" if options.around else ""))
    answers = [matches(asked_by(options), pattern) for _, pattern, _ in patterns]
    found = [[(units(a, options.scale), units(b, options.scale)) for a, b in stretches]
             for stretches, _ in answers]
    signals, events = names_in(pattern for _, pattern, _ in patterns)
    signals = options.signals or signals
    waves, moments, unit = read(options, signals, events)
    # where no pattern is asked, one that never matches says when the trace ends
    _, end = answers[0] if answers else matches(asked_by(options), "eps & true")
    window = window_of(options, units(end, options.scale),
                       dict(zip([name for name, _, _ in patterns], found)), unit)
    labels = [name if has_name else pattern for name, pattern, has_name in patterns]
    if options.text:
        print(timeline(waves, moments, list(zip(labels, found)), window, options.columns))
    else:
        print(picture(waves, moments, list(zip(labels, found)), window, options.width))


if __name__ == "__main__":
    try:
        main()
    except OSError as fault:
        sys.exit("draw.py: %s" % fault)
