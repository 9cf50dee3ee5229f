"""Writes a page that shows what failed of a file of checks, for a browser: one file of HTML.

usage: page.py [options] CHECKS TRACE > page.html

  --format F       text or csv, where TRACE is no dump
  --define TEXT, --let TEXT, --unit U, --scale K, --normal, --max-zones N, --max-bytes N
                   as for `montre --check`
  --margin T       so much before and behind each zone; without it some 200 changes
  --most N         so many zones of a check, 50 without it
  --all            the whole trace and the zones of every check, of a small one

On the left the page has the verdicts, and beside them the waves of the signals and events that the
checks name, around the zones of those that failed or are open. It runs `montre --check`, or the program
that MONTRE names, and ends with its status; where that gives no answer, no page is written. The trace
is read once, and at most 1.5 million characters of its changes are kept: where a stretch has more, the
page says that it goes on.
"""
import argparse
import collections
import json
import math
import os
import re
import subprocess
import sys

import dumps
import matches
from waves import (definitions, digits, names_in, paths_of, put, read_columns, read_text, units,
                   with_defined)
from zones import ranges

TEXT = 1_500_000        # about so many characters of changes may be in a page
CHANGES = 200           # so many changes are kept before a zone, and behind it
PASSED_ON = ("define", "let", "unit", "scale", "max_zones", "max_bytes")


class Check:
    """A line of a file of checks, with its verdict and its zones, in units."""

    def __init__(self, line):
        self.line, (self.name, self.pattern) = line, matches.CHECK.fullmatch(line).groups()
        self.verdict, self.count, self.zones = "", 0, []

    def add(self, text, options):
        self.count += 1
        if len(self.zones) < options.most and (options.all or self.verdict in ("fail", "open")):
            start, end = ([units(str(number), options.scale) for number in part[:2]]
                          for part in ranges(text.split())[:2])
            self.zones.append({"text": text, "start": start, "end": end})


def checks_in(file):
    """The checks of a file by their names, and its definitions."""
    with open(file, encoding="utf-8", errors="backslashreplace") as opened:
        lines = [line.strip() for line in opened]
    lines = [line for line in lines if line and line[0] != "#"]
    lets = [found[1] for found in map(matches.LET.fullmatch, lines) if found]
    checks = [Check(line) for line in lines if not matches.LET.fullmatch(line)]
    return {check.name: check for check in checks}, lets


def judge(options):
    """Runs montre over the checks: they get their verdicts and zones. It gives the end of the trace, in
    units, and montre's status."""
    program = os.environ.get("MONTRE", "montre")
    words = [program, "--check", "--format", options.format, "--input", options.trace]
    words += ["--normal"] * options.normal
    for name in PASSED_ON:
        if vars(options)[name] is not None:
            words += ["--" + name.replace("_", "-"), str(vars(options)[name])]
    try:
        run = subprocess.Popen([*words, options.checks], stdout=subprocess.PIPE, stderr=subprocess.PIPE,
                               text=True)
    except OSError as fault:
        sys.exit("%s, which is on the path or named by MONTRE: %s" % (program, fault.strerror))
    checks, end = None, None
    for line in run.stdout:
        checks = checks or checks_in(options.checks)
        first, _, rest = line.rstrip("\n").partition(" ")
        if "," in rest:
            checks[0][first].add(rest, options)
        elif first == "end":
            end = units(rest, options.scale)
        else:
            checks[0][rest].verdict = first
    sys.stderr.write(run.stderr.read())
    if run.wait() not in (0, 13) or end is None:
        sys.exit(run.returncode or 1)
    return *checks, end, run.returncode


class Window:
    """A stretch of the trace that is kept: waves by their names, each with the value at its start, and
    moments."""

    def __init__(self, start, values):
        self.start, self.end, self.goes_on, self.room = start, start, False, 0
        self.waves = {name: [(start, value)] for name, value in values.items()}
        self.moments = collections.defaultdict(list)

    def add(self, time, name, value):
        if value is not None:
            put(self.waves[name], time, value)
        elif self.moments[name][-1:] != [time]:
            self.moments[name].append(time)
        self.room -= 12 + len(value or "")


class Near:
    """Keeps what a trace has near some stretches, by their starts, as it is read in the order of its
    times; with a margin so much before and behind each, else so many changes."""

    def __init__(self, signals, first, stretches, margin, room):
        self.newest, self.before = dict.fromkeys(signals, first), dict.fromkeys(signals, first)
        self.waiting, self.margin, self.room = collections.deque(stretches), margin, room
        self.recent, self.since = collections.deque(), 0    # changes behind the time of `before`
        self.windows, self.window, self.until, self.behind = [], None, 0, 0

    def put(self, time, name, value):
        if value != self.newest[name]:
            self.newest[name] = value
            self.change(time, name, value)

    def happen(self, time, name):
        self.change(time, name, None)

    def change(self, time, name, value):
        while self.waiting and self.waiting[0][0] <= time:
            self.begin()
        if self.window and self.is_behind(time):
            self.close(time)
        if self.window:
            self.window.add(time, name, value)
            return
        self.recent.append((time, name, value))
        if self.margin is not None:
            near = self.waiting[0][0] - self.margin if self.waiting else math.inf
            while self.recent and self.recent[0][0] < near:
                self.forget()
        elif len(self.recent) > CHANGES:
            self.forget()

    def forget(self):
        self.since, name, value = self.recent.popleft()
        if value is not None:
            self.before[name] = value

    def is_behind(self, time):
        """Whether a window ends before this change."""
        self.behind += time > self.until
        if self.window.room < 0 and time > self.window.end:
            self.window.goes_on = time <= self.until
            return True
        self.window.end = time
        if self.margin is None:
            return self.behind > CHANGES
        return time > self.until + self.margin

    def begin(self):
        """The first stretch that waits begins, in the window that there is, or in one that opens."""
        start, end = self.waiting.popleft()
        room = max(600, self.room // (len(self.waiting) + 1))
        self.until, self.behind = max(self.until, end) if self.window else end, 0
        self.room -= room
        if self.window:
            self.window.room += room
            return
        if self.windows and not self.windows[-1].goes_on and self.since <= self.windows[-1].end:
            self.window = self.windows[-1]
        else:
            if self.margin is not None:
                self.since = max(self.since, start - self.margin)
            self.window = Window(self.since, self.before)
            self.windows.append(self.window)
        self.window.room = room
        for change in self.recent:
            self.window.add(*change)
        self.recent.clear()

    def close(self, time):
        self.window.end = time if self.margin is None else min(time, self.until + self.margin)
        self.since, self.room = self.window.end, self.room + self.window.room
        self.before = {name: wave[-1][1] for name, wave in self.window.waves.items()}
        self.window = None

    def finish(self, end):
        while self.waiting:
            self.begin()
        if self.window:
            self.close(end)


def read_near(options, names, stretches, end):
    """The windows of the trace, in units, and what a unit is."""
    signals, events = names
    room = sys.maxsize if options.all else TEXT
    margin = None if options.margin is None else units(options.margin, options.scale)
    if options.format != "vcd":
        near = Near(signals, "0", stretches, margin, room)
        if options.format == "csv":
            read_columns(options.trace, signals, options.let, options.scale, near)
        else:
            read_text(options.trace, signals, events, options.scale, near)
        near.finish(end)
        return near.windows, ""
    defined = definitions(os.fsencode(options.define).decode("latin-1"))
    paths, plain = paths_of(signals, events, defined)
    with open(options.trace, "rb") as file:
        header, rest = dumps.header_of(file)
        factor = dumps.factor_of(header.unit, options.unit, options.scale)
        in_ticks = [(math.floor(start / factor), math.ceil(stop / factor)) for start, stop in stretches]
        margin = None if margin is None else math.ceil(margin / factor)
        near = Near(paths, "", in_ticks, margin, room)
        dumps.Changes(header, paths, plain, near).read(file, rest)
        near.finish(math.ceil(end / factor))
    for window in near.windows:
        in_units(window, factor, min(end, math.floor(window.end * factor)))
        # the signals that a definition reads are shown too
        window.waves, window.moments = with_defined(
            window.waves, window.moments, list(dict.fromkeys([*signals, *paths])), events, defined)
    return near.windows, options.unit or header.unit or ""


def in_units(window, factor, end):
    window.start, window.end = int(window.start * factor), end
    window.waves = {name: [(int(time * factor), value) for time, value in wave]
                    for name, wave in window.waves.items()}
    window.moments = collections.defaultdict(list, {
        name: [int(time * factor) for time in times] for name, times in window.moments.items()})


def packed(start, wave):
    """The times of a wave, each as how much later it is than the one before, and the values."""
    flat = []
    for time, value in wave:
        flat += [time - start, value if len(value) < 2 else digits(value)]
        start = time
    return flat


def in_page(text):
    """A text of bytes as the page shows it, where they are no UTF-8 too."""
    return text.decode("utf-8", "backslashreplace")


def is_vector(windows, name):
    return any(len(value) > 1 for window in windows for _, value in window.waves[name])


def data_of(options, checks, windows, events, unit, end):
    """What the page shows."""
    signals = list(windows[0].waves) if windows else []
    shown = [{"start": window.start, "end": window.end, "goesOn": window.goes_on,
              "waves": [packed(window.start, window.waves[name]) for name in signals],
              "moments": [[time for time in window.moments[name] if window.start <= time <= window.end]
                          for name in events]}
             for window in windows]
    return {"trace": in_page(os.fsencode(os.path.basename(options.trace))), "end": end,
            "unit": re.sub("^1(?=[a-z])", "", unit) or "ticks", "scale": options.scale,
            "signals": [(in_page(name.encode("latin-1")), is_vector(windows, name)) for name in signals],
            "events": events if windows else [], "windows": shown,
            "checks": [{key: vars(check)[key] for key in ("name", "line", "verdict", "count", "zones")}
                       for check in checks]}


def page(data):
    """The page with its data, in which no text can end the element."""
    with open(os.path.join(os.path.dirname(os.path.abspath(__file__)), "page.html"), "rb") as file:
        before, behind = file.read().decode().split("/* data */")
    text = json.dumps(data, separators=(",", ":"))
    return before + re.sub("[<>&]", lambda found: "\\u%04x" % ord(found[0]), text) + behind


def read_words():
    words = argparse.ArgumentParser(usage=__doc__, add_help=False)
    words.add_argument("checks")
    words.add_argument("trace")
    words.add_argument("--format", default="vcd", choices=("vcd", "text", "csv"))
    words.add_argument("--unit", choices=dumps.PLACES)
    words.add_argument("--scale", type=int, default=0)
    words.add_argument("--most", type=int, default=50)
    for name in ("--define", "--let", "--max-zones", "--max-bytes", "--margin"):
        words.add_argument(name)
    words.add_argument("--normal", action="store_true")
    words.add_argument("--all", action="store_true")
    return words.parse_intermixed_args()


def main():
    options = read_words()
    checks, lets, end, status = judge(options)
    if options.format == "csv":
        options.let = matches.with_lets(options.let, lets)
    else:
        options.define = matches.with_lets(options.define, lets)
    stretches = sorted((zone["start"][0], zone["end"][1])
                       for check in checks.values() for zone in check.zones)
    if options.all:
        stretches = [(0, end)]
    names = names_in(check.pattern for check in checks.values())
    windows, unit = read_near(options, names, stretches, end)
    text = page(data_of(options, checks.values(), windows, names[1], unit, end))
    sys.stdout.buffer.write(text.encode())
    sys.exit(status)


if __name__ == "__main__":
    try:
        main()
    except OSError as fault:
        sys.exit("page.py: %s" % fault)
