#!/usr/bin/env python3
"""Recipes of the pages against a plain reading, over random dumps of the shapes that are hard.

    python3 bench/agree/recipes.py PATH_OF_MONTRE [COUNT]

The commands are taken from the pages, and run over random dumps by the names of their own: words
with valid and ready, right behind one another and dropped, with data that moves; pushes into a FIFO,
that are held and as it fills; requests that rise with the clock; bytes of a UART, back to back and apart. What they print is compared
with what the recipe says, read off the values that were put into the dump. The dumps are the same in
each run. A command that the page hasn't any more is a fault of this script.
"""

import os
import random
import re
import subprocess
import sys
import tempfile

COUNT = 200
TOP = os.path.join(os.path.dirname(os.path.abspath(__file__)), "..", "..")
PAGES = {name: os.path.join(TOP, "docs", name + ".md") for name in ("cookbook", "clocked")}
BIT = 16        # of the UART, in ns
FRAME = 10 * BIT


def blocks(page, heading):
    """The commands of the examples under a heading, each with all its lines."""
    inside = found = False
    for line in open(page, encoding="utf-8"):
        if line.startswith("```"):
            inside = line.startswith("```console")
        elif not inside and line.startswith("#"):
            found = line.lstrip("# ").rstrip() == heading
        elif inside and found and line.startswith("$ "):
            yield line[2:].rstrip("\n")


class Page:
    """The commands of a page that are asked, with the functions and variables that they use."""

    def __init__(self, name, before, heading):
        self.page = PAGES[name]
        self.setup = [line for each in [*before, heading] for line in blocks(self.page, each)
                      if re.match(r"\w+=|[A-Z]+\(\)", line)]
        self.commands = [line for line in blocks(self.page, heading) if line.startswith("montre ")]

    def command(self, words):
        """The one command with these words."""
        found = [line for line in self.commands if words in line]
        if len(found) != 1:
            sys.exit("%s: %d commands with %s" % (self.page, len(found), words))
        return "\n".join([*self.setup, found[0]])


def answer(command, program, folder):
    """The starts and the ends of what a command prints, each of which has to be one number."""
    text = 'montre() { "%s" "$@"; }\n%s' % (program, command)
    run = subprocess.run(["sh", "-c", text], cwd=folder, capture_output=True, text=True)
    if run.stderr or not run.stdout:
        sys.exit("no answer: %s\n%s" % (command, run.stderr))
    lines = [re.findall(r"[\d.]+", line) for line in run.stdout.splitlines()[:-1]]
    if any(numbers[0] != numbers[1] or numbers[2] != numbers[3] for numbers in lines):
        sys.exit("a range: " + command)
    return [(int(numbers[0]), int(numbers[2])) for numbers in lines]


# ---- dumps

def write(folder, name, signals, changes, end):
    """A dump of signals, each with its size; the changes are (time, name, number)."""
    sign = {name: chr(33 + place) for place, name in enumerate(signals)}
    out = ["$timescale 1ns $end", "$scope module tb $end"]
    out += ["$var reg %d %s %s%s $end" % (size, sign[name], name, " [%d:0]" % (size - 1) if size > 1 else "")
            for name, size in signals.items()]
    out += ["$upscope $end", "$enddefinitions $end"]
    last, now = {}, None
    for time, signal, value in sorted(changes, key=lambda change: change[0]):
        if last.get(signal) == value:
            continue
        last[signal] = value
        if time != now:
            out.append("#%d" % time)
            now = time
        bits = "{:b}".format(value)
        out.append("b%s %s" % (bits, sign[signal]) if signals[signal] > 1 else bits + sign[signal])
    out.append("#%d" % end)
    with open(os.path.join(folder, name), "w") as file:
        file.write("\n".join(out) + "\n")


def clocked(folder, name, signals, cycles, half):
    """A dump of registers: the values of cycle i are there from edge i on, and sampled at i + 1."""
    edge = [half + 2 * half * place for place in range(len(cycles) + 1)]
    changes = [(0, "clk", 0)] + [(at, "clk", 1) for at in edge] + [(at + half, "clk", 0) for at in edge]
    changes += [(0, signal, 0) for signal in signals if signal != "clk"]
    for at, values in zip(edge, cycles):
        changes += [(at, signal, value) for signal, value in values.items()]
    write(folder, name, signals, changes, edge[-1] + half)
    return edge


# ---- words with valid and ready

def stream(pick):
    """The values of each cycle: offers of some length, many right behind one another."""
    cycles, data = [], 0
    while len(cycles) < 40:
        if pick.random() < 0.3:
            cycles += [dict(valid=0, ready=pick.randrange(2), data=data)] * pick.randint(1, 2)
            continue
        data = pick.randrange(256)
        for _ in range(pick.choice((0, 0, 1, 2, 4))):
            cycles.append(dict(valid=1, ready=0, data=data))
            if pick.random() < 0.2:
                data = pick.randrange(256)
        if pick.random() < 0.85:
            cycles.append(dict(valid=1, ready=1, data=data))
    return cycles


def at_edges(edge, cycles):
    """Of each edge what is sampled there, from the second one on."""
    return list(zip(edge[1:], cycles))


def moved(edge, cycles):
    """An edge at which a word is offered in vain, and at which the data changes."""
    nexts = [*cycles[1:], cycles[-1]]
    return [(at - 1, at) for at, now, then in zip(edge[1:], cycles, nexts)
            if now["valid"] and not now["ready"] and now["data"] != then["data"]]


def waits(edge, cycles):
    """From the last edge at which no word was waiting to the one at which it is taken."""
    found, free = [], edge[0]       # at the first edge nothing is offered
    for at, now in at_edges(edge, cycles):
        if now["valid"] and now["ready"]:
            found.append((free - 1, at))
        if not now["valid"] or now["ready"]:
            free = at
    return found


def taken(edge, cycles):
    return [(at - 1, at) for at, now in at_edges(edge, cycles) if now["valid"] and now["ready"]]


def dropped(edge, cycles):
    samples = at_edges(edge, cycles)
    return [(at - 1, after) for (at, now), (after, then) in zip(samples, samples[1:])
            if now["valid"] and not now["ready"] and not then["valid"]]


def streams(pick, folder, ask):
    head = "Valid and ready"
    signals = {"clk": 1, "valid": 1, "ready": 1, "data": 8}
    cycles = stream(pick)
    edge = clocked(folder, "stream.vcd", signals, cycles, pick.randint(2, 6))
    ask(Page("cookbook", [], head).command("'tb.valid && tb.ready'"), taken(edge, cycles))
    for heading, words, found in (
            ("Did data change while it waited?", "moved", moved),
            ("How long did transfers wait?", "||", waits),
            ("Which transfers were dropped before they were taken?", "NEXT", dropped)):
        ask(Page("cookbook", [head], heading).command(words), found(edge, cycles))


# ---- a FIFO

def fifo(pick):
    """The values of each cycle, with pushes and pops that are held for some cycles."""
    cycles, level, push, pop = [], 0, 0, 0
    for _ in range(60):
        push = pick.randrange(2) if pick.random() < 0.35 else push
        pop = pick.randrange(2) if pick.random() < 0.5 else pop and pick.random() < 0.3
        cycles.append(dict(push=push, pop=int(pop), level=level, full=int(level == 4)))
        level += (1 if push and level < 4 else 0) - (1 if pop and level else 0)
    return cycles


def fifos(pick, folder, ask):
    cycles = fifo(pick)
    signals = {"clk": 1, "push": 1, "pop": 1, "level": 3, "full": 1}
    edge = clocked(folder, "stream.vcd", signals, cycles, pick.randint(2, 6))
    page = Page("cookbook", ["Valid and ready"], "Was the FIFO pushed while it was full?")
    ask(page.command("tb.full"), [(at - 1, at) for at, now in at_edges(edge, cycles)
                                  if now["push"] and now["full"]])


# ---- a request and its answer, from registers

def requests(pick, folder, ask):
    """Requests that rise with the clock: answered within three cycles, or not."""
    cycles, req, ack = [], 0, 0
    for _ in range(50):
        req = 1 - req if pick.random() < 0.3 else req
        ack = 1 - ack if pick.random() < (0.5 if ack else 0.25) else ack
        cycles.append(dict(req=req, ack=ack))
    edge = clocked(folder, "stream.vcd", {"clk": 1, "req": 1, "ack": 1}, cycles, pick.randint(2, 6))
    cycles.append(cycles[-1])       # at the last edge nothing changes; before the first all are low
    before, in_time, late = 0, [], []
    for at, now in enumerate(cycles):
        rises, before = now["req"] and not before, now["req"]
        if not rises or now["ack"]:
            continue
        answers = [later for later in range(at, min(at + 4, len(cycles))) if cycles[later]["ack"]]
        if answers:
            in_time.append((edge[at], edge[answers[0]]))
        elif at + 3 < len(cycles):
            late.append((edge[at], edge[at + 3] + 1))
    page = Page("clocked", [], "Within n clock cycles")
    ask(page.command("stream.vcd \"(rise(tb.req) ; !tb.ack ; rise(tb.ack)) & (rise"), in_time)
    ask(page.command("stream.vcd \"((rise"), late)


# ---- a UART

def line_of(byte):
    return [0, *(byte >> place & 1 for place in range(8)), 1]


def uarts(pick, folder, ask):
    """Bytes, most of them right behind one another, of the few that make an A3 between them."""
    now, changes, wanted = 0, [(0, "tx", 1)], []
    quiet, high = [], 0     # the quiet frames since the last pause; since when the line is high
    for place in range(pick.randint(3, 15)):
        gap = FRAME + 3 if place == 0 else pick.choice((0, 0, 0, 0, 5, 40, FRAME - 1, FRAME, FRAME + 70))
        now += gap
        quiet = quiet if gap < FRAME else []
        if now - high >= FRAME:
            quiet = [*quiet, now - FRAME]
        byte = pick.choice((0xA3, 0xA3, 0x1A, 0x03, 0x0D, 0x83, 0xFF, 0x00, pick.randrange(256)))
        bits = line_of(byte)
        changes += [(now + BIT * bit, "tx", value) for bit, value in enumerate(bits)]
        high = now + BIT * max(bit + 1 for bit, value in enumerate(bits) if not value)
        now += FRAME
        if byte == 0xA3:
            wanted += [(begin, now) for begin in quiet]
    write(folder, "uart.vcd", {"tx": 1}, changes, now + 20)
    ask(Page("clocked", [], "A byte of a UART").command("$FRAME"), sorted(wanted))


def main():
    if len(sys.argv) < 2:
        sys.exit("usage: python3 bench/agree/recipes.py PATH_OF_MONTRE [COUNT]")
    program = os.path.abspath(sys.argv[1])
    count = int(sys.argv[2]) if len(sys.argv) > 2 else COUNT
    total = wrong = 0
    checks = {"valid and ready": streams, "FIFO": fifos, "cycles": requests, "UART": uarts}
    for name, check in checks.items():
        found = 0
        pick = random.Random(name)
        for place in range(count):
            with tempfile.TemporaryDirectory() as folder:
                def ask(command, wanted):
                    nonlocal found, wrong
                    told = answer(command, program, folder)
                    found += len(wanted)
                    if told != wanted:
                        wrong += 1
                        print("%s, dump %d: %s\n  printed %s\n  wanted  %s"
                              % (name, place, command.splitlines()[-1], told, wanted))
                check(pick, folder, ask)
        print("%s: %d dumps, %d matches" % (name, count, found))
        total += found
    print("%d matches, %d answers differ" % (total, wrong))
    sys.exit(wrong > 0)


if __name__ == "__main__":
    main()
