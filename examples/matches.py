"""Patterns with names, and their matches by `montre`, or by the program that MONTRE names."""
import os
import re
import subprocess
import sys

import zones

NAMED = re.compile(r"\s*([A-Za-z_][A-Za-z0-9_.]*)\s*=(.*)", re.DOTALL)
CHECK = re.compile(r"(?:(?:never|some|each)\s+)?([A-Za-z_][A-Za-z0-9_.]*)\s*=(.*)")
LET = re.compile(r"let\s+(?!=)(.*)")
ARROW = re.compile(r"=>|\|->")


def named(text):
    """The name and the pattern of NAME=PATTERN; without a name it is match."""
    found = NAMED.fullmatch(text)
    return found.groups() if found else ("match", text)


def checks_of(file):
    """The names and the patterns of a file of checks, and its definitions.

    That of `each` has its arrow in it: what is shown of it is what its verdict is about."""
    with open(file, encoding="ascii", errors="replace") as opened:
        lines = [line.strip() for line in opened]
    lines = [line for line in lines if line and line[0] != "#"]
    lets = [LET.fullmatch(line) for line in lines]
    checks = [CHECK.fullmatch(line) for line, let in zip(lines, lets) if not let]
    if None in checks:
        sys.exit("%s: a line is no check" % file)
    return [check.groups() for check in checks], [let[1] for let in lets if let]


def with_lets(define, lets):
    """The definitions of the command line and of a file of checks, as one text."""
    return ";".join(([define] if define else []) + lets)


def matches(options, pattern):
    """The stretches of the zones, each from its earliest start to its end, and the trace's end."""
    program = os.environ.get("MONTRE", "montre")
    words, file = [*options, "--", pattern], ""
    if ARROW.search(pattern):
        words, file = ["--check", *options, "-"], "each match = %s\n" % pattern
    try:
        run = subprocess.run([program, *words], input=file, capture_output=True, text=True)
    except OSError as fault:
        sys.exit("%s, which is on the path or named by MONTRE: %s" % (program, fault.strerror))
    if run.returncode != 0 and not (file and run.returncode == 13):
        sys.exit("%s: %s" % (pattern.strip(), run.stderr.strip()))
    found, end = zones.read_checks(run.stdout)
    stretches = [zone for each in found.values() for zone in each]
    return sorted({(start[0], finish[1]) for start, finish, _ in stretches}), end
