"""Reads what montre prints: the zones, each as three ranges, and the end of the trace.

A range is (low, high, low is included, high is included). A number is an int, and a Decimal where
--scale gives it decimals."""
import re
import sys
from decimal import Decimal

RANGE = re.compile(r"([\[(])([0-9.]+),([0-9.]+)([\])])")


def number(text):
    return Decimal(text) if "." in text else int(text)


def ranges(words):
    parts = [RANGE.fullmatch(word).groups() for word in words]
    return [(number(low), number(high), a == "[", b == "]") for a, low, high, b in parts]


def read_checks(text):
    """The zones of each check of a file by its name. Without such a file the name is empty."""
    *lines, last = text.splitlines() or [""]
    if not re.fullmatch(r"end [0-9.]+", last):
        raise ValueError("the text isn't complete")
    found = {}
    for words in (line.split(" ") for line in lines if "," in line):
        found.setdefault(" ".join(words[:-3]), []).append(ranges(words[-3:]))
    return found, number(last.split()[1])


def read(text):
    found, end = read_checks(text)
    return found.get("", []), end


if __name__ == "__main__":
    checks, end = read_checks(sys.stdin.read())
    for name, zones in checks.items():
        for start, finish, duration in zones:
            print(*[name] * (name != ""), "start", start, "end", finish, "duration", duration)
