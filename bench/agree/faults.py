#!/usr/bin/env python3
"""montre while the system fails: each allocation and each call in turn, over all modes.

    python3 bench/agree/faults.py PATH_OF_MONTRE

A small C library, faults.c, stands between the program and the C library. For Linux, with `cc`.
"""

import os
import subprocess
import sys
import tempfile

from cases import columns_of, dump_of, lines_of, make_trace

SECONDS = 20  # a run that takes longer hangs
MOST = 200    # places of faults that are tried of one run; of more some are left out
MEMORY = [(8, "montre: out of memory\n"), (1, "")]  # 1: where the words aren't taken
READ, WRITE = (6, "montre: read fault\n"), (7, "montre: write fault\n")
CHECKS = ("# What is watched.\nmany = ({p && q};r)* % [1,9]\nend = <:p:>\n"
          "happens = event(a);true;event(b)\nat=(q|event(a))+\n")
VERDICTS = ("never short = <:p:> % (0,1)\nsome any = p\nmany = ({p && q};r)* % [1,9]\n"
            "each e = event(a) |-> true;event(b)\neach w = <:p:> => true? ; rise(q) ; true?\n")
LETS = "p = one >= 1; q = two != 0; r = three < -5"
SIGNALS = "v = p == 1; w = q; c = r changes"
OPTIONS = [[], ["--online"], ["--minus", "{p && q}"], ["--normal"],
           ["--normal", "--max-zones", "99"], ["--normal", "--max-zones", "2"],
           ["--scale", "2"], ["--scale", "9", "--online"],
           ["--normal", "--minus", "p;q", "--scale", "1"]]
PATTERN = "(<:p:> | q;r | event(a) | p % [1,2])+ & true % (0,9)"
LONG = "<:p:>;q"
CLOSED = [(0,), (1,), (2,), (0, 1), (0, 2), (1, 2), (0, 1, 2)]
REFUSED = [["p;"], ["--minus", "p;", "p"], ["--nothing"], ["--show", "p % [2,1]"],
           ["--generate", "0"], ["--format", "csv", "--let", "p", "p"],
           ["--input", "nowhere", "p"], ["--input", ".", "p"],
           ["--watch", "nowhere"], ["--watch", "checks", "--input", "nowhere"],
           ["--watch", "text"], ["--check", "text"], ["--check", "checks"], ["--check", "nowhere"],
           ["--check", "verdicts", "--input", "nowhere"], ["--max-bytes", "9", "p"], ["--max-bytes", "9", "--online", "p"],
           ["--format", "vcd", "none"], ["--format", "vcd", "--define", "p", "p"],
           ["p", "--input", "checks"]]


def padded(text, head, foot=""):
    """The text with a long comment behind each line, so that it is read in several pieces."""
    return "".join(line + "\n" + head + " x" * 6000 + foot + "\n" for line in text.splitlines())


def write_files(folder):
    """The inputs: of each form a short one, and of two one that takes several pieces."""
    trace = make_trace(6, 12, True)
    text, (head, sign, changes) = lines_of(trace), dump_of(trace).partition("#")
    texts = {"checks": CHECKS, "verdicts": VERDICTS, "text": text, "dump": head + sign + changes,
             "columns": columns_of(trace), "long_text": padded(text, "#"),
             "long_dump": head + padded(sign + changes, "$comment", " $end")}
    for name, text in texts.items():
        with open(os.path.join(folder, name), "w", encoding="utf-8") as file:
            file.write(text)


def all_cases():
    """The words of each run; standard input is the file `text`."""
    cases = [options + ["--input", "text", PATTERN] for options in OPTIONS]
    cases += [options + ["--format", "vcd", "--input", "dump", PATTERN] for options in OPTIONS]
    columns = ["--format", "csv", "--input", "columns", "--let", LETS]
    cases += [columns + options + ["(p;q)* | {r && !q}"] for options in OPTIONS
              if "--online" not in options and "--minus" not in options]
    signals = ["--format", "vcd", "--input", "dump", "--define", SIGNALS]
    cases += [signals + options + ["(v;w)* | event(c);v"] for options in OPTIONS]
    cases.append(["--watch", *signals, "checks"])
    for form, name in (("text", "text"), ("vcd", "dump")):
        words = ["--watch", "--format", form, "--input", name]
        cases += [words + ["checks"], words + ["--scale", "3", "checks"]]
        cases += [["--check", *words[1:], *more, "verdicts"]
                  for more in ([], ["--normal"], ["--scale", "3"], ["--normal", "--max-zones", "0"])]
        for words in (["--online", LONG], [LONG], ["--minus", "p", "--normal", LONG]):
            cases.append(["--format", form, "--input", "long_" + name, *words])
        for words in (["--watch", "checks"], ["--check", "verdicts"]):
            cases.append([*words[:1], "--format", form, "--input", "long_" + name, words[1]])
    return cases + [[PATTERN], ["--online", PATTERN], ["--watch", "checks"],
                    ["--show", PATTERN], ["--generate", "7"]] + REFUSED


class Runs:
    def __init__(self, montre, folder):
        self.montre, self.folder = montre, folder
        self.library = os.path.join(folder, "faults.so")
        source = os.path.join(os.path.dirname(os.path.abspath(__file__)), "faults.c")
        subprocess.run(["cc", "-O1", "-shared", "-fPIC", "-o", self.library, source], check=True)
        self.count = self.wrong = 0

    def run(self, words, fault):
        """The status, what is on standard output, and on standard error."""
        self.count += 1
        counts = os.path.join(self.folder, "counts")
        env = dict(os.environ, LD_PRELOAD=self.library, FAULT=fault, COUNTS=counts)
        with open(os.path.join(self.folder, "text"), "rb") as given:
            try:
                done = subprocess.run([self.montre, *words], stdin=given, capture_output=True,
                                      env=env, cwd=self.folder, timeout=SECONDS)
            except subprocess.TimeoutExpired:
                return "hangs", b"", ""
        return done.returncode, done.stdout, done.stderr.decode()

    def run_closed(self, words, closed):
        """A run with some of its three streams closed."""
        self.count += 1
        command = 'exec "$@" ' + " ".join(("<&-", ">&-", "2>&-")[stream] for stream in closed)
        with open(os.path.join(self.folder, "text"), "rb") as given:
            done = subprocess.run(["sh", "-c", command, "sh", self.montre, *words], stdin=given,
                                  capture_output=True, cwd=self.folder, timeout=SECONDS)
        return done.returncode, done.stdout, done.stderr.decode()

    def counted(self):
        with open(os.path.join(self.folder, "counts"), encoding="utf-8") as file:
            return [int(word) for word in file.read().split()]

    def compare(self, words, fault, whole, ends):
        """A run with a fault: like the whole run, or with one of these ends."""
        found = self.run(words, fault)
        at_once = "--online" not in words and "--watch" not in words and found[0] != WRITE[0]
        # Where the line of a status can't be printed, the status is what it was.
        fits = (found[0], found[2]) in ends or (
            found[0] == whole[0] != 0 and whole[2].startswith(found[2]))
        is_cut = found[1] == b"" if at_once else whole[1].startswith(found[1])
        if found[0] == whole[0]:
            is_cut = found[1] == whole[1]
        if found != whole and not (fits and is_cut):
            self.wrong += 1
            print("wrong: %s, %s: %s %r, and %d of %d bytes are printed"
                  % (words, fault, found[0], found[2], len(found[1]), len(whole[1])))


def places(count):
    """The numbers of calls that are to fail: all, or the first ones and some of the others."""
    first = MOST // 2
    if count <= MOST:
        return range(1, count + 1)
    return [*range(1, first), *range(first, count + 1, (count - first) // first + 1)]


def try_case(runs, words):
    whole = runs.run(words, "")
    allocations, calls = runs.counted()
    for place in places(allocations):
        for kind in ("alloc", "from"):
            runs.compare(words, "%s %d" % (kind, place), whole, MEMORY)
    for place in places(calls):
        runs.compare(words, "call %d" % place, whole, [READ, WRITE])
        runs.compare(words, "signal %d" % place, whole, [READ, WRITE])
        runs.compare(words, "zero %d" % place, whole, [(WRITE[0], "")])
    for kind in ("short", "part"):
        runs.compare(words, "%s 1" % kind, whole, [])
    print("%d allocations, %d calls: %s" % (allocations, calls, " ".join(words)))


def try_closed(runs, words):
    """Some streams closed: the run ends as where the first of them can't be read or written."""
    whole = runs.run(words, "")
    reads = "-" in words or (whole[0] in (0, 4, 5, 9)
                             and not {"--input", "--show", "--generate"} & set(words))
    for closed in CLOSED:
        wanted = (WRITE[0], b"", WRITE[1]) if 1 in closed and whole[1] else whole
        wanted = (READ[0], b"", READ[1]) if 0 in closed and reads else wanted
        wanted = (*wanted[:2], "") if 2 in closed else wanted
        found = runs.run_closed(words, closed)
        if found != wanted:
            runs.wrong += 1
            print("wrong: %s with streams %s closed: %s %r" % (words, closed, found[0], found[2]))


def main():
    if len(sys.argv) != 2:
        sys.exit("usage: python3 bench/agree/faults.py PATH_OF_MONTRE")
    with tempfile.TemporaryDirectory() as folder:
        write_files(folder)
        runs = Runs(os.path.abspath(sys.argv[1]), folder)
        for words in all_cases():
            try_case(runs, words)
        for words in (*([*options, PATTERN] for options in OPTIONS), ["--watch", "checks"],
                      ["--show", PATTERN], ["--generate", "7"], *REFUSED,
                      ["--input", "text", PATTERN], ["--watch", "--input", "text", "checks"],
                      ["--watch", "-", "--input", "text"],
                      ["--format", "vcd", "--define", SIGNALS, "--input", "dump", "v;w"]):
            try_closed(runs, words)
    print("%d runs, %d wrong" % (runs.count, runs.wrong))
    sys.exit(1 if runs.wrong else 0)


if __name__ == "__main__":
    main()
