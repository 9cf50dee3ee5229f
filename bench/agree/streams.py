#!/usr/bin/env python3
"""montre over pipes, folders and devices, and with streams that nobody reads or writes.

    python3 bench/agree/streams.py PATH_OF_MONTRE

Each run has to end as docs/output.md says: it never hangs, and what was told before stands there.
For Linux.
"""

import os
import signal
import subprocess
import sys
import tempfile

from cases import columns_of, defined_dump_of, dump_of, lines_of, make_trace
from cases import CHANGES, DEFINED, LETS

SECONDS = 20  # a run that takes longer hangs
WAIT = 0.3    # seconds after which a run that waits is waiting
READ, WRITE = (6, b"montre: read fault\n"), (7, b"montre: write fault\n")
TOO_LONG = (5, b"montre: input too long\n")
CHECKS = b"at = p;q\nmany = (p|q)* % [1,3]\nhappens = event(a);true\n"
VERDICTS = "some any = p\neach next = <:p:> |-> (true;q) % [0,9]\nmany = (p|q)* % [1,3]\n"
PATTERN = "(p;q)* | {r && !q}"
TEXT, DUMP = ["--format", "text"], ["--format", "vcd"]
SIGNALS = [*DUMP, "--define", DEFINED + CHANGES]
COLUMNS = ["--format", "csv", "--let", LETS]
FORMS = [("text", TEXT), ("dump", DUMP), ("signals", SIGNALS), ("columns", COLUMNS)]
MODES = [[], ["--online"], ["--normal"], ["--normal", "--max-zones", "999"], ["--minus", "p;p"],
         ["--scale", "2"], ["--scale", "1", "--online"], ["--watch", "checks"],
         ["--check", "verdicts"]]
REFUSED = [["p;"], ["--minus", "p;", "p"], ["--nothing"], ["--max-bytes", "9", "p"],
           ["--normal", "--max-zones", "0", "p"], ["--watch", "text"], ["--input", ".", "p"]]


def write_files(folder):
    trace = make_trace(7, 12, True)
    files = {"text": lines_of(trace), "dump": dump_of(trace), "signals": defined_dump_of(trace),
             "columns": columns_of(trace), "checks": CHECKS.decode(), "verdicts": VERDICTS, "none": "",
             "many": "1 p\n1\n" * 50000}
    for name, text in files.items():
        with open(os.path.join(folder, name), "w", encoding="utf-8") as file:
            file.write(text)


def stands_together(options, form):
    return form != "columns" or not {"--online", "--minus", "--watch"} & set(options)


def all_cases():
    """The words of each run, and the file that is its standard input."""
    for name, form in FORMS:
        for mode in MODES:
            if stands_together(mode, name):
                yield [*mode[:1], *form, *mode[1:]] + [PATTERN] * (mode[:1] not in (["--watch"], ["--check"])), name
    for words in (["--show", PATTERN], ["--generate", "7"], *REFUSED):
        yield words, "text"


class Runs:
    def __init__(self, montre, folder):
        self.montre, self.folder = montre, folder
        self.count = self.wrong = 0

    def path(self, name):
        return os.path.join(self.folder, name)

    def start(self, words, **streams):
        streams = {"stdin": subprocess.DEVNULL, "stdout": subprocess.PIPE,
                   "stderr": subprocess.PIPE, **streams}
        return subprocess.Popen([self.montre, *words], cwd=self.folder, **streams)

    def end(self, run):
        """The status, and what is left on both outputs; nothing where one is no pipe."""
        try:
            out, err = run.communicate(timeout=SECONDS)
        except subprocess.TimeoutExpired:
            run.kill()
            out, err = run.communicate()
            return "hangs", out or b"", err or b""
        return run.returncode, out or b"", err or b""

    def run(self, words, given, **streams):
        with open(self.path(given), "rb") as file:
            return self.end(self.start(words, **{"stdin": file, **streams}))

    def compare(self, what, words, found, wanted):
        self.count += 1
        if found != wanted:
            self.wrong += 1
            print("wrong: %s, %s: %s, not %s"
                  % (words, what, *((end[0], end[1][:99], end[2]) for end in (found, wanted))))


def try_outputs(runs, words, given, whole):
    """A full device, and a pipe that nobody reads, as the output, the other output and both."""
    unwritten = (WRITE[0], b"", WRITE[1]) if whole[1] else whole
    reader, writer = os.pipe()
    os.close(reader)
    with open("/dev/full", "wb") as full, open(writer, "wb") as unread:
        for sink in (full, unread):
            found = runs.run(words, given, stdout=sink)
            runs.compare("output to %s" % sink.name, words, found, unwritten)
            found = runs.run(words, given, stderr=sink)
            runs.compare("errors to %s" % sink.name, words, found, (*whole[:2], b""))
            found = runs.run(words, given, stdout=sink, stderr=sink)
            runs.compare("both to %s" % sink.name, words, found, (unwritten[0], b"", b""))


def try_left_output(runs, words):
    """A pipe whose reader leaves after a first byte, in a run that may be ended by SIGPIPE."""
    for ignored in (False, True):
        with open(runs.path("many"), "rb") as file:
            run = runs.start(words, stdin=file, restore_signals=not ignored)
        run.stdout.read(1)
        run.stdout.close()
        run.stdout = None
        runs.compare("output left", words, runs.end(run), (WRITE[0], b"", WRITE[1]))


def is_read(words, whole):
    """Whether the run with this end reads standard input as its trace, and to the end."""
    return whole[0] == 0 and not {"--show", "--generate"} & set(words)


def try_inputs(runs, words):
    """A folder, and a pipe with nothing in it that doesn't block: neither can be read."""
    unread = (READ[0], b"", READ[1])
    folder = os.open(runs.folder, os.O_RDONLY)
    reader, writer = os.pipe()
    os.set_blocking(reader, False)
    for what, stream in (("folder", folder), ("pipe that doesn't block", reader)):
        found = runs.end(runs.start(words, stdin=stream))
        runs.compare(what, words, found, unread)
    for stream in (folder, reader, writer):
        os.close(stream)
    found = runs.end(runs.start([*words, "--input", "."]))
    runs.compare("folder by name", words, found, unread)


def try_pipe(runs, words, given, whole):
    """A named pipe: whole, in two pieces, of no byte, with a writer that waits or never comes."""
    name, by_name = runs.path("pipe"), [*words, "--input", "pipe"]
    with open(runs.path(given), "rb") as file:
        text = file.read()
    empty = runs.run(words, "none")
    for pieces, wanted in (([text], whole), ([text[:7], text[7:]], whole), ([], empty),
                           ([text[:text.rindex(b"\n", 0, -1)]], None)):
        run = runs.start(by_name)
        with open(name, "wb", buffering=0) as writer:
            for piece in pieces:
                writer.write(piece)
        with open(runs.path("cut"), "wb") as file:
            file.write(b"".join(pieces))
        runs.compare("pipe of %d pieces" % len(pieces), words, runs.end(run),
                     wanted or runs.run(words, "cut"))
    run = runs.start(by_name)
    try:
        run.wait(WAIT)
    except subprocess.TimeoutExpired:
        run.send_signal(signal.SIGTERM)
    runs.compare("pipe without a writer", words, runs.end(run), (-signal.SIGTERM, b"", b""))


def try_promptness(runs, words, pieces):
    """Each piece completes a block, which is there while the writer waits."""
    run = runs.start([*words, "--input", "pipe"])
    with open(runs.path("pipe"), "wb", buffering=0) as writer:
        for piece, last in pieces:
            writer.write(piece)
            line = b""
            while last and line != last:
                line = run.stdout.readline()
    status, rest, line = runs.end(run)
    runs.compare("prompt", words, (status, rest[-6:], line), (0, b"end 9\n", b""))


def try_devices(runs):
    """Inputs without an end, none, and two that aren't there."""
    fault, line = b"montre: trace: LineTooLong at %d\n", b"montre: watch: TooLarge\n"
    for words, wanted in (
            ([*TEXT, "--input", "/dev/zero", "p"], (4, fault % 1)),
            ([*TEXT, "--online", "--input", "/dev/zero", "p"], (4, fault % 1)),
            ([*DUMP, "--input", "/dev/zero", "p"], (4, fault % 0)),
            (["--max-bytes", "65536", "--input", "/dev/zero", "p"], TOO_LONG),
            ([*COLUMNS, "--max-bytes", "99999", "--input", "/dev/zero", "p"], TOO_LONG),
            (["--watch", "/dev/zero"], (12, line)), (["--watch", "/dev/null"],
                                                      (12, b"montre: watch: Empty\n")),
            (["--input", "/dev/full", "p"], (4, fault % 1)),
            (["--input", "nowhere", "p"], READ), (["--input", "", "p"], READ),
            (["--input", "text/text", "p"], READ), (["--watch", "nowhere"], READ),
            (["--watch", "."], READ), (["--watch", "checks", "--input", "."], READ),
            (["--watch", "-", "--input", "text"], (12, b"montre: watch: Empty\n")),
            (["--check", "/dev/zero"], (12, line)), (["--check", "."], READ),
            (["--check", "checks", "--input", "text"], (12, b"montre: watch: Empty\n"))):
        runs.compare("device", words, runs.end(runs.start(words)), (wanted[0], b"", wanted[1]))
    for form in (TEXT, COLUMNS, [*TEXT, "--online"]):
        words = [*form, "--input", "/dev/null", "!true"]
        runs.compare("device", words, runs.end(runs.start(words)), (0, b"end 0\n", b""))


def main():
    if len(sys.argv) != 2:
        sys.exit("usage: python3 bench/agree/streams.py PATH_OF_MONTRE")
    with tempfile.TemporaryDirectory() as folder:
        write_files(folder)
        runs = Runs(os.path.abspath(sys.argv[1]), folder)
        os.mkfifo(runs.path("pipe"))
        for words, given in all_cases():
            whole = runs.run(words, given)
            try_outputs(runs, words, given, whole)
            if is_read(words, whole):
                try_inputs(runs, words)
                try_pipe(runs, words, given, whole)
        for words in (["p"], ["--online", "p"], ["--watch", "checks"], ["--normal", "p"]):
            try_left_output(runs, words)
        lines = [(b"3 p\n", b"at 3\n"), (b"2\n4", None), (b" q\n", b"at 9\n")]
        times = [(b"$var wire 1 p p $end $var wire 1 q q $end $var event 1 a a $end "
                  b"$enddefinitions $end\n#0 1p #3", None), (b"\n0p\n#5 ", b"at 3\n"),
                 (b"#9 ", b"at 5\n")]
        for words in (["--online", "p"], ["--watch", "checks"]):
            try_promptness(runs, words, lines)
            try_promptness(runs, [*words, *DUMP], times)
        try_devices(runs)
    print("%d runs, %d wrong" % (runs.count, runs.wrong))
    sys.exit(1 if runs.wrong else 0)


if __name__ == "__main__":
    main()
