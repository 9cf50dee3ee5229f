"""Processor time of a run of the gate, by crate and by what it is spent on. For Linux.

usage: python3 bench/house/gate.py [WORD..]        the command to run: `rt ci --anew` where none is given

It runs the command, looks at the processes below it ten times a second, and prints a table at the
end, and whenever it is sent the signal USR1. What a process used after the last look at it is in
the sum of the system alone.
"""

import os
import re
import resource
import signal
import subprocess
import sys
import threading
import time

PAUSE = 0.1
TICKS = os.sysconf("SC_CLK_TCK")
KINDS = ["proof", "tests", "edits", "programs"]


def read(path):
    try:
        with open(path, "rb") as file:
            return file.read()
    except OSError:
        return b""


def processes():
    """Of each process its parent, its begin and the ticks that it used by itself."""
    found = {}
    for name in os.listdir("/proc"):
        if not name.isdigit():
            continue
        text = read("/proc/%s/stat" % name)
        fields = text[text.rfind(b")") + 2:].split()
        if len(fields) > 19:
            found[int(name)] = (int(fields[1]), fields[19], int(fields[11]) + int(fields[12]))
    return found


def below(found, top):
    """The processes that were started by this one, or by one of those."""
    children = {}
    for process, (parent, _, _) in found.items():
        children.setdefault(parent, []).append(process)
    waiting, reached = [top], []
    while waiting:
        process = waiting.pop()
        reached.append(process)
        waiting += children.get(process, [])
    return reached


def folder_of(process):
    try:
        return os.readlink("/proc/%d/cwd" % process)
    except OSError:
        return ""


def work_of(process):
    """The crate that a process works on, and which kind of work it is."""
    words = read("/proc/%d/cmdline" % process).decode(errors="replace").split("\0")
    line = " ".join(words)
    place = line + " " + folder_of(process)
    if "--crate-name" in words:
        crate = words[words.index("--crate-name") + 1]
        if "/rt-edit" in place:
            return crate, "edits"
        return crate, "tests" if "--test" in words else "proof"
    named = re.search(r"crates/([a-z0-9_]+)", place)
    return (named.group(1) if named else "rt"), "programs"


class Meter(threading.Thread):
    """Looks at the processes below one until it is stopped."""

    def __init__(self, top):
        super().__init__(daemon=True)
        self.top, self.used, self.works, self.going = top, {}, {}, True

    def look(self):
        found = processes()
        for process in below(found, self.top):
            if process not in found:
                continue
            _, begin, ticks = found[process]
            key = process, begin
            # (a process is another program once it has begun it)
            if self.works.get(key, ("rt", "programs"))[1] == "programs":
                self.works[key] = work_of(process)
            self.used[key] = ticks

    def run(self):
        while self.going:
            self.look()
            time.sleep(PAUSE)


def table(meter):
    sums = {}
    for key, ticks in list(meter.used.items()):
        crate, kind = meter.works[key]
        sums.setdefault(crate, dict.fromkeys(KINDS, 0))[kind] += ticks / TICKS / 60
    print("\nprocessor minutes\n\n| crate | %s | all |" % " | ".join(KINDS))
    print("|---|%s" % ("--:|" * (len(KINDS) + 1)))
    rows = sorted(sums.items(), key=lambda row: -sum(row[1].values()))
    total = dict.fromkeys(KINDS, 0.0)
    for crate, row in rows + [("all", total)]:
        cells = [row[kind] for kind in KINDS]
        print("| %s | %s | %.1f |" % (crate, " | ".join("%.1f" % it for it in cells), sum(cells)))
        for kind in KINDS:
            total[kind] += row[kind]


def main():
    command = sys.argv[1:] or ["rt", "ci", "--anew"]
    begin = time.time()
    run = subprocess.Popen(command)
    meter = Meter(run.pid)
    meter.start()
    signal.signal(signal.SIGUSR1, lambda *_: table(meter))
    status = run.wait()
    meter.going = False
    meter.join()
    table(meter)
    used = resource.getrusage(resource.RUSAGE_CHILDREN)
    print("\n%.1f processor minutes by the system, %.1f minutes by the clock"
          % ((used.ru_utime + used.ru_stime) / 60, (time.time() - begin) / 60))
    sys.exit(status)


if __name__ == "__main__":
    main()
