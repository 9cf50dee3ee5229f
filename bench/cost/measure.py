"""Processor time and memory of one run of a program. For Linux. Standard library alone."""

import ctypes
import os
import signal
import subprocess
import sys

SECONDS = 20         # processor time that one run may take
KILOBYTES = 3000000  # memory that one run may take
ONCE = 5             # a run that takes more seconds than this isn't repeated
ROUNDS = 5           # how many turns any other has

# The shell ends at once, and what it started becomes a child of this script.
# A child that this script started itself would be told as no smaller than
# Python, since the memory before the call of the program counts too.
START = ('ulimit -c 0; ulimit -t "$1"; ulimit -v "$2"; input=$3; output=$4; '
         'shift 4; "$@" < "$input" > "$output" 2> /dev/null &')


class Run:
    """Why it was stopped or None, and otherwise the seconds and the kilobytes."""

    def __init__(self, stopped, user=0.0, system=0.0, peak=0):
        self.stopped = stopped
        self.user = user
        self.seconds = user + system
        self.peak = peak


def adopt_orphans():
    set_child_subreaper = 36
    if ctypes.CDLL(None).prctl(set_child_subreaper, 1, 0, 0, 0) != 0:
        sys.exit("this system doesn't hand over orphans")


def run_once(words, trace, output):
    """The wait status and what the system tells of the run."""
    subprocess.run(["sh", "-c", START, "sh", str(SECONDS), str(KILOBYTES),
                    trace, output] + words, check=True)
    try:
        _, status, usage = os.wait4(-1, 0)
    except ChildProcessError:  # a slow shell saw the end itself
        return run_once(words, trace, output)
    return status, usage


def why_stopped(status):
    if os.WIFSIGNALED(status):
        by_time = os.WTERMSIG(status) in (signal.SIGXCPU, signal.SIGKILL)
        return "over %d s" % SECONDS if by_time else "killed"
    if os.WEXITSTATUS(status) == 8:
        return "over %d GB" % (KILOBYTES // 1000000)
    if os.WEXITSTATUS(status) != 0:
        return "status %d" % os.WEXITSTATUS(status)
    return None


def measured(words, trace, output, times):
    """The mean of so many runs, one after another."""
    user = system = peak = 0
    for _ in range(times):
        status, usage = run_once(words, trace, output)
        stopped = why_stopped(status)
        if stopped is not None:
            return Run(stopped)
        user += usage.ru_utime / times
        system += usage.ru_stime / times
        peak = max(peak, usage.ru_maxrss)
    return Run(None, user, system, peak)


def is_enough(runs):
    return bool(runs) and (runs[-1].stopped is not None or runs[-1].seconds > ONCE)


def measure_by_turns(jobs):
    """The turns of each job: words, a trace, an output, and how many runs are one turn.

    All have a turn before any has another, so a machine that gets slower or faster disturbs their
    ratios less."""
    turns = [[] for _ in jobs]
    for _ in range(ROUNDS):
        for runs, job in zip(turns, jobs):
            if not is_enough(runs):
                runs.append(measured(*job))
    return turns


def measure(words, trace, output):
    runs = measure_by_turns([(words, trace, output, 1)])[0]
    if runs[-1].stopped is not None:
        return runs[-1]
    best = min(runs, key=lambda run: run.seconds)
    return Run(None, best.user, best.seconds - best.user, min(run.peak for run in runs))


def count_lines(path):
    with open(path, "rb") as file:
        return sum(1 for _ in file)


def ratio(now, before):
    return "%.3g" % (now / before) if before else "-"


def print_row(cells):
    print("| " + " | ".join(cells) + " |", flush=True)


def print_head(cells):
    print_row(cells)
    print("|---|" + "---:|" * (len(cells) - 1), flush=True)


def cell(pattern):
    return "`" + pattern.replace("|", "\\|") + "`"


BESIDE_WORDS = ["seconds", "`wc -w`", "ratio", "ratio of user time", "MB", "MB of `wc -w`"]


def print_beside_words(labels, command, path, output):
    """A row of the command over the file at `path`, beside `wc -w` on it: the labels, and BESIDE_WORDS."""
    run = measure(command, path, output)
    if run.stopped is not None:
        print_row(labels + [run.stopped] + ["-"] * (len(BESIDE_WORDS) - 1))
        return
    words = measure(["wc", "-w"], path, output)
    print_row(labels + ["%.3f" % run.seconds, "%.3f" % words.seconds,
                        ratio(run.seconds, words.seconds), ratio(run.user, words.user),
                        "%.1f" % (run.peak / 1024), "%.1f" % (words.peak / 1024)])
