#!/usr/bin/env python3
"""montre over random lists of words, beside a plain reading of which words give a job.

    python3 bench/agree/words.py PATH_OF_MONTRE [LISTS [SEED]]

A run has to end with status 2 just where no job is given: crates/tre_words/specs/Settings.antt says
what words are, and Job.antt there what a job is. It is read here as it stands: all ways are tried to
take the words as settings with one text among them, or behind `--`.
"""

import random
import subprocess
import sys
import tempfile
from collections import Counter, namedtuple

LISTS, SEED = 20000, 7
REFUSED = 2
FLAGS = ["online", "show", "normal"]
OPTIONS = ["format", "input", "max-bytes", "scale", "max-zones", "minus", "let", "define",
           "unit"]
DEFAULTS = {"online": "false", "show": "false", "normal": "false", "format": "text", "input": "-",
            "max-bytes": "1073741824", "scale": "0"}
FORMATS = ["text", "vcd", "csv"]
UNITS = ["s", "ms", "us", "ns", "ps", "fs"]
LIMIT_MAX, SCALE_MAX, COUNT_MAX = 1 << 40, 9, 10000

Setting = namedtuple("Setting", "name value")
Job = namedtuple("Job",
                 "mode format input max_bytes scale unit normal max_zones minus lets expr")


# ---- which words give a job

def is_plain(word):
    return word == "-" or not word.startswith("-")


def settings_of(words):
    """Each list of settings that is typed so."""
    if not words:
        yield []
        return
    first, rest = words[0], words[1:]
    for name in FLAGS:
        if first == "--" + name:
            yield from ([Setting(name, "true"), *more] for more in settings_of(rest))
    for name in OPTIONS:
        if first.startswith("--" + name + "="):
            value = first[len("--" + name + "="):]
            yield from ([Setting(name, value), *more] for more in settings_of(rest))
        if first == "--" + name and rest and is_plain(rest[0]):
            yield from ([Setting(name, rest[0]), *more] for more in settings_of(rest[1:]))


def typed_in(words):
    """Each list of settings and the text beside them that the words are."""
    for place, text in enumerate(words):
        after = words[place + 1:]
        for end in ([], ["--"]):
            if is_plain(text) and after[len(after) - len(end):] == end:
                yield from ((before + behind, text) for before in settings_of(words[:place])
                            for behind in settings_of(after[:len(after) - len(end)]))
    if len(words) > 1 and words[-2] == "--":
        yield from ((settings, words[-1]) for settings in settings_of(words[:-2]))


def number(least, most, text):
    """The number that the text writes, if it is one of these."""
    if not text or not all("0" <= sign <= "9" for sign in text):
        return None
    return int(text) if least <= int(text) <= most else None


def job_said(says, expr):
    """What the settings say, if each value is one that its option may have."""
    scale, most = number(0, SCALE_MAX, says["scale"]), number(1, LIMIT_MAX, says["max-bytes"])
    zones = number(0, LIMIT_MAX, says["max-zones"]) if "max-zones" in says else None
    if None in (scale, most) or says["format"] not in FORMATS:
        return None
    if "max-zones" in says and zones is None or says.get("unit", "s") not in UNITS:
        return None
    mode = "show" if says["show"] == "true" else "online" if says["online"] == "true" else "offline"
    return Job(mode, says["format"], says["input"], most, scale, says.get("unit"),
               says["normal"] == "true", zones, says.get("minus"), says.get("let", says.get("define")), expr)


def may_stand(says, job):
    """Whether these options may stand beside each other."""
    return not any([
        job.normal and job.mode != "offline",
        job.max_zones is not None and not job.normal,
        job.minus is not None and job.mode != "offline",
        job.format == "csv" and job.minus is not None,
        job.lets is not None and job.format == "text",
        job.format == "csv" and says["online"] == "true",
        job.format != "csv" and "let" in says,
        job.format != "vcd" and "define" in says,
        job.format != "vcd" and "unit" in says,
    ])


def plain_jobs(words):
    for settings, text in typed_in(words):
        names = [setting.name for setting in settings]
        says = {**DEFAULTS, **dict(settings)}
        job = job_said(says, text) if len(names) == len(set(names)) else None
        if job and may_stand(says, job):
            yield job


def may_read_file(job):
    both = job.expr == "-" and job.input == "-"
    return (job.mode, job.minus) == ("offline", None) and not both


def may_watch(job):
    return may_read_file(job) and not job.normal and job.format != "csv"


def jobs_of(words):
    """All jobs that the words give."""
    if words and words[0] == "--generate":
        return {words[1]} if len(words) == 2 and number(1, COUNT_MAX, words[1]) else set()
    if words and words[0] == "--watch":
        return {job._replace(mode="watch") for job in plain_jobs(words[1:]) if may_watch(job)}
    if words and words[0] == "--check":
        return {job._replace(mode="check") for job in plain_jobs(words[1:]) if may_read_file(job)}
    return set(plain_jobs(words))


# ---- random words

VALUES = {
    "format": ["text", "vcd", "csv", "csv", "vcd", "CSV", ""],
    "input": ["-", "x", "", "a=b", "é", "-x", "--"],
    "max-bytes": ["1", "99", "1099511627776", "0", "1099511627777", "007", "1e3", "²"],
    "scale": ["0", "3", "9", "10", "000", "-1", "٣", "18446744073709551616"],
    "max-zones": ["0", "5", "1099511627776", "", "2.0", "+1"],
    "minus": ["q", "q;", "", "-", "-q", "--", "é"],
    "let": ["", "a = x > 1", "a", "-a"],
    "define": ["", "a = x", "é", "--show"],
    "unit": ["ns", "s", "fs", "NS", "1ns", "", "n", "µs", "us "],
}
TEXTS = ["p", "p", "p;q", "", "-", "é", "p % [0,1]", "f", "=", "ÿ-", "-p", "--", "--online"]
ODD = ["", "-", "--", "---", "=", "--=", "--=x", "-p", "-os", "-é", "--é", "é", "é=", "\u2028",
       "😀", "--EXPR", "--EXPR=p", "--help", "-h", "--version", "-V", "--inpu", "--input", "--online=",
       "--online=true", "--show=x", "--normal=", "--Online", "--scale=", "--scale=3=", "--format=",
       "--generate", "--watch", "--watch=f", "--check", "--check=f", "--generate=3", "help", "p", "3", "-1", "--max_zones",
       "--max-zones", "--minus", "--let", "--define", "--unit", "--unit=ps", "--units=ns", "--online ", " --online", "--on\tline", "--ſhow"]
COUNTS = ["1", "5", "12", "0", "10001", "", "-3", "3.0", "+3", "é", "0004"]


def setting_words(chance, name):
    if name in FLAGS:
        return ["--" + name]
    values = VALUES[name]
    value = chance.choice(values if chance.random() < 0.3 else values[:3])
    return ["--" + name, value] if chance.random() < 0.5 else ["--%s=%s" % (name, value)]


def plain_words(chance):
    """Options, most once, and a text."""
    names = chance.sample(FLAGS + OPTIONS, chance.choice([0, 1, 1, 2, 2, 3, 4]))
    if chance.random() < 0.1 and names:
        names.append(chance.choice(names))
    parts = [setting_words(chance, name) for name in names]
    text = chance.choice(TEXTS if chance.random() < 0.4 else TEXTS[:3])
    if chance.random() < 0.15:
        parts.append(["--", text])
    else:
        parts.insert(chance.randint(0, len(parts)), [text])
        if chance.random() < 0.1:
            parts.append(["--"])
    return [word for part in parts for word in part]


def damaged(chance, words):
    """The words with one that is new, gone, or moved."""
    words = list(words)
    place = chance.randint(0, len(words))
    kind = chance.choice(["new", "gone", "other", "moved"])
    if kind == "new" or not words:
        words.insert(place, chance.choice(ODD))
    elif kind == "gone":
        words.pop(place % len(words))
    elif kind == "other":
        words[place % len(words)] = chance.choice(ODD)
    else:
        words.insert(place, words.pop(chance.randrange(len(words))))
    return words


def words_for(chance):
    kind = chance.random()
    if kind < 0.12:
        return [chance.choice(ODD) for _ in range(chance.randint(0, 4))]
    if kind < 0.17:
        words = ["--generate", chance.choice(COUNTS)]
    elif kind < 0.4:
        words = [chance.choice(["--watch", "--check"]), *plain_words(chance)]
    else:
        words = plain_words(chance)
    while chance.random() < 0.3:
        words = damaged(chance, words)
    return words


# ---- beside the program

def code_of(montre, words, folder):
    run = subprocess.run([montre, *(word.encode() for word in words)], cwd=folder, check=False,
                         stdin=subprocess.DEVNULL, stdout=subprocess.DEVNULL,
                         stderr=subprocess.DEVNULL)
    return run.returncode


def main():
    montre = sys.argv[1]
    lists = int(sys.argv[2]) if len(sys.argv) > 2 else LISTS
    chance = random.Random(int(sys.argv[3]) if len(sys.argv) > 3 else SEED)
    codes, differ = Counter(), 0
    with tempfile.TemporaryDirectory() as folder:
        for _ in range(lists):
            words = words_for(chance)
            jobs, code = jobs_of(words), code_of(montre, words, folder)
            codes[code] += 1
            if len(jobs) > 1 or (code == REFUSED) != (not jobs) or code < 0:
                differ += 1
                print("%d, with %d jobs: %r" % (code, len(jobs), words))
    print(", ".join("%d with %d" % (count, code) for code, count in sorted(codes.items())))
    print("%d lists of words, %d differ" % (lists, differ))
    sys.exit(differ > 0)


if __name__ == "__main__":
    main()
