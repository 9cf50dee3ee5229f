#!/usr/bin/env python3
"""montre at each limit of the pages and one past it, and with patterns as large as they may be.

    python3 bench/agree/limits.py PATH_OF_MONTRE

Each pattern is run at the end, online, as the one to take away, by --show and as a check of a
file, on a stack of 8 MB. At last runs of each form and mode have more and more memory. For Linux.
"""

import os
import resource
import subprocess
import sys
import tempfile

from cases import LETS, columns_of, dump_of, lines_of, make_trace

SECONDS = 60     # a run that takes longer hangs
SLOW = 1         # processor seconds that are told
STACK = 8 << 20  # bytes
MEMORY = (8, b"montre: out of memory\n")
MOST = 16384     # bytes of a pattern
LAST = 1 << 40   # the last unit of a trace


def nested(before, after, count, inside="p"):
    return before * count + inside + after * count


def joined(sign, part, count):
    return sign.join([part] * count)


def names(form, count):
    return "|".join(form % number for number in range(count))


WRONG = b"montre: wrong arguments\n"
STARS = "p" + "*" * 998  # online it takes minutes, so it is left out there

# Patterns, and what the line of a refusal has.
AT_LIMITS = [
    ("p" + " " * (MOST - 1), ""), ("p" + " " * MOST, "TooLong"), ("a" * MOST, ""),
    (" \t\r\n" * 4095 + "p;q", ""), ("(\n" * 100 + "p" + "\t)\r" * 100, ""),
    (nested("(", ")", 200), ""), (nested("(", ")", 201), "TooDeep at 200"),
    ("{" + nested("(", ")", 199) + "}", ""), ("{" + nested("(", ")", 200) + "}", "TooDeep at 200"),
    ("rise(" + nested("(", ")", 199) + ")", ""),
    ("rise(" + nested("(", ")", 200) + ")", "TooDeep at 204"),
    (nested("(", ")", 199, "p % [1,2]"), ""),
    (nested("(", ")", 200, "p % [1,2]"), "TooDeep at 204"),
    ("(" * MOST, "TooDeep at 200"), ("[" * MOST, "TooDeep at 200"), (")" * MOST, "Syntax at 0"),
    (nested("(", "", 200), "Syntax at 201"), ("{" * 200 + "p", "Syntax at 1"),
    *((joined(sign, "p", 333), "") for sign in ";|&"),
    *((joined(sign, "p", 334), "TooLarge 1001") for sign in ";|&"),
    *((joined(sign, "eps", 500), "") for sign in ";|&"),
    *((joined(sign, "event(a)", 500), "") for sign in ";|&"),
    *((joined(sign, "rise(p)", 333), "") for sign in ";|&"),
    *((joined(sign, "p", MOST // 2), "TooLarge 24575") for sign in ";|&"),
    *(("{" + joined(sign, "p", 500) + "}", "") for sign in ("&&", "||")),
    *(("{" + joined(sign, "p", 501) + "}", "TooLarge 1002") for sign in ("&&", "||")),
    *(("fall(" + joined(sign, "!q", 333) + ")", "") for sign in ("&&", "||")),
    ("!" * 998 + "p", ""), ("!" * 999 + "p", "TooLarge 1001"),
    ("!" * (MOST - 1) + "p", "TooLarge 16385"), ("{" + "!" * 998 + "true}", ""),
    (STARS, ""), ("p" + "*" * 125, ""), ("p" + "*" * 999, "TooLarge 1001"),
    ("p" + "*" * (MOST - 1), "TooLarge 16385"), ("p" + "?" * 499, ""),
    ("p" + "?" * 500, "TooLarge 1002"), ("p" + "+" * 7, ""), ("p" + "+" * 8, "TooLarge 1022"),
    ("p" + "+" * (MOST - 1), "TooLarge 1000000000"),
    ("p" + " % [0,9]" * 998, ""), ("p" + "%[0,9]" * 999, "TooLarge 1001"),
    (nested("(", "% (0,9])", 199), ""), (nested("(", ")*", 199), ""), (nested("(", ";q)+", 6), ""),
    (nested("(p;", ")", 199), ""), (nested("(p|", ")", 199), ""), (nested("(p&", ")", 199), ""),
    (nested("(q;", ")*", 199), ""), (nested("(q*&", ")*", 100), ""),
    (nested("(", " % [1,2];q)?", 120), ""),
    (nested("{p&&(", ")}", 1, nested("(q||(p&&", "))", 90)), ""),
    (joined("|", "<:p:>", 111), ""), (joined("|", "<:p:>", 112), "TooLarge 1007"),
    ("p %% [0,%d]" % LAST, ""), ("p %% [0,%d]" % (LAST + 1), "Number at 7"),
    ("p %% (%d,inf)" % LAST, ""), ("p % [" + "0" * 16000 + "1,2]", ""),
    ("p % [0," + "9" * 16000 + "]", "Number at 7"), ("p % [1." + "0" * 16000 + ",2]", ""),
    ("p % [1." + "0" * 16000 + "1,2]", "Number at 5"),
    (joined(";", "p %% [0,%d]" % LAST, 250), ""),
    ("p %% (%d,%d]" % (LAST, LAST), "EmptyInterval at 4"),
    (names("p%d", 64), ""), (names("p%d", 65), "TooManyNames at 246"),
    (names("event(p%d)", 64) + "|p0", ""), (names("event(p%d)", 65), "TooManyNames at 700"),
    (names("p%d", 64) + "|" + names("event(p%d)", 64), ""),
    ("p " * (MOST // 2), "Syntax at 2"), ("@" * MOST, "BadByte at 0"), ("%" * MOST, "Syntax at 0"),
    ("|" * MOST, "Syntax at 0"), ("<:" * (MOST // 2), "Syntax at 2"), ("", "Syntax at 0"),
    ("((p % (0,1))* & (q|r|!q)*)* & (true % [3,3])* & (true % (0,2))+", ""),
    ("(true % [2,3])* & (true % [3,5])* & (true % (1,7))*;(p|q|r|!p)*", ""),
]

TRACE = make_trace(6, 8, True)


HEAD, WIDE = b"$enddefinitions $end\n", b"x" * 65536
DUMP, CSV = ["--format", "vcd", "true"], ["--format", "csv", "p", "--let"]
LATE, BAD_LET = b"montre: trace: TooLate at ", b"montre: definitions: BadLet at 1\n"


def long_paths(scopes, variables):
    """A dump whose paths are far longer than any name."""
    return (b"$var wire 1 a a $end\n" + b"$scope module %s $end\n" % (b"s" * 60000) * scopes
            + b"$var wire 1 b a $end\n" * variables + HEAD + b"#1\n1a #2\n")


# Words and standard input, and the status and the line that are wanted.
INPUTS = [
    (["p"], WIDE + b"\n", 4, b"montre: trace: BadNumber at 1\n"),
    (["p"], b"#" + WIDE[1:] + b"\n3 p", 0, b""), (["p"], b"1 " + WIDE[2:], 0, b""),
    (["p"], b"#" + WIDE + b"\n3 p", 4, b"montre: trace: LineTooLong at 1\n"),
    (["p"], b"3 p\n1 " + WIDE, 4, b"montre: trace: LineTooLong at 2\n"),
    (["p"], b"%d p\n" % LAST, 0, b""), (["p"], b"1 p\n%d p\n" % LAST, 4, LATE + b"2\n"),
    (["p"], b"%d p\n" % (LAST + 1), 4, LATE + b"1\n"),
    (["p"], b"0" * 65000 + b"1 p", 0, b""), (["p"], b"1." + b"0" * 65000 + b" p", 0, b""),
    (["--scale", "9", "p"], b"1099.511627776 p\n", 0, b""),
    (["--scale", "9", "p"], b"1099.511627777 p\n", 4, LATE + b"1\n"),
    (["--scale", "9", "p % [0,1099.511627776]"], b"", 0, b""),
    (["--scale", "9", "p % [0,1099.511627777]"], b"", 3, b"montre: expression: Number at 7\n"),
    (["--scale", "9", "p % [0.0000000001,1]"], b"", 3, b"montre: expression: Number at 5\n"),
    (DUMP, HEAD + b"#0 #%d" % LAST, 0, b""), (DUMP, HEAD + b"#%d" % (LAST + 1), 4, LATE + b"21\n"),
    (["--scale", "9", *DUMP], HEAD + b"#1099", 0, b""),
    (["--scale", "9", *DUMP], HEAD + b"#1100", 4, LATE + b"21\n"),
    (DUMP, b"$comment " + WIDE + b" $end " + HEAD + b"#1", 0, b""),
    (DUMP, b"$comment " + WIDE + b"x $end " + HEAD, 4, b"montre: trace: LineTooLong at 9\n"),
    (["--format", "vcd", "a"], long_paths(100, 100000), 0, b""),
    ([*CSV, "p = x >= -9223372036854775808"],
     b"dt,x\n1,9223372036854775807\n2,-9223372036854775808", 0, b""),
    ([*CSV, "p = x >= -9223372036854775809"], b"", 11, BAD_LET),
    ([*CSV, "p = x < 9223372036854775808"], b"", 11, BAD_LET),
    ([*CSV, "p = x < 1"], b"dt,x\n1,9223372036854775808\n", 4, b"montre: trace: BadNumber at 2\n"),
    ([*CSV, "p = x < 1"], b"dt,x\n%d,1\n1,1" % LAST, 4, LATE + b"3\n"),
    ([*CSV, "p = x < 1"], b"dt" + b",c" * 99999 + b",x\n1" + b",9" * 99999 + b",0\n", 0, b""),
    ([*CSV, "p = x < 1"], b"dt,y,x\n1," + WIDE * 9 + b",0\n", 0, b""),
]

# Words, and the status and the line that are wanted over two pulses in nine bytes.
NUMBERS = [
    (["--scale", "9", "p"], 0, b""), (["--scale", "10", "p"], 2, WRONG),
    (["--scale", "-1", "p"], 2, WRONG), (["--scale", "", "p"], 2, WRONG),
    (["--max-bytes", str(LAST), "p"], 0, b""), (["--max-bytes", str(LAST + 1), "p"], 2, WRONG),
    (["--max-bytes", "0", "p"], 2, WRONG), (["--max-bytes", "9", "p"], 0, b""),
    (["--max-bytes", "8", "p"], 5, b"montre: input too long\n"),
    (["--generate", "1"], 0, b""), (["--generate", "10000"], 0, b""),
    (["--generate", "10001"], 2, WRONG), (["--generate", "0"], 2, WRONG),
    (["--normal", "--max-zones", "2", "p"], 0, b""),
    (["--normal", "--max-zones", "1", "p"], 9, b"montre: too many zones 2\n"),
    (["--normal", "--max-zones", "0", "q"], 0, b""),
    (["--normal", "--max-zones", str(LAST), "p"], 0, b""),
    (["--normal", "--max-zones", str(LAST + 1), "p"], 2, WRONG),
]


# Names for what a dump of a wide vector says.
BITS = [("0b" + "1" * 64, 0, b""), ("0b1" + "0" * 64, 11, BAD_LET), ("0x" + "f" * 16, 0, b""),
        ("0x1" + "0" * 16, 11, BAD_LET), (str((1 << 64) - 1), 0, b""), (str(1 << 64), 11, BAD_LET),
        ("0b" + "0" * 60000 + "1", 0, b""), ("0x", 11, BAD_LET), ("", 11, BAD_LET)]
PLACES = [("[65535]", 0), ("[65535:0]", 0), ("[65536]", 4), ("[0:1]", 4), ("[-1]", 4),
          ("[%d]" % (1 << 31), 4), ("[" + "9" * 60000 + "]", 4)]


def wide_vectors():
    """Definitions at their limits, as INPUTS: numbers, bits, and as many as arguments may have."""
    dump = b"$var reg 65536 ! v [65535:0] $end\n" + HEAD + b"#0 b1" + b"0" * 65534 + b" !\n#1"
    define, unknown = ["--format", "vcd", "--define"], b"montre: trace: UnknownName at 34\n"
    for number, status, line in BITS:
        yield [*define, "a = v == " + number, "a"], dump, status, line
    for bits, status in PLACES:
        yield [*define, "a = v%s >= 0" % bits, "a"], dump, status, unknown if status else b""
    many = ";".join("n%d = v == %d" % (number, number) for number in range(6000))
    yield [*define, many, names("n%d", 64)], dump, 0, b""
    yield [*define, many + ";n0 = v", "n0"], b"", 11, b"montre: definitions: Twice at 6001\n"
    yield [*define, many + ";n = v ==", "n0"], b"", 11, b"montre: definitions: BadLet at 6001\n"
    lets = ";".join("n%d = x < %d" % (number, number) for number in range(6000))
    yield ["--format", "csv", "--let", lets, names("n%d", 64)], b"dt,x\n1,5", 0, b""


def check_files(folder):
    """Files of checks at their limits, as INPUTS."""
    checks = b"".join(b"c%d = p\n" % number for number in range(64))
    ends = [(checks, 0, b""), (checks + b"d = p\n", 12, b"montre: watch: TooMany at 65\n"),
            (b"a = p\n#" + b"x" * 1048569, 0, b""),
            (b"a = p\n#" + b"x" * 1048570, 12, b"montre: watch: TooLarge\n")]
    for number, (text, status, line) in enumerate(ends):
        name = "file%d" % number
        with open(os.path.join(folder, name), "wb") as file:
            file.write(text)
        yield ["--watch", name], b"3 p", status, line
    lets = b"".join(b"let n%d = x < %d\n" % (number, number) for number in range(6000))
    checks = b"".join(b"never c%d = n%d\n" % (number, number) for number in range(63))
    arrow = b"some b = eps\neach a = n0 =>" + b" " * 16376
    ends = [(lets + checks + b"some d = n63", 13, b"montre: failed checks 1\n"),
            (lets + checks + b"some d = n63\ne = n0", 12, b"montre: watch: TooMany at 6065\n"),
            (lets + checks + b"let n5999 = x < 0", 12, b"montre: watch: Twice at 6064\n"),
            (lets + arrow + b"n0", 0, b""),
            (lets + arrow + b" n0", 12, b"montre: watch: Pattern at 6002: TooLong\n")]
    for number, (text, status, line) in enumerate(ends):
        name = "verdicts%d" % number
        with open(os.path.join(folder, name), "wb") as file:
            file.write(text)
        yield ["--check", "--format", "csv", name], b"dt,x\n1,6000\n", status, line


def memory_runs(folder):
    """Words, and standard input: runs that need more memory the longer they are."""
    trace = make_trace(6, 20000, True)
    dump = dump_of(trace).replace("$var", "".join(
        "$var wire 8 x%d x%d $end\n" % (number, number) for number in range(20000)) + "$var", 1)
    with open(os.path.join(folder, "checks"), "w", encoding="utf-8") as file:
        file.write("".join("c%d = (p;q)* %% [0,%d]\n" % (number, number) for number in range(6)))
    with open(os.path.join(folder, "verdicts"), "w", encoding="utf-8") as file:
        file.write("all = (p;q)* | p\neach a = <:p:> |-> (true;rise(p)) % [0,9]\nsome b = q\n")
    signals = ["--define", "q = x19999 >= 3; r = x7 changes"]
    forms = [([], lines_of(trace)), (["--format", "vcd"], dump),
             (["--format", "vcd", *signals], dump),
             (["--format", "csv", "--let", LETS], columns_of(trace))]
    for form, text in forms:
        for mode in ([], ["--normal"], ["--normal", "--max-zones", "9"], ["--scale", "1"]):
            yield [*mode, *form, "(p;q)* | p"], text.encode()
        yield ["--check", *form, "verdicts"], text.encode()
    for form, text in forms[:3]:
        for mode in (["--online"], ["--minus", "p;p"]):
            yield [*mode, *form, "(p;q)* | p"], text.encode()
        yield ["--watch", *form, "checks"], text.encode()
    yield ["p"], b"1 " + b"x" * 65534
    yield ["--generate", "3000"], b""


class Runs:
    def __init__(self, montre, folder):
        self.montre, self.folder = montre, folder
        self.count = self.wrong = self.slow = 0

    def compare(self, words, given, status, line):
        before = resource.getrusage(resource.RUSAGE_CHILDREN)
        try:
            done = subprocess.run([self.montre, *words], input=given, capture_output=True,
                                  cwd=self.folder, timeout=SECONDS)
            found = done.returncode, done.stderr
        except subprocess.TimeoutExpired:
            found = "hangs", b""
        after = resource.getrusage(resource.RUSAGE_CHILDREN)
        told = [word if len(word) < 60 else word[:60] + ".." for word in words]
        self.count += 1
        if found != (status, line):
            self.wrong += 1
            print("wrong: %s: %s %r, not %s %r" % (told, *found, status, line))
        if after.ru_utime - before.ru_utime > SLOW:
            self.slow += 1
            print("slow: %s: %.1f s" % (told, after.ru_utime - before.ru_utime))

    def run_within(self, words, given, kilobytes):
        """The end of a run that may have so much memory: the status and both outputs."""
        def limit():
            resource.setrlimit(resource.RLIMIT_AS, (kilobytes << 10, kilobytes << 10))

        self.count += 1
        try:
            done = subprocess.run([self.montre, *words], input=given, capture_output=True,
                                  cwd=self.folder, timeout=SECONDS, preexec_fn=limit)
        except subprocess.TimeoutExpired:
            return "hangs", b"", b""
        return done.returncode, done.stdout, done.stderr

    def least(self):
        """With so many kilobytes the system starts the program, and there is room for its stack."""
        kilobytes = 1000
        while self.run_within(["--show", nested("(p;", ")", 199)], b"", kilobytes)[0] != 0:
            kilobytes += 100
        return kilobytes

    def compare_memory(self, words, given, least):
        """More and more memory, up to enough: until then there is too little, and that is told."""
        whole, kilobytes, found = self.run_within(words, given, 4 << 20), least, None
        assert whole[0] in (0, 9, 13)
        while found != whole:
            found = self.run_within(words, given, kilobytes)
            as_it_comes = "--online" in words or "--watch" in words
            is_cut = whole[1].startswith(found[1]) if as_it_comes else found[1] == b""
            if found != whole and not ((found[0], found[2]) == MEMORY and is_cut):
                self.wrong += 1
                print("wrong: %s within %d kB: %s %r, and %d of %d bytes are printed"
                      % (words, kilobytes, found[0], found[2], len(found[1]), len(whole[1])))
            kilobytes += kilobytes // 12

    def compare_pattern(self, pattern, refusal):
        """A pattern in each place in which one may stand."""
        text, dump = lines_of(TRACE).encode(), ["--format", "vcd", "--online"]
        status, line = 0, b""
        if refusal:
            status, line = 3, b"montre: expression: " + refusal.encode() + b"\n"
        is_quick = pattern != STARS
        for words in ([], ["--show"], ["--normal"], *([["--online"]] if is_quick else [])):
            self.compare([*words, pattern], text, status, line)
        if refusal:
            self.compare([*dump, pattern], b"", status, line)
            status, line = 10, line.replace(b"montre: ", b"montre: minus ")
        self.compare(["--minus", pattern, "p"], text, status, line)
        if refusal:
            status, line = 12, line.replace(b"minus expression", b"watch: Pattern at 1")
        # In a file of checks a line feed ends the pattern.
        with open(os.path.join(self.folder, "check"), "w", encoding="utf-8", newline="") as file:
            file.write("at =" + pattern.replace("\n", "\t"))
        if is_quick:
            self.compare(["--watch", "check"], text, status, line)


def main():
    if len(sys.argv) != 2:
        sys.exit("usage: python3 bench/agree/limits.py PATH_OF_MONTRE")
    resource.setrlimit(resource.RLIMIT_STACK, (STACK, STACK))
    with tempfile.TemporaryDirectory() as folder:
        runs = Runs(os.path.abspath(sys.argv[1]), folder)
        for pattern, refusal in AT_LIMITS:
            runs.compare_pattern(pattern, refusal)
        for words, given, status, line in [*INPUTS, *wide_vectors(), *check_files(folder)]:
            runs.compare(words, given, status, line)
        for words, status, line in NUMBERS:
            runs.compare(words, b"1 p\n1\n1 p", status, line)
        least = runs.least()
        for words, given in memory_runs(folder):
            runs.compare_memory(words, given, least)
    print("%d patterns, %d runs, %d slow, %d wrong"
          % (len(AT_LIMITS), runs.count, runs.slow, runs.wrong))
    sys.exit(1 if runs.wrong else 0)


if __name__ == "__main__":
    main()
