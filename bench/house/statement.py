#!/usr/bin/env python3
"""What the promise of a run stands on: each definition that its words reach, by file.

    python3 bench/house/statement.py [--words]            counts the lines
    python3 bench/house/statement.py docs/proof.md        tells each number that the page has wrong
    python3 bench/house/statement.py --page FILE          writes docs/statement.md to this file
    python3 bench/house/statement.py --check [--without WORD]    lets the prover read them alone

reached.py says where it begins, and how it finds them. A line counts where it belongs to a
definition that is reached, with the comment above it; the `///` of a type is for who calls it, and
doesn't count. Words of the kit's library are named, and
those of its crates `clap` and `csv` followed in the same way, with a count of their own.

`--check` needs `rt`. It writes all that is reached into one crate in a temporary folder, and has it
checked there: what was missed is a word that isn't known, and the check fails. With `--without` the
definition of this word is left out, and it must fail.
"""

import argparse
import os
import re
import shutil
import subprocess
import sys

import statement_crate
import statement_page
from reached import Walk, walked

FOLLOWED = ("clap", "csv")
COMMENT = re.compile(r"\s*(--|//)")
TYPE = re.compile(r"^pub (enum|struct) ", re.M)


def counted(text):
    """The lines of a block that count."""
    for_callers = "///" if TYPE.search(text) else None
    return [line for line in map(str.strip, text.split("\n"))
            if line and not (for_callers and line.startswith(for_callers))]


def lines_in(text):
    return len(counted(text))


def comments_in(text):
    return len([line for line in counted(text) if COMMENT.match(line)])


class Statement:
    """For each file that is reached how many of its lines are, and the words that lead there."""

    def __init__(self):
        self.walk, self.texts = walked()
        self.counts = {file: (sum(map(lines_in, blocks)), " ".join(blocks.values()))
                       for file, blocks in self.texts.items()}
        self.comments = sum(comments_in(block) for blocks in self.texts.values()
                            for block in blocks)
        self.kit = {"%s %s" % (crate, word) for crate, _, word in self.walk.kit}
        self.lines = sum(lines for lines, _ in self.counts.values())

    def followed(self, crate):
        """How many words of a crate of the kit are used, and how many lines define them."""
        kit = subprocess.run(["rt", "doc"], capture_output=True, text=True, check=True).stdout
        walk = Walk(os.path.join(os.path.dirname(kit.strip()), "rattle"))
        words = [word for word in self.walk.kit if word[0] == crate]
        for word in words:
            walk.follow(*word)
        return len({word for _, _, word in words}), sum(
            lines_in(block) for blocks in walk.reached.values() for block in blocks)

    def totals(self):
        """The sentences that say how much there is in all."""
        said = ["%d lines in %d files" % (self.lines, len(self.counts)),
                "%d of them comments" % self.comments, "%d words" % len(self.kit)]
        if shutil.which("rt"):
            said += ["%d words of %s (%d lines)" % (words, crate, lines) for crate in FOLLOWED
                     for words, lines in [self.followed(crate)] if words]
        return said


def show(told, with_words):
    for file in sorted(told.counts):
        print("%5d  crates/%s" % (told.counts[file][0], file))
        if with_words:
            print("       " + told.counts[file][1])
    print("\n".join(told.totals()))
    if with_words:
        print("words of the kit: " + ", ".join(sorted(told.kit)))


def compare(told, page):
    """How many numbers of the page differ."""
    with open(page, encoding="utf-8") as opened:
        text = opened.read()
    numbers = re.findall(r"`(\w+/(?:src|specs)/[\w.]+)` (\d+)", text)
    said = {file: int(lines) for file, lines in numbers}
    found = {file: lines for file, (lines, _) in told.counts.items()}
    wrong = ["%s: %s, and the page has %s" % (file, found.get(file), said.get(file))
             for file in sorted(set(found) | set(said)) if found.get(file) != said.get(file)]
    wrong += ["the page doesn't say: " + total for total in told.totals() if total not in text]
    print("\n".join(wrong + ["%d differ" % len(wrong)]))
    return len(wrong)


def arguments():
    parser = argparse.ArgumentParser()
    parser.add_argument("--words", action="store_true")
    parser.add_argument("--page")
    parser.add_argument("--check", action="store_true")
    parser.add_argument("--without")
    parser.add_argument("numbers", nargs="?")
    asked = parser.parse_args()
    if asked.without and not asked.check:
        parser.error("--without stands beside --check")
    return asked


def main():
    asked = arguments()
    told = Statement()
    if asked.page:
        text = statement_page.page(told.walk, told.texts)
        with open(asked.page, "w", encoding="utf-8") as opened:
            opened.write(text)
    elif asked.check:
        sys.exit(0 if statement_crate.check(told.walk, told.texts, asked.without) else 1)
    elif asked.numbers:
        sys.exit(1 if compare(told, asked.numbers) else 0)
    else:
        show(told, asked.words)


if __name__ == "__main__":
    main()
