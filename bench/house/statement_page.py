"""The definitions themselves, as docs/statement.md has them: what a reader believes, in an order.

It takes the page's headings and sentences from here, and all else from the files. It stops where a
file has no section, where a law has no such name any more, and where a word of its own is gone.
"""

import os
import re
import sys
from collections import Counter

from reached import CRATES, file_of, words_of

HEAD = """# The statement

All definitions that say what is proved of a run, as they stand in the code, and no other. Who \
believes them, and the few things below, has to read no other file: no code, no contract, no proof.

[bench/house/statement.py](../bench/README.md#statementpy) writes this page: it begins with the \
contract of the program, and follows each word to its definition. With `--check` it hands just \
these definitions to the prover, with nothing beside them, so none is missing. \
[examples/run.sh](../examples/run.sh) refuses a page that it wouldn't write. \
[meaning.md](meaning.md) says the larger definitions in words, and [proof.md](proof.md#the-chain) \
counts them.

## The theorem

The program is this `main`. It has no contract, so read it:

```rust
@MAIN@
```

`exit_code`, and `run_all`, which it calls, meet their contracts, which stand under \
[a run](#a-run). **In a line:** whatever the arguments, the input and the failures, a run returns, \
and ends as `EndsAs` says; where it ends with `Done` and its streams say their bytes, the zones \
that it wrote for a pattern hold a/n and b/n, for all whole a ≤ b and n ≥ 1, exactly where \
`Matches tree trace a b n`. `EndsAs` says it with all corners, such as `--minus`, and of each \
other status too.

## What is believed

- That the definitions below say what you mean by a match, a trace, a pattern and a printed answer.
- That the prover and the compiler are right.
- The contracts of the C functions by which the program reaches the system: assumed, and counted \
by each build.
- `main`, and that `FileSource` and `StdSink` read and write the bytes of the files that they are \
asked for. A real file says no bytes, so no clause can say it of one; [proof.md](proof.md) says \
what that comes to.
- The words of the kit's library that stand in the definitions, listed [at the \
end](#words-of-the-kit).

[proof.md](proof.md#what-is-trusted) says more of each, and what is [only \
tested](proof.md#what-is-only-tested).

## How to read a definition

| written | means |
|---|---|
| `f : A → B → T`, and lines `f x y = ..` | what f gives for an A and a B, case by case; the first \
line that fits counts. Where T is `Type 0`, f is a statement about them |
| `record R .. where pub a : ..` | all of these together: a statement that is true where each of \
them is, or data with these fields. `r.a` is one of them |
| `data D .. where c : ..` | what these lines give, and nothing else; each is a rule, or a form \
that a value has |
| `A × B`, `A ⊎ B`, `A → B`, `A ↔ B`, `¬ A` | and, or, if A then B, exactly if, not |
| `Unit {0}`, `⊥` | always, never |
| `(x : T) → ..`, `(x : T) × ..` | for each x; for some x |
| `{T : Type 0} → ..`, `_` | for any T, which isn't written where f is used; what stands there is \
of no account |
| `x ≡ y`, `x ≢ y`, `IsTrue x` | they are the same; they differ; x is true |
| `==`, `&&`, `\\|\\|`, `not`, `if x then y else z` | tests, which give true or false, and what \
hangs on one |
| `[]`, `x ∷ xs`, `xs ++ ys` | the empty list; x and then the list xs; one list behind another |
| `Some x`, `None`, `IfSome o P` | an x; none; P holds of it if there is one |
| `f x y`, `λ x. y` | f of x and y; the function that gives y for x |
| `record { a = x }`, `record r { a = x }` | the data whose a is x; r, but for its a, which is x |
| `ℕ`, `ℤ`, `≤ℤ`, `pos n`, `negsuc n`, `suc n` | whole numbers from 0; all whole numbers; a sign \
for those; n; -(n + 1); n + 1 |
| `x - y`, `x / y`, `x % y`, `x ^ y` | of ℕ: the difference, or 0 where y is larger; rounded down; \
what is left over; a power |
| `List ℕ`, `codes "end "` | bytes; the bytes of this text |
| `requires`, `ensures`, `x.old`, `x.new`, `x.now` | what a call asks for, and what it promises; \
of x before the call, after it, and where the call leaves it |
| `impl Model for T` | what the definitions see in place of a T: a `Value`, by its `view` |

A line that begins with `--` is a comment, of specs/; so are those with `//` and `///`, of code. \
`abbrev`, `unfoldable`, `pub` and `ghost` say nothing that a reader needs. Where several files \
have a name, or a file calls it by another one, "Names from elsewhere" says whose it is; each \
other name stands in the same file, or in one alone.

Who has ten minutes reads @FIRST@.
"""

FIRST_READ = [("A match", ["Matches", "HasEdge", "HoldsBetween"]), ("An answer", ["AreZonesOf"]),
              ("A run", ["fn run_all", "EndsAs", "RunIsComplete"]),
              ("What is asked", ["GivesJob"]), ("A pattern's text", ["Spells"]),
              ("A text trace", ["line_says"])]

# title, what it says, its files in their order (a crate for all that are left of it), the laws by
# crate that say the same otherwise
SECTIONS = [
    ("A match",
     "Which stretches of a trace a pattern matches. A stretch is a/n and b/n, two times in ticks, "
     "and a, b and n are whole numbers.",
     ["tre_syntax/specs/Meaning", "tre_pairs/specs/Pairs", "tre_syntax/specs/PatternTree",
      "tre_state/specs/StateTree", "tre_trace/specs/Trace", "tre_trace/src/segment",
      "tre_trace/specs/Segments", "tre_pairs/src/lib", "tre_syntax/specs/Rest",
      "tre_trace/specs/Literal", "tre_zone/specs/Interval"],
     {"tre_syntax": ["literals", "edges", "events", "at_the_end", "scaling", "bounds", "grouping",
                     "repeating", "splitting", "growing", "cutting_off", "numbering"],
      "tre_syntax/src/cut": ["parts", "moments", "literals", "edges", "events", "sequences",
                             "alternations", "intersections", "repetitions", "restrictions"]}),
    ("An answer",
     "Zones that hold just the pairs that are wanted, none within another, each as tight as its "
     "pairs allow; and the lines that tell them.",
     ["tre_answer/specs/Wanted", "tre_zone/specs/ZoneList", "tre_zone/specs/Zone",
      "tre_zone/src/zone_bounds", "tre_zone/src/bound", "tre_zone/specs/Bound",
      "tre_show/specs/Line", "tre_zone/specs/Ranges", "tre_zone", "tre_show/specs/Interval",
      "tre_show/specs/Order"],
     {"tre_answer": ["printed_answer", "both_ways", "one_canonical_answer",
                     "parts_of_a_difference"],
      "tre_show": ["line_tells_zone", "shown_zones", "one_text", "one_front", "line_order"],
      "tre_zone": ["canonical_bounds", "canonical_ranges", "scaling"]}),
    ("A run",
     "How a run ends, status by status: what the status means, its cause, and what was read and "
     "written; the line and the exit code of each.",
     ["tre_tool/src/program", "tre_tool/specs/Program", "tre_tool/src/whole_run",
      "tre_tool/src/status", "tre_tool/specs/Run", "tre_tool/specs/Status",
      "tre_answer/specs/Ends", "tre_tell/specs/Ends", "tre_tell/specs/Streams",
      "tre_feed/specs/Input", "tre_tell/specs/Outputs"],
     {"tre_tool": ["one_request", "given_job", "made_run"]}),
    ("What is asked",
     "Which arguments give a job, and which; its patterns and definitions; and which texts are "
     "refused, with which fault.",
     ["tre_words/src/job", "tre_words/specs/Settings", "tre_words", "tre_tool/specs/Request",
      "tre_tell/specs/Request", "tre_tell/specs/Sought"],
     {"tre_words": ["one_job", "given_is_job", "job_by_clap"], "tre_tool": ["one_request"]}),
    ("A pattern's text",
     "Which pattern a text spells, or which refusal comes first.",
     ["tre_state/src/name", "tre_state/specs/Name", "tre_parse/specs/Words",
      "tre_parse/specs/Grammar", "tre_parse/specs/Outcome", "tre_parse", "tre_syntax",
      "tre_state"],
     {"tre_parse": ["one_spelling", "some_outcome", "one_outcome", "outcome_is_spelt", "strength",
                    "state_strength", "longest_word", "longest_token", "longest_sign",
                    "beginnings"]}),
    ("A text trace",
     "What all inputs share: a recording, the first fault, the trace that it is for the names of a "
     "pattern, and decimals. Then what lines of text say.",
     ["tre_answer/specs/Recorded", "tre_trace/specs/Reading", "tre_trace/src/fault",
      "tre_feed/specs/Comes", "tre_feed/specs/Outcome", "tre_feed/specs/Traces", "tre_trace",
      "tre_parts/specs/Format", "tre_parts", "tre_text", "tre_decimal"],
     {"tre_text": ["reading", "last_line", "fields", "naming"], "tre_trace": ["naming"],
      "tre_parts": ["separators"],
      "tre_decimal": ["written_is_read", "one_number", "exact", "whole_numbers"]}),
    ("A dump",
     "What the tokens of a value change dump say, one after the other.",
     ["tre_vcd", "tre_unit"],
     {"tre_vcd": ["reading", "looks_back", "lowest_bits"]}),
    ("Tables, and definitions of names",
     "What the rows of a table say; and what a text of definitions says, of columns and of the "
     "signals of a dump.",
     ["tre_num/specs/Rows", "tre_num", "tre_define/specs/Texts", "tre_define/specs/Signals",
      "tre_define/specs/Named", "tre_define/specs/Values", "tre_define"],
     {"tre_define": ["some_reading", "one_reading", "one_fault", "definitions_are_read"],
      "tre_num": ["some_reading", "one_reading", "one_fault", "definitions_are_read"]}),
    ("Files of checks",
     "Which checks a file says, with their patterns and definitions, or which fault it has first; "
     "and what was read of it.",
     ["tre_tool/specs/Checks", "tre_tool", "tre_watch/specs/Outcome", "tre_watch",
      "tre_feed/specs/Front"],
     {"tre_watch": ["some_outcome", "one_outcome"], "tre_tool": ["one_request"]}),
    ("Verdicts",
     "Whether a check holds over a trace, what may still become a match at its end, what is shown of "
     "a check, and the text of all of them.",
     ["tre_answer/specs/Findings", "tre_judge/specs/Verdicts", "tre_judge", "tre_syntax/specs/Begun",
      "tre_compose", "tre_pairs"],
     {"tre_judge": ["failing_is_unanswered"], "tre_answer": ["one_checked_text"],
      "tre_syntax": ["late_had_begun", "failures_are_final"]}),
    ("Blocks",
     "What is written while the input comes: a block for each stretch, with the lines of each "
     "pattern, and what the end completes.",
     ["tre_tell/specs/Online", "tre_tell/specs/Transcript", "tre_tell/specs/Blocks", "tre_tell",
      "tre_feed", "tre_answer"],
     {"tre_tell": ["one_pattern_text", "one_online_text", "one_watch_text", "one_watch_front",
                   "told_is_canonical", "told_in_lines", "told_for_good", "told_in_all"],
      "tre_answer": ["told_for_good", "printed_answer"]}),
    ("Strips",
     "The one list of zones that a set of pairs has, which `--normal` prints.",
     ["tre_strips/specs/Strips", "tre_strips/specs/Runs", "tre_strips/specs/Profile",
      "tre_strips"],
     {"tre_strips": ["one_list"], "tre_answer": ["one_canonical_answer"]}),
    ("A pattern shown, and a made run",
     "The text of a pattern, which `--show` writes; and what `--generate` writes of its trace.",
     ["tre_show", "tre_generate/specs/Summary", "tre_generate", "tre_offline"],
     {"tre_tool": ["made_run"]}),
    ("Sources and sinks",
     "Where bytes come from and go to, and what a source and a sink say of them.",
     ["tre_io"], {}),
]


def belongs(file, pattern):
    """Whether a file is the one named, without its ending, or one of the crate that is."""
    return file.rsplit(".", 1)[0] == pattern or file.split("/")[0] == pattern


def sections_of(files):
    """For each section its files: the names before the crates, each file once."""
    placed = {}
    for exact in (True, False):
        for number, (_, _, patterns, _) in enumerate(SECTIONS):
            for place, pattern in enumerate(patterns):
                if ("/" in pattern) == exact:
                    for file in files:
                        if belongs(file, pattern):
                            placed.setdefault(file, (number, place))
    left = sorted(set(files) - set(placed))
    if left:
        sys.exit("statement.py: no section of the page has " + ", ".join(left))
    return [sorted((file for file in files if placed[file][0] == number),
                   key=lambda file: (placed[file], file)) for number in range(len(SECTIONS))]


def law_file(crate):
    return (crate if "/" in crate else crate + "/src/laws") + ".rt"


def laws_line(laws):
    """The names of the laws, each with its crate; each must stand there."""
    said = []
    for crate, names in laws.items():
        path, there = os.path.join(CRATES, law_file(crate)), set()
        if os.path.isfile(path):
            with open(path, encoding="utf-8") as opened:
                there = set(re.findall(r"^pub fn (\w+)[(<]", opened.read(), re.MULTILINE))
        if set(names) - there:
            sys.exit("statement.py: no law %s in %s" % (sorted(set(names) - there), crate))
        said.append("%s of [%s](../crates/%s)" % (
            ", ".join("`%s`" % name for name in names), crate.replace("/src/", ", ") + ".rt"
            if "/" in crate else crate, law_file(crate)))
    return "Laws that say the same otherwise: %s.\n" % "; ".join(said) if said else ""


def about(file):
    """What a file of definitions says of itself: the comment that it begins with."""
    lines = []
    for line in file.text.split("\n"):
        if not line.startswith("-- "):
            break
        lines.append(line[3:])
    return " ".join(lines)


def names_in(file, blocks):
    """The names that the definitions of a file give: their own, and those of their forms."""
    names = [name for name, block in file.items.items() if block in blocks]
    if file.name.endswith(".rt"):
        for block in blocks:
            if "enum " in block:
                names += re.findall(r"^    (\w+)(?=[,({ ])", block, re.MULTILINE)
    return names


def place_of(crate, path, word=None):
    """Where an import finds its words: a type of Rust, or a file."""
    types = [part for part in path.split(".") if part[0].isupper() and part[:3] != "The"]
    if path.startswith("declared") and types and types[-1] != word:
        return types[-1]
    return file_of(crate, path)


def borrowed(file, blocks, counts):
    """Which names of other files have another name here, or stand in several files."""
    words, said = words_of("\n".join(blocks)), {}
    for new, (crate, path, old) in sorted(file.imports.items()):
        if new not in words or not os.path.isdir(os.path.join(CRATES, crate)):
            continue
        if old != new or counts[old] > 1:
            name = "`%s`" % new if old == new else "`%s` (there `%s`)" % (new, old)
            said.setdefault(place_of(crate, path, old), []).append(name)
    for alias, (crate, path) in sorted(file.aliases.items()):
        for word in sorted(set(re.findall(r"\b%s\.(\w+)" % alias, "\n".join(blocks)))):
            said.setdefault(place_of(crate, path), []).append("`%s.%s`" % (alias, word))
    names = ["%s of `%s`" % (", ".join(names), place) for place, names in sorted(said.items())]
    return "Names from elsewhere: %s.\n" % "; ".join(names) if said else ""


def with_remarks(file, blocks):
    """The definitions of a file of specs/, with the remarks and headings that stand before them."""
    kept, remarks = [], {}
    for block in file.blocks():
        if all(line.startswith("--") for line in block.split("\n")):
            remarks = {} if block.startswith("-- ----") else remarks
            remarks["heading" if block.startswith("-- ----") else "remark"] = block
            continue
        if block in blocks:
            kept += list(remarks.values()) + [block]
            remarks = {}
        remarks.pop("remark", None)
    if set(blocks) - set(kept):
        sys.exit("statement.py: a definition of %s isn't between blank lines" % file.name)
    return kept


def file_part(file, blocks, counts):
    parts = ["### [%s](../crates/%s)\n" % (file.name, file.name)]
    specs = file.name.endswith(".antt")
    said = [about(file) + "\n" if specs else "", borrowed(file, blocks, counts)]
    parts += [text for text in said if text]
    text = "\n\n".join(with_remarks(file, blocks) if specs else blocks)
    parts.append("```%s\n%s\n```\n" % ("antt" if specs else "rust", text))
    return "\n".join(parts)


def rust_words(walk, texts):
    """The traits and types of the kit that contracts and types of Rust name."""
    return sorted({word for name, blocks in texts.items() if name.endswith(".rt")
                   for word in walk.file(name).uses()
                   if word in words_of("\n".join(blocks))
                   and not walk.declared(walk.file(name), word)})


def kit_part(walk, texts):
    words = {}
    for crate, _, word in walk.kit:
        words.setdefault(crate, set()).add(word)
    words["std, in Rust"] = set(rust_words(walk, texts))
    lines = ["- of %s: %s" % (crate, ", ".join("`%s`" % word for word in sorted(words[crate])))
             for crate in sorted(words)]
    return ("## Words of the kit\n\nWords that the definitions take from the kit's library, beside "
            "signs. `rt doc` says where it is; its pages and definitions say what they mean.\n\n"
            + "\n".join(lines) + "\n")


def link_to(title):
    return "[%s](#%s)" % (title[0].lower() + title[1:],
                          re.sub(r"[^\w -]", "", title.lower()).replace(" ", "-"))


def first_read(walk, texts, sections):
    """The words that matter first, each in its section."""
    said = []
    for title, words in FIRST_READ:
        number = [title for title, _, _, _ in SECTIONS].index(title)
        there = {word for file in sections[number]
                 for word in [*texts[file].values(), *names_in(walk.file(file), texts[file])]}
        if set(words) - there:
            sys.exit("statement.py: no definition of %s in %s" % (words, title))
        said.append("%s (%s)" % (", ".join("`%s`" % word.replace("fn ", "") for word in words),
                                 link_to(title)))
    return ", ".join(said)


def page(walk, texts):
    """The whole page."""
    sections = sections_of(texts)
    counts = Counter(name for file, blocks in texts.items()
                     for name in set(names_in(walk.file(file), blocks)))
    with open(os.path.join(CRATES, "montre/src/main.rt"), encoding="utf-8") as opened:
        main = opened.read().rstrip("\n")
    parts = [HEAD.replace("@MAIN@", main).replace("@FIRST@", first_read(walk, texts, sections))]
    for (title, what, _, laws), files in zip(SECTIONS, sections):
        parts.append("## %s\n\n%s\n" % (title, what))
        parts.append(laws_line(laws))
        parts += [file_part(walk.file(file), texts[file], counts) for file in files]
    return "\n".join(part for part in parts + [kit_part(walk, texts)] if part)
