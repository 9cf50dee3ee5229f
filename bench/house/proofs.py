"""Which functions of a crate cost the most to prove, and on what.

usage: python3 bench/house/proofs.py CRATE [ROWS]

CRATE is a crate that was checked from nothing by one process: remove crates/CRATE/out, and call
`rt check --jobs 1` in the crate, with nothing else going on. The times are those between the files
that the check has kept, in the order in which it wrote them.
"""

import os
import re
import sys

ROOT = os.path.join(os.path.dirname(os.path.abspath(__file__)), "..", "..", "crates")
KINDS = {"Lts": "body", "Proof": "open", "Answers": "answers"}
PARTS = ("Lts Tie Proof Answers Goals Invariants Statement Met Code Kinds Layout Symbol TheLink "
         "Reads Given Named").split()


def kept(crate):
    """The files that a check has kept: when each was written, its size, and its module."""
    found = []
    for folder, _, names in os.walk(os.path.join(ROOT, crate, "out", "incremental")):
        for name in names:
            if name.endswith(".oantt"):
                file = os.stat(os.path.join(folder, name))
                module = name[:-len(".oantt")].replace(".decls", "")
                found.append((file.st_mtime_ns, file.st_size, module))
    return sorted(found)


def place_of(crate, module):
    """The function that a module belongs to, and its part of the proof; or the module alone."""
    prefix = "Rattle-%s-proofs." % crate
    if not module.startswith(prefix):
        return module, None
    words = module[len(prefix):].split(".")
    for place, word in enumerate(words):
        if place > 0 and re.split("-", word)[0] in PARTS:
            return ".".join(words[:place]), word
    return ".".join(words), None


def main():
    if len(sys.argv) < 2:
        sys.exit(__doc__)
    crate, rows = sys.argv[1], int((sys.argv[2:] or ["20"])[0])
    files = kept(crate)
    if not files:
        sys.exit("%s has no kept work: check it first" % crate)
    functions, others, last = {}, {}, files[0][0]
    for time, size, module in files:
        name, part = place_of(crate, module)
        seconds, last = (time - last) / 1e9, time
        if part is None:
            others[name] = others.get(name, 0.0) + seconds
            continue
        row = functions.setdefault(name, dict.fromkeys(["all", "body", "MB", "open", "answers"], 0))
        row["all"] += seconds
        kind = KINDS.get(part.split("-")[0])
        if kind:
            row[kind] += seconds
        if kind == "body":
            row["MB"] += size / 1e6
    print("%d functions, %.0f s; the lemmas and the rest, %.0f s\n" % (
        len(functions), sum(row["all"] for row in functions.values()), sum(others.values())))
    print("| function | seconds | its body | MB of it | goals without an answer | answers |")
    print("|---|--:|--:|--:|--:|--:|")
    for name, row in sorted(functions.items(), key=lambda pair: -pair[1]["all"])[:rows]:
        cells = "%.1f | %.1f | %.1f | %.1f | %.1f" % (
            row["all"], row["body"], row["MB"], row["open"], row["answers"])
        print("| %s | %s |" % (name, cells))
    print("\n| module of lemmas, or another | seconds |\n|---|--:|")
    for name, seconds in sorted(others.items(), key=lambda pair: -pair[1])[:rows // 2]:
        print("| %s | %.1f |" % (name, seconds))


if __name__ == "__main__":
    main()
