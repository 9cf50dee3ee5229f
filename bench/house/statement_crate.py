"""All definitions that the promise of a run stands on, as one crate, which the prover then reads.

Nothing else is in it: so a definition that was missed is a word that isn't known there.
"""

import os
import re
import shutil
import subprocess
import sys
import tempfile

from reached import CRATES, USE, words_of

NAME = "statement"
GHOST = re.compile(r"^ghost use .*?;$", re.MULTILINE)
SPECS = re.compile(r"^use Rattle\..*$", re.MULTILINE)
PATH = re.compile(r"Rattle\.(\w+)\.specs\.(\w+(?:\.\w+)*)")
LISTED = re.compile(r"\{(.*)\}")
PLAIN = re.compile(r"^[\s\w'-]*[A-Za-z][\s\w'-]*$")
HIDDEN = re.compile(r"^(\s*)(?:pub(?:\([a-z]+\))? )?(?=struct |enum |const |\w+: )", re.MULTILINE)
DERIVED = re.compile(r"^#\[derive\((.*)\)\]\n(?:pub(?:\(crate\))? )?(?:struct|enum) (\w+)",
                     re.MULTILINE)


def module_of(file):
    """The module of the crate in which the definitions of a file stand: src/lib.rt has its own."""
    crate, _, path = file.split("/", 2)
    return "%s_%s" % (crate, path.rsplit(".", 1)[0].replace("/", "_"))


def moved(found):
    """A path of specs/ as it is in the crate, where the project has it, and else as it is."""
    crate, path = found.groups()
    if not os.path.isdir(os.path.join(CRATES, crate)):
        return found.group(0)
    parts = path.split(".")
    if parts[0] != "declared":
        return "Rattle.%s.specs.%s_%s" % (NAME, crate, "_".join(parts))
    names = [part for part in parts[1:] if part[0].islower()] or ["lib"]
    types = [part for part in parts[1:] if not part[0].islower()]
    return ".".join(["Rattle", NAME, "specs.declared", "_".join([crate] + names)] + types)


def imported(line, words):
    """An import with those of its words that are used, and no line where none is."""
    if LISTED.search(line) is None:
        used = line.rstrip(";").rsplit(" ", 1)[1] in words
        return PATH.sub(moved, line) if used else None
    kept = [word.strip() for word in LISTED.search(line).group(1).split(",")
            if word.strip().split(" ")[-1] in words or not PLAIN.search(word)]
    return PATH.sub(moved, LISTED.sub("{%s}" % ", ".join(kept), line)) if kept else None


def imports(pattern, text, words):
    lines = [imported(found.group(0), words) for found in pattern.finditer(text)]
    return "\n".join(line for line in lines if line)


def specs_text(file, blocks):
    head = imports(SPECS, file.text, words_of("\n".join(blocks)))
    return head + "\n\n" + "\n\n".join(blocks) + "\n"


def is_contract(block):
    return block.startswith("pub fn")


def rust_block(block, derived):
    """A type, a constant, a trait, or the contract of a function, as a method of a trait."""
    text = re.sub(r"^ *///.*\n", "", block, flags=re.MULTILINE)
    if is_contract(block):
        return "pub trait Promise {\n%s;\n}" % text.replace("pub fn", "fn", 1)
    if block.startswith("pub trait"):
        return text
    declared, *model = text.split("\n\nimpl ", 1)
    if " enum " not in " " + declared.split("\n")[0]:
        declared = HIDDEN.sub(r"\1pub ", declared)
    else:
        declared = re.sub(r"^(pub(\(crate\))? )?enum", "pub enum", declared)
    kept = [what for what in derived if what in ("Clone", "Copy", "Drop")]
    return "".join(["#[derive(%s)]\n" % ", ".join(kept) if kept else "", declared]
                   + ["\n\nimpl " + rest for rest in model])


def rust_text(walk, file, blocks):
    derived = {name: what.split(", ") for what, name in DERIVED.findall(file.text)}
    words = words_of("\n".join(blocks))
    lines = []
    for word, path in sorted(file.uses().items()):
        if word not in words:
            continue
        place = walk.declared(file, word)
        lines.append("use %s::%s;" % ("crate::" + module_of(place) if place else path, word))
    head = imports(GHOST, USE.sub("", file.text), words)
    body = [rust_block(block, derived.get(blocks[block], [])) for block in blocks]
    return "\n\n".join([head, "\n".join(lines)] + body) + "\n"


def is_left(name, word, without):
    """Whether this definition of a file stays: one is left out by its word, or by FILE:WORD."""
    return without not in (word, "%s:%s" % (name, word))


def write(folder, walk, texts, without=None):
    """Writes a repository with this crate alone, without the definition that is left out."""
    root = os.path.join(folder, "crates", NAME)
    for inner in ("src", "specs"):
        os.makedirs(os.path.join(root, inner))
    modules = {"src": [], "specs": []}
    kit = {crate for crate, _, _ in walk.kit if crate != "std"}
    for name in sorted(texts):
        kept = {block: word for block, word in texts[name].items()
                if is_left(name, word, without)}
        if not kept:
            continue
        file, inner = walk.file(name), name.split("/")[1]
        modules[inner].append(module_of(name))
        text = rust_text(walk, file, kept) if inner == "src" else specs_text(file, kept)
        ending = "rt" if inner == "src" else "antt"
        put(os.path.join(root, inner, "%s.%s" % (module_of(name), ending)), text)
    declared = "".join("pub mod %s;\n" % module for module in modules["src"])
    put(os.path.join(root, "src", "lib.rt"), "#![tactic(auto)]\n\n" + declared)
    put(os.path.join(root, "specs", "Lib.antt"),
        "".join("pub mod %s\n" % module for module in modules["specs"]))
    put(os.path.join(folder, "crates.txt"), "%s: %s\n" % (NAME, " ".join(sorted(kit))))
    return root


def put(path, text):
    with open(path, "w", encoding="utf-8") as opened:
        opened.write(text)


def check(walk, texts, without=None):
    """Whether the prover takes these definitions as they stand, with nothing beside them."""
    if without and all(is_left(name, word, without) for name, blocks in walk.reached.items()
                       for word in blocks.values()):
        sys.exit("statement.py: --without %s: no such definition is reached" % without)
    if not shutil.which("rt"):
        sys.exit("statement.py: --check needs `rt`, the program bin/rt of the Rattle kit, on the "
                 "path, and it isn't there; nothing was checked")
    folder = tempfile.mkdtemp(prefix="statement.")
    try:
        root = write(folder, walk, texts, without)
        ended = subprocess.run(["rt", "check", "--jobs", "1"], cwd=root, text=True, check=False,
                               stdout=subprocess.PIPE, stderr=subprocess.STDOUT)
    finally:
        shutil.rmtree(folder)
    good = ended.returncode == 0 and "\nlogic=proved " in ended.stdout
    print(ended.stdout.strip())
    print("statement.py: %s" % ("these are all: the prover takes them with nothing beside them"
                                if good else "something is missing, or wrong: see above"))
    return good
