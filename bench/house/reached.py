"""What the promise of a run stands on: each definition that its words reach, file by file.

It begins with the contracts of `exit_code`, which `main` ends with, and of `run_all` (tre_tool,
src/program.rt and src/whole_run.rt), and with what a source and a sink are (tre_io), and follows
each word to its definition, through the imports of the file that it stands in, those of a whole
file under another name too: to specs/ of the project's crates, and to the types and constants that
src/ declares. A type of Rust comes with the types of its fields, and with what it is seen as.
"""

import os
import re
import sys

CRATES = os.path.join(os.path.dirname(os.path.abspath(__file__)), "..", "..", "crates")
FIRST = [("tre_tool/src/program.rt", "fn exit_code"), ("tre_tool/src/whole_run.rt", "fn run_all"),
         ("tre_io/src/source.rt", "trait Source"), ("tre_io/src/sink.rt", "trait Sink")]
IMPORT = re.compile(r"^ *(?:pub |ghost )*use Rattle\.(\w+)\.specs\.([\w.]+)\.\{(.*?)\}",
                    re.MULTILINE)
ALIAS = re.compile(r"^ *(?:pub |ghost )*use Rattle\.(\w+)\.specs\.([\w.]+) as (\w+);?$",
                   re.MULTILINE)
HEAD = re.compile(r"^(?:abbrev |unfoldable )?pub (?:record |data )?([^\s:(]+)")
TYPE = re.compile(r"^(?:pub(?:\(crate\))? )?(?:struct|enum|const) (\w+).*?(?:;|\n\})$",
                  re.MULTILINE | re.DOTALL)
MODEL = re.compile(r"^impl Model for (\w+) \{\n.*?\n\}$", re.MULTILINE | re.DOTALL)
MODULE_OF = re.compile(r"^module ", re.MULTILINE)
MODULE = re.compile(r"^use crate::(\w+);", re.MULTILINE)
USE = re.compile(r"^(?:pub )?use ([\w:]+)::(?:(\w+)|\{([\w, \n]+)\});", re.MULTILINE)
WORD = re.compile(r"[\w'-]*[A-Za-z][\w'-]*")


def words_of(text):
    """The words of a text, but for those of its comments."""
    return set(WORD.findall(re.sub(r"(--|//).*", "", text)))


class File:
    """A file of a crate: its definitions by name, and where each imported word comes from."""

    def __init__(self, folder, name):
        self.name = name
        with open(os.path.join(folder, name), encoding="utf-8") as opened:
            self.text = opened.read()
        self.imports, self.items = {}, {}
        self.aliases = {alias: (crate, path) for crate, path, alias in ALIAS.findall(self.text)}
        for crate, path, words in IMPORT.findall(self.text):
            for word in words.split(","):
                old, _, new = word.strip().partition(" as ")
                self.imports[new or old] = (crate, path, old)
        if "/src/" in name:
            self.read_rust()
        else:
            self.read_specs()

    def read_specs(self):
        # a definition stands between blank lines, with its comment above it, and what is inside a
        # module together
        for block in self.blocks():
            inner = re.sub("^  ", "", block, flags=re.M) if MODULE_OF.search(block) else block
            heads = [found.group(1) for line in inner.split("\n") if (found := HEAD.match(line))]
            # a constructor stands for its type
            if "pub data" in block:
                heads += [word for words in re.findall(r"^ +([\w ]+) : ", block, re.MULTILINE)
                          for word in words.split()]
            self.items.update((head, block) for head in heads)

    def blocks(self):
        """What stands between blank lines; a module with all that is inside it is one."""
        found = []
        for block in self.text.split("\n\n"):
            block = block.rstrip("\n")
            if block[:1] == " " and found and MODULE_OF.search(found[-1]):
                found[-1] += "\n\n" + block
            else:
                found.append(block)
        return found

    def read_rust(self):
        self.items = {found.group(1): found.group(0) for found in TYPE.finditer(self.text)}
        # what values of a type are seen as is part of the type
        for found in MODEL.finditer(self.text):
            if found.group(1) in self.items:
                self.items[found.group(1)] += "\n\n" + found.group(0)
        for module in MODULE.findall(self.text):
            for word in re.findall(r"\b%s::([A-Z_]+)\b" % module, self.text):
                self.imports[word] = (self.crate(), "declared." + module, word)

    def crate(self):
        return self.name.split("/")[0]

    def uses(self):
        """The Rust imports: for each word the path that it comes from."""
        return {word.strip(): path for path, one, more in USE.findall(self.text)
                for word in (one or more).split(",")}


def file_of(crate, path):
    """The file that a module of specs/ is: src/ has those of the types that it declares."""
    parts = path.split(".")
    if parts[0] != "declared":
        return "%s/specs/%s.antt" % (crate, "/".join(parts))
    names = [part for part in parts[1:] if part[0].islower()]
    return "%s/src/%s.rt" % (crate, "/".join(names or ["lib"]))


class Walk:
    """What is reached in the crates of a folder, and which words of other crates."""

    def __init__(self, folder):
        self.folder, self.files, self.reached, self.kit = folder, {}, {}, set()

    def file(self, name):
        if name not in self.files:
            self.files[name] = File(self.folder, name)
        return self.files[name]

    def words(self, file, text):
        """Follows each word of a text that stands in a file."""
        for alias, (crate, path) in file.aliases.items():
            for word in re.findall(r"\b%s\.([\w'-]+)" % alias, text):
                if word in self.file(file_of(crate, path)).items:
                    self.follow(crate, path, word)
            text = re.sub(r"\b%s\.[\w'-]+" % alias, "", text)
        for word in words_of(text):
            if word in file.items:
                self.reach(file, word)
            elif word in file.imports:
                self.follow(*file.imports[word])
            elif "/src/" in file.name and self.folder == CRATES:
                self.rust(file, word)

    def rust(self, file, word):
        """Follows the name of a type to the file that declares it."""
        place = self.declared(file, word)
        if place and word in self.file(place).items:
            self.reach(self.file(place), word)

    def declared(self, file, word):
        """The file of the project from which a file of Rust has this word, if there is one."""
        path = file.uses().get(word, "").split("::")
        crate = file.crate() if path[0] in ("crate", "") else path[0]
        if path == [""] or not os.path.isdir(os.path.join(self.folder, crate)):
            return None
        if path[0] == "crate":
            return "%s/src/%s.rt" % (crate, "/".join(path[1:] or ["lib"]))
        root = self.file("%s/src/lib.rt" % crate)
        inner = root.uses().get(word)
        return "%s/src/%s.rt" % (crate, inner.replace("::", "/") if inner else "lib")

    def follow(self, crate, path, word):
        if not os.path.isdir(os.path.join(self.folder, crate)) or crate == "std":
            self.kit.add((crate, path, word))
            return
        # of a type's variants and constants the type is what is declared
        parts = [part for part in path.split(".") if part[0].isupper() and part[:3] != "The"]
        there = self.file(file_of(crate, path))
        self.reach(there, parts[-1] if "declared" in path and parts else word)

    def reach(self, file, word):
        block = file.items.get(word)
        if block is None and word in file.imports:
            self.follow(*file.imports[word])
            return
        if block is None and self.folder != CRATES:
            return
        if block is None:
            sys.exit("statement.py: no definition of %s in %s" % (word, file.name))
        if block in self.reached.setdefault(file.name, {}):
            return
        self.reached[file.name][block] = word
        self.words(file, block)


def contract_of(file, name):
    """The signature of a function with its clauses, or a whole trait, as the file has it."""
    begin = file.text.index("pub %s" % name)
    end = re.compile(r"\n *\{\n" if name[:2] == "fn" else r"\n\}(?=\n)")
    found = end.search(file.text, begin)
    return file.text[begin:found.start() if name[:2] == "fn" else found.end()]


def walked():
    """The walk from the first words, and for each file the texts that count, in its order."""
    walk, texts = Walk(CRATES), {}
    for name, item in FIRST:
        file = walk.file(name)
        texts.setdefault(name, {})[contract_of(file, item)] = item
        walk.words(file, contract_of(file, item))
    for name, blocks in walk.reached.items():
        texts.setdefault(name, {}).update(blocks)
    for name, blocks in texts.items():
        text = walk.file(name).text
        order = sorted(blocks, key=lambda block, text=text: text.index(block.split("\n\n")[0]))
        texts[name] = {block: blocks[block] for block in order}
    return walk, texts
