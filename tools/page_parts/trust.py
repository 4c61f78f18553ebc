"""What to read to believe a statement: the definitions that its words reach, by file, counted in lines.

A word counts wherever it occurs in a definition that is reached, also as the name of a variable: so a table may have a definition
too many, and none too few. Of a Rust type the declaration counts, and the types of its public fields.
"""
import re
import sys
from collections import namedtuple
from itertools import groupby
from pathlib import Path

# Each root: its key, its name, and the words of the statement, spelled as in a `use` line.
ROOTS = [
    ("log", "A legal log", ["Rattle.bench_history.specs.Next.{IsLegal}"]),
    ("step", "One step of the kernel", [
        "Rattle.bench_kernel.specs.Steps.{IsStep}",
        "Rattle.bench_kernel.specs.Kernels.{open_need}",
        "Rattle.bench_kernel.specs.declared.kernels.Step.{Step}",
        "Rattle.uvm_object.specs.declared.objects.UvmObject.{UvmObject}"])]
# The definitions of reading a script: no root may reach them.
READING = {"bench_script/specs/Documents.antt", "script_tables/specs/Tables.antt", "script_tables/specs/ReportTables.antt"} | {
    "script_values/specs/" + name for name in ("Elements.antt", "Keys.antt", "Places.antt", "Reading.antt", "Values.antt")}

CRATES = Path(__file__).resolve().parents[2] / "crates"
USE = re.compile(r"^\s*(?:pub |ghost )*use (\w[\w.:]*\w)(?:(?:\.|::)\{([^}]*)\})?(?: as (\w+))?;?$", re.M)
# A definition of specs/ ends at a blank line before a comment or a signature; the head of a module counts with its first definition. A
# definition of src/ is a declaration with its comments.
BLOCK = re.compile(r"^(?! *(?:pub )?use ).+\n(?:.+\n|\n(?! *--| *(?:abbrev |unfoldable )?pub |module |\n))*", re.M)
SIGNATURE = re.compile(r"^ *(?:abbrev |unfoldable )?pub (record |data )?([^\s:({]+)", re.M)
DECLARATION = re.compile(
    r"(?:^(?:///?(?!!)|#\[).*\n)*^(?:pub(?:\(crate\))? )?(struct|enum|trait) (\w+)(?:.*;\n|(?:.*\n)*?\}\n)", re.M)

Definition = namedtuple("Definition", "path name lines words")  # lines: the numbers of those that it stands in


class Source:
    """A file of specs/ or src/: its definitions, and what it imports, by the names that these have there."""

    def __init__(self, path):
        self.path, self.text, self.is_rust = path, path.read_text(), path.suffix == ".rt"
        self.defined, self.taken, self.short = {}, {}, {}
        for module, words, short in USE.findall(self.text):
            if not module.startswith("Rattle."):  # Rust's own: of `crate::acts::Call` the crate and the word
                module, words = (module, words) if words else module.rpartition("::")[::2]
                module = "Rust." + re.sub("^crate", path.parts[-3], module).split("::")[0]
            for word in filter(None, map(str.strip, words.split(","))):
                name, _, other = word.partition(" as ")
                self.taken.update((part, (module, name)) for part in (other or name).split("◌") if part)
            self.short[short or None] = module
        for block in (DECLARATION if self.is_rust else BLOCK).finditer(self.text):
            if found := block if self.is_rust else SIGNATURE.search(block[0]):
                self.define(block, *found.groups())

    def define(self, block, kind, name):
        first = self.text.count("\n", 0, block.start())
        lines = range(first, first + block[0].rstrip().count("\n") + 1)
        text = re.sub(r"(--|//|#\[).*", "", block[0])
        if kind == "struct":  # private fields do not show
            text = "\n".join(line for line in text.splitlines() if "pub " in line)
        words = frozenset(re.findall(r"\w+" if self.is_rust else r"[^\s(){},;]+", text))
        constructors = re.findall(r"^\s+(\w+) :", text, re.M) if kind == "data " else []
        self.defined.update(dict.fromkeys([name, *constructors], Definition(self.path, name, lines, words)))


SOURCES = {path: Source(path) for glob in ("*/specs/*.antt", "*/src/*.rt") for path in CRATES.glob(glob)}


def reach(source, word, reached):
    """Reaches the definition of a word of a file, and those of the words in it."""
    first, _, member = word.partition(".")
    if member and first in source.short:
        follow(source.short[first], member.split(".")[0], reached)
    elif first in source.defined:
        definition = source.defined[first]
        if definition not in reached:
            reached.add(definition)
            for word in definition.words:
                reach(source, word, reached)
    elif first in source.taken:
        follow(*source.taken[first], reached)


def follow(module, word, reached):
    """Reaches the definition of a word of a module."""
    kind, crate, *rest = module.split(".")
    if kind == "Rust":
        for source in SOURCES.values():
            if source.path.parts[-3:-1] == (crate, "src") and word in source.defined:
                reach(source, word, reached)
    elif not (CRATES / crate).is_dir():
        reached.add((module.removeprefix("Rattle."), word))  # a word of the kit
    elif rest[1] != "declared":
        path = CRATES / crate / "specs" / ("/".join(rest[1:]) + ".antt")
        if path in SOURCES:
            reach(SOURCES[path], word, reached)
        else:  # the crate passes on a module of another
            passed = re.search(rf"^pub use (Rattle\.[\w.]+\.{rest[1]})$", SOURCES[CRATES / crate / "specs/Lib.antt"].text, re.M)
            follow(passed[1], word, reached)
    elif {word, rest[-1]} & {"TheVariants", "TheInside", rest[3]}:
        reach(SOURCES[CRATES / crate / "src" / (rest[2] + ".rt")], rest[3], reached)


def tables():
    """Returns the texts by their keys: for each root what no root before it reaches, and the words of the kit."""
    texts, before = {}, set()
    for key, root, words in ROOTS:
        reached = set()
        for word in words:
            follow(*USE.match("use " + word).groups()[:2], reached)
        whole = {one for one in reached if isinstance(one, Definition)}
        new = sorted(whole - before, key=lambda one: (one.path, max(one.lines)))
        rows = []
        for path, group in groupby(new, key=lambda one: one.path):
            here = list(group)
            names, lines = ", ".join(f"`{one.name}`" for one in here), sum(len(one.lines) for one in here)
            rows.append((f"`{path.relative_to(CRATES)}`", names, len(here), lines, SOURCES[path].text.count("\n")))
        rows.append(("in all", "", *(sum(row[column] for row in rows) for column in (2, 3, 4))))
        text = ["| file | definitions | how many | their lines | lines of the file |", "|---|---|---|---|---|"]
        text += ["| " + " | ".join(map(str, row)) + " |" for row in rows]
        files, lines = {str(one.path.relative_to(CRATES)) for one in whole}, sum(len(one.lines) for one in whole)
        text += ["", f"{root} reaches {len(whole)} definitions of {lines} lines in {len(files)} files."]
        texts[key] = "\n".join(text)
        for file in sorted(files & READING):
            print(f"warning: {root} reaches {file}, which defines how scripts are read", file=sys.stderr)
        before |= reached
    words = groupby(sorted(one for one in before if not isinstance(one, Definition)), key=lambda one: one[0])
    texts["kit"] = "\n".join(f"- `{module}`: " + ", ".join(f"`{one[1]}`" for one in group) for module, group in words)
    return texts
