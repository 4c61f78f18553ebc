"""What the sources say of themselves: variants with their comments, equations, definitions, and public functions with their contracts."""
import re
from collections import namedtuple
from pathlib import Path

ROOT = Path(__file__).resolve().parents[2]
CRATES = ROOT / "crates"

Definition = namedtuple("Definition", "name comment value")
Function = namedtuple("Function", "name comment requires ensures")

SIGNATURE = re.compile(r"^(?:abbrev |unfoldable )?pub (?!mod |use )(?:record |data )?([^\s:({]+)")
HEAD = re.compile(r"^    pub (?:const )?fn (\w+)|^pub (?:const )?fn (\w+)|^    fn (\w+)")
CLAUSE = re.compile(r"^\s*(requires|ensures)\*?(?: (\w+))? \{", re.M)


def read(path):
    return (CRATES / path).read_text()


def crates():
    """Returns the crates in the order of crates.txt."""
    lines = (ROOT / "crates.txt").read_text().splitlines()
    return [line.split(":")[0].split()[0] for line in lines if line.strip() and not line.startswith("#")]


def first_comment(crate):
    """Returns the first line `//!` of a crate's root file."""
    root = next(CRATES / crate / "src" / name for name in ("lib.rt", "main.rt") if (CRATES / crate / "src" / name).exists())
    comment = re.match(r"((?://! .*\n)+)", root.read_text())
    return joined(comment[1].splitlines(), "//!") if comment else ""


def joined(lines, mark):
    """Returns the text of comment lines; an empty line of the comment begins a paragraph."""
    texts = [line.strip().removeprefix(mark).strip() for line in lines]
    return re.sub(r" ?\n ?", "\n", " ".join(text or "\n" for text in texts)).strip()


def variants(path, enum):
    """Returns the variants of an enum with their comments, in order."""
    block = re.search(rf"^pub enum {enum} \{{\n(.*?)^\}}", read(path), re.M | re.S)[1]
    found, comment = [], []
    for line in block.splitlines():
        if line.startswith("    ///"):
            comment.append(line)
        elif variant := re.match(r"    (\w+)", line):
            found.append((variant[1], joined(comment, "///")))
            comment = []
    return found


def struct_comment(path, struct):
    """Returns the first paragraph of the comment of a struct."""
    comment = re.search(rf"((?:^///.*\n)+)(?:#\[.*\n)*pub struct {struct}\b", read(path), re.M)[1]
    return joined(comment.splitlines(), "///").split("\n")[0]


def equations(path, function):
    """Returns the right sides of the equations of a definition, by the variant on the left."""
    return dict(re.findall(rf"^{function} \(?(?:\w+\.)?(\w+)[^=\n]*? = (.*)$", read(path), re.M))


def arms(path, function):
    """Returns the texts of a `match` of a function of Rust, by variant."""
    body = re.search(rf"fn {function}\b.*?\n    \}}\n", read(path), re.S)[0]
    found = {}
    for heads, text in re.findall(r"((?:\w+::\w+(?:\([^)]*\))?\s*\|?\s*)+) => (?:\{\s*)?\"([^\"]*)\"", body):
        found.update(dict.fromkeys(re.findall(r"::(\w+)", heads), text))
    return found


def definitions(path):
    """Returns the public definitions of a file of specs/, with their comments and the text behind the sign of equality."""
    found, comment, last = [], [], []
    for line in path.read_text().splitlines():
        bare = line.removeprefix("  ") if line.startswith("  pub ") and not found_record(path, line) else line
        signature = SIGNATURE.match(bare)
        if line.lstrip().startswith("--"):
            comment.append(line)
            continue
        if signature:
            last = comment or last
            found.append(Definition(signature[1], joined(last, "--"), value_of(path, signature[1])))
        if not line.strip():
            last = []
        comment = []
    return found


def found_record(path, line):
    """Whether a line with two blanks before `pub` is a field of a record, and not a definition of a `mutual` block."""
    before = path.read_text().split(line)[0].splitlines()
    head = next((it for it in reversed(before) if it and not it.startswith(" ")), "")
    return "mutual" not in head


def value_of(path, name):
    """Returns the right side of the equation without arguments that gives a name its value, if there is one."""
    found = re.search(rf"^{re.escape(name)}(?: script)? = (.*)$", path.read_text(), re.M)
    return found[1] if found else ""


def functions(path):
    """Returns the public functions of a file of src/, and the methods of its public traits, with the labels of their clauses."""
    found, comment, owner, is_trait = [], [], "", False
    lines = path.read_text().splitlines()
    for at, line in enumerate(lines):
        if line.lstrip().startswith("///"):
            comment.append(line)
            continue
        if block := re.match(r"(?:impl|pub trait)\b(.*)", line):
            owner, is_trait = owner_of(block[1]), line.startswith("pub trait")
        elif line == "}":
            owner, is_trait = "", False
        head = HEAD.match(line)
        if head and comment and (head[1] or head[2] or (head[3] and is_trait)):
            clauses = CLAUSE.findall(header(lines, at))
            labels = {kind: [label or "(one)" for it, label in clauses if it == kind] for kind in ("requires", "ensures")}
            name = next(filter(None, head.groups()))
            found.append(Function(f"{owner}::{name}" if owner else name, joined(comment, "///"), labels["requires"], labels["ensures"]))
        if not re.match(r"\s*(#\[|ghost )", line):
            comment = []
    return found


def owner_of(text):
    """Returns the name of the type of an `impl`, or of a trait."""
    text = re.sub(r"^\s*<[^>]*>", "", text.split(" for ")[-1])
    return re.match(r"\s*&?(?:'\w+ )?(\w+)", text)[1]


def header(lines, at):
    """Returns the text of a function from its name to its body."""
    text = []
    for line in lines[at:]:
        if line.strip() == "{" or (line.endswith("{") and not CLAUSE.match(line)):
            break
        text.append(line)
        if line.endswith(";") and not line.lstrip().startswith("//"):
            break
    return "\n".join(text)
