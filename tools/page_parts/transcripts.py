"""Texts that programs write, and files that pages show."""
import os
import re
import subprocess
import tempfile

from page_parts import sources
from page_parts.tables import table

GUIDE = sources.CRATES / "script_bench" / "data" / "guide"

# `run MODE [in FOLDER]: PROGRAM WORD..`, where MODE is `whole`, `reports` or `N lines from "TEXT"`, and may end in `, status N`.
RUN = re.compile(r'run (whole|reports|(\d+) lines from "([^"]*)")(?:, status (\d))?(?: in (\S+))?: (.*)')

FILE = re.compile(r'file ([^ :]+)(?::(\d+)-(\d+))?(?: from "([^"]*)" before "([^"]*)")?')


def program(name):
    """Returns the path of a program, which `rt ci` has left in crates/; $PROGRAMS is another such folder. A name with a slash is that of a tool."""
    if "/" in name:
        return sources.ROOT / name
    return os.path.join(os.environ.get("PROGRAMS", sources.CRATES), name, "out", name)


def ran(words, folder=GUIDE, given=""):
    """Returns the output, the errors and the status of a command line that reads a text."""
    run = subprocess.run([program(words[0]), *words[1:]], cwd=folder, input=given, capture_output=True, text=True, timeout=60)
    return run.stdout, run.stderr, run.returncode


def fenced(text, kind=""):
    return f"```{kind}\n{text.rstrip(chr(10))}\n```"


def of_run(key):
    """Returns the command line of a run, and what it writes: all of it, the reports alone, or some lines of it. Each part of a pipe reads what the
    one before it writes."""
    mode, count, start, status, folder, line = RUN.fullmatch(key).groups()
    out = ""
    for part in line.split(" | "):
        out, err, ended = ran(part.split(), sources.ROOT / folder if folder else GUIDE, out)
    if ended != int(status or 0):
        raise SystemExit(f"{line}: status {ended}, and the page says {status or 0}: {err}")
    lines = (out + err).splitlines()
    if mode == "reports":
        lines = [it for it in lines if " @ " in it] + err.splitlines()
    elif count:
        first = next(at for at, it in enumerate(lines) if it.startswith(start))
        lines = lines[first:first + int(count)]
    return fenced("\n".join([f"$ {line}", *lines]))


def of_picture():
    """Returns the sequence diagram of a file of the guide: its run from the first call of the driver on."""
    with tempfile.TemporaryDirectory(prefix="picture_") as folder:
        log = os.path.join(folder, "log.json")
        _, err, status = ran(["script_bench", "run", "--json", log, "two_items.toml"])
        if status:
            raise SystemExit(f"two_items.toml: status {status}: {err}")
        return ran(["tools/diagram", "--from", "22", "--to", "60", log])[0]


def of_help(key):
    """Returns the help of a program, or of one of its commands."""
    words = key.split()[1:] + ["--help"]
    out, err, status = ran(words)
    if status:
        raise SystemExit(f"{' '.join(words)}: status {status}: {err}")
    return fenced(f"$ {' '.join(words)}\n{out}")


def of_file(key):
    """Returns a file, or a part of it: `file PATH`, `file PATH:FIRST-LAST` by the numbers of lines, or `file PATH from "TEXT" before "TEXT"`."""
    path, first, last, start, end = FILE.fullmatch(key).groups()
    lines = (sources.ROOT / path).read_text().splitlines()
    if first:
        lines = lines[int(first) - 1:int(last)]
    if start:
        begin, stop = (next(at for at, line in enumerate(lines) if line.startswith(text)) for text in (start, end))
        lines = lines[begin:stop]
    kind = {"toml": "toml", "rt": "rust"}.get(path.rpartition(".")[2], "")
    return fenced("\n".join(lines).rstrip(), kind)


def of_mistakes():
    """Returns the table of the mistakes in the guide's files: what is wrong, what is printed, and what to do."""
    rows = []
    for file in sorted((GUIDE / "mistakes").glob("*.toml"), key=order):
        mistake, remedy = (re.search(rf"^# {word}: (.*)\.$", file.read_text(), re.M)[1] for word in ("Mistake", "Remedy"))
        out, err, status = ran(["script_bench", "run", f"mistakes/{file.name}"])
        told = err.strip().replace(f"mistakes/{file.name}", "FILE")
        reports = [line for line in out.splitlines() if " @ " in line]
        wrong = [line for line in reports if not line.startswith("UVM_INFO")] or reports[:1]
        rows.append((mistake, f"`{told or wrong[-1]}`", str(status), explained(file, status), remedy))
    return table(["mistake", "what `run` prints", "status", "what `check` or `run --explain` says", "what to do"], rows)


def explained(file, status):
    """Returns what `check` says of a rejected file, without the marked line, and what `run --explain` says of another, line by line."""
    name = f"mistakes/{file.name}"
    if status == 2:
        out, _, _ = ran(["script_bench", "check", name])
        lines = [line.strip() for line in out.replace(name, "FILE").splitlines()]
        is_marked = len(lines) > 2 and set(lines[2]) == {"^"}
        told = [lines[0], *lines[3 if is_marked else 1:]]
    else:
        _, err, _ = ran(["script_bench", "run", "--explain", name])
        lines = [line.strip() for line in err.splitlines()[1:]]
        told = [line for line in lines if not line.endswith(":")]
    return "<br>".join(line.replace("|", "\\|") for line in told)


def order(file):
    """Files with the fault of a script come first, then those with one of answers, then runs."""
    _, err, status = ran(["script_bench", "run", f"mistakes/{file.name}"])
    return status != 2, "answers" in err.partition(".toml")[2], file.name
