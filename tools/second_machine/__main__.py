"""A second implementation, independent of the kernel: it runs the files of `script_bench`, and was written from the requirements alone.

usage: python3 tools/second_machine [--trace] [--seed N] [--test NAME] [--rows] FILE..

Its text is the stored run of script_bench (tools/rows). --rows accepts the keys decline, seed and trace in addition to those of a script, turns
the trace on by default, and accepts types without objects.
"""

import os
import re
import sys
from collections import deque

from words import Fault, M64, is_name, script_fault
from scripts import Script, judged, read_tree
from answers import read_answers
from bus import Maker, judge_objects
from machine import Machine


class Options:
    def __init__(self, words):
        self.trace = self.rows = False
        self.seed, self.test, self.files, self.given = None, None, [], set()
        words = deque(words)
        while words:
            self._take(words.popleft(), words)
        if not self.files:
            raise Fault("no file")

    def _take(self, word, rest):
        name, equals, value = word.partition("=")
        if name in self.given:
            raise Fault(f"{name} twice")
        if word in ("--trace", "--rows"):
            self.given.add(name)
            setattr(self, word[2:], True)
        elif name in ("--seed", "--test"):
            if not equals:
                if not rest:
                    raise Fault(f"{name} without a value")
                value = rest.popleft()
            self._give(name, value)
        elif word.startswith("-") and word != "-":
            raise Fault(f"unknown option {word}")
        else:
            self.files.append(word)

    def _give(self, name, value):
        self.given.add(name)
        if name == "--test":
            self.test = judged(is_name(value), value, "BadName")
        elif re.fullmatch(r"\+?[0-9]+", value) and int(value) <= M64:
            self.seed = int(value)
        else:
            raise Fault("--seed: no number")


def read_file(name):
    try:
        with open(name, "rb") as file:
            return file.read()
    except OSError:
        raise Fault(unread(name), 3) from None


def unread(name):
    """Why a file was not read."""
    return "is a directory" if os.path.isdir(name) else "cannot read the file" if os.path.exists(name) else "no such file"


def run_file(name, options, write):
    """Runs one file and returns its status; reports what is wrong with it on standard error."""
    try:
        machine = prepare(read_file(name), options, write)
        return machine.run()
    except Fault as fault:
        sys.stdout.flush()
        print(f"script_bench: {name}: {fault.line}", file=sys.stderr)
        return fault.status


def prepare(data, options, write):
    tree = read_tree(data)
    script = Script(tree, {"answers", "decline", "seed", "trace"} if options.rows else {"answers"})
    if options.test is not None:
        script.test = options.test
        script.judge_test()
    if script.test is None:
        raise script_fault("Missing")
    answers = read_answers(tree.get("answers", {}), script.types)
    if not options.rows:
        judge_objects(script.types, answers)
    seed, trace, declined = options.seed, options.trace, ()
    if options.rows:
        declined, trace = tree.get("decline", ()), tree.get("trace", True)
        seed = tree.get("seed", 1) if seed is None else seed
    return Machine(script, Maker(answers, declined), 1 if seed is None else seed, trace, write)


def main(words):
    try:
        options = Options(words)
    except Fault as fault:
        print(f"script_bench: {fault.line}", file=sys.stderr)
        return fault.status
    write, worst = sys.stdout.write, 0
    several = len(options.files) > 1
    for name in options.files:
        if several:
            write(f"== {name}\n")
        status = run_file(name, options, write)
        if several:
            write(f"status {status}\n")
        worst = max(worst, status)
    return worst


if __name__ == "__main__":
    sys.exit(main(sys.argv[1:]))
