"""Testbench objects in Python for the kernel of `script_bench serve` (docs/PROTOCOL.md, version 1). Standard library alone.

    import sys
    from geqiwlla import Component, component, main

    @component("driver")
    class Driver(Component):
        def build_phase(self):
            self.add_port("sqp", "seq")

        def run_phase(self):
            self.get_next_item("sqp")

        def next_item(self, port, item):
            self.info("DRV", "got %d %d %d %d" % item)
            self.item_done(port)
            self.wait(5, 1)

        def wake(self, tag):
            self.get_next_item("sqp")

    sys.exit(main())

A class is registered under the name that a script gives to its type. The kernel calls an object: a call is a method that the class
overrides. The object answers with actions: an action is a method that the object calls. An action is performed after the call has
returned, in the order of the answer. The return value of a call is ignored.

An action with a wrong argument raises `ValueError` or `TypeError` immediately. If a call raises, standard error has the object and the
call, the client closes its pipes, the kernel aborts the run with `answers end`, and `main` returns 3.
"""
import argparse
import functools
import operator
import os
import random
import re
import subprocess
import sys
import time
import traceback

__all__ = ["Component", "Sequence", "component", "sequence", "main", "run", "serve", "stdio", "Result", "ProtocolError", "TYPES", "PHASES",
           "UVM_NONE", "UVM_LOW", "UVM_MEDIUM", "UVM_HIGH", "UVM_FULL", "UVM_DEBUG"]

VERSION = 1
PHASES = ("build", "connect", "end_of_elaboration", "start_of_simulation", "run",
          "pre_reset", "reset", "post_reset", "pre_configure", "configure", "post_configure",
          "pre_main", "main", "post_main", "pre_shutdown", "shutdown", "post_shutdown",
          "extract", "check", "report", "final")
SEVERITIES = ("INFO", "WARNING", "ERROR", "FATAL")
MODES = ("FIFO", "WEIGHTED", "RANDOM", "STRICT_FIFO", "STRICT_RANDOM")
KINDS = ("put", "get", "analysis", "seq")
DEEDS = ("display", "count", "exit")
# UVM's verbosities.
UVM_NONE, UVM_LOW, UVM_MEDIUM, UVM_HIGH, UVM_FULL, UVM_DEBUG = 0, 100, 200, 300, 400, 500
# The kernel aborts the run at an answer with more actions.
MOST_ACTIONS = 1000
MOST_TEXT = 200

# The registered classes, by (kind, type name).
TYPES = {}


class ProtocolError(Exception):
    """The kernel does not follow the protocol, did not start, or ended early."""

    status = 3
    """The exit status for `main`: 2 if the kernel rejected its command line."""


class _Gone(ProtocolError):
    """The kernel does not read any more."""


def component(type_name):
    """Registers a class as the component type with this name. Errors: TypeError, ValueError."""
    return functools.partial(_register, "component", type_name)


def sequence(type_name):
    """Registers a class as the sequence type with this name. Errors: TypeError, ValueError."""
    return functools.partial(_register, "sequence", type_name)


def _register(kind, type_name, cls):
    if not issubclass(cls, Component if kind == "component" else Sequence):
        raise TypeError("%s is not a %s" % (cls.__name__, kind))
    for name in dir(cls):
        if name.endswith("_phase") and not name.startswith("_") and not hasattr(Component, name):
            raise TypeError("%s.%s: there is no such phase" % (cls.__name__, name))
    if TYPES.setdefault((kind, _name(type_name)), cls) is not cls:
        raise ValueError("the %s type %s is registered twice" % (kind, type_name))
    return cls


# Arguments of actions: each function returns the word that the kernel reads, or raises.

@functools.lru_cache(maxsize=65536)
def _name(name, what="name"):
    if not isinstance(name, str) or not re.fullmatch(r"[!-),\-0->@-~]{1,64}", name):
        raise ValueError("not a %s: %r" % (what, name))
    return name


@functools.lru_cache(maxsize=65536)
def _path(path):
    if not isinstance(path, str):
        raise ValueError("not a path: %r" % (path,))
    if path:
        names = path.split(".")
        if len(names) > 32 or len(path) > 1024:
            raise ValueError("a path has at most 32 names and 1,024 bytes: %r" % path)
        for name in names:
            _name(name, "path")
    return path


@functools.lru_cache(maxsize=65536)
def _glob(glob):
    if not isinstance(glob, str) or not re.fullmatch(r"[!-.0-~]{0,1024}", glob):
        raise ValueError("not a glob: %r" % (glob,))
    return glob


def _number(value, low, high, what):
    if type(value) is not int:
        value = operator.index(value)
    if not low <= value <= high:
        raise ValueError("%s is not in %d to %d: %d" % (what, low, high, value))
    return value


def _priority(priority):
    return "none" if priority is None else "%d" % _number(priority, 0, 65535, "priority")


def _item(item):
    try:
        one, two, three, four = map(operator.index, item)
    except (TypeError, ValueError):
        raise ValueError("an item is four integers, not %r" % (item,)) from None
    if not -1 << 63 <= min(one, two, three, four) or not max(one, two, three, four) < 1 << 63:
        raise ValueError("a word of an item has 64 bits with sign: %r" % (item,))
    return "[%d,%d,%d,%d]" % (one, two, three, four)


def _word(word, words, what):
    if word not in words:
        raise ValueError("%s is one of %s, not %r" % (what, ", ".join(words), word))
    return word


def _which(severity, id):
    if severity == "":
        return "all" if id == "" else "id " + _name(id, "report id")
    _word(severity, SEVERITIES, "severity")
    return severity if id == "" else severity + " " + _name(id, "report id")


def _text(text):
    if not isinstance(text, str):
        raise TypeError("the text of a report is a str, not %r" % (text,))
    if text.isascii() and text.isprintable():
        return text[:MOST_TEXT]
    if "\n" in text:
        raise ValueError("the text of a report is one line: %r" % text)
    shown = text.encode("utf-8", "replace")[:MOST_TEXT]
    return "".join(chr(byte) if 0x20 <= byte <= 0x7E else "?" for byte in shown)


# What the words of a call mean.

def _read_item(word):
    return tuple(map(int, word[1:-1].split(",")))


def _read_some_item(word):
    return None if word == "none" else _read_item(word)


def _read_value(word):
    return None if word == "none" else int(word)


class Object:
    """The part that components and sequences share. All attributes have their values before `__init__` is called."""

    type_name = None
    """The type that the factory made, after overrides."""
    path = None
    """The path of a component; of a sequence, that of its sequencer with the names from its root sequence down to itself."""
    name = None
    """The last name of the path."""
    who = None
    """The component or sequence as the transcript names it."""

    _run = None
    _answer = None
    _random = None

    @property
    def time(self):
        """The current time in ticks."""
        return self._run.time

    @property
    def seed(self):
        """The seed of the run."""
        return self._run.seed

    @property
    def random(self):
        """A generator of random numbers. The seed of the run and `who` determine its numbers, so runs repeat."""
        if self._random is None:
            self._random = random.Random("%d %s %s" % (self._run.seed, self._kind, self.who))
        return self._random

    def _do(self, action):
        answer = self._answer
        if answer is None:
            raise RuntimeError("%s: an action belongs to a call of this object: %s" % (self.who, action))
        if len(answer) == MOST_ACTIONS:
            raise RuntimeError("%s: more than %d actions in an answer" % (self.who, MOST_ACTIONS))
        answer.append(action)

    # Actions.

    def set_config(self, glob, field, value):
        """Sets a configuration field at the paths that a glob matches, below this object (uvm_config_db::set)."""
        self._do("set (%s) %s %d" % (_glob(glob), _name(field), _number(value, -1 << 63, (1 << 63) - 1, "value")))

    def get_config(self, field):
        """Looks up a configuration field (uvm_config_db::get). `config` follows."""
        self._do("get " + _name(field))

    def set_type_override(self, original, new, replace=False):
        """Overrides a type at every path. Without `replace`, an earlier override of the type stays in force."""
        self._do("override %s %s" % (_name(original), _name(new)) + (" replace" if replace else ""))

    def set_inst_override(self, original, new, glob):
        """Overrides a type at the paths that a glob matches, below this object."""
        self._do("override %s %s at (%s)" % (_name(original), _name(new), _glob(glob)))

    def start(self, type_name, name, sequencer="", priority=None):
        """Starts a sequence on a sequencer. A sequence starts its children on its own sequencer, "". `finished` follows."""
        self._do("start %s %s (%s) %s" % (_name(type_name), _name(name), _path(sequencer), _priority(priority)))

    def report(self, severity, id, text="", verbosity=0):
        """Issues a report. The text is cut to 200 bytes; a byte that is not printable ASCII becomes `?`."""
        _word(severity, SEVERITIES, "severity")
        _name(id, "report id")
        _number(verbosity, 0, 65535, "verbosity")
        shown = _text(text)
        if shown:
            self._do("report %s %s %d %s" % (severity, id, verbosity, shown))
        else:
            self._do("report %s %s" % (severity, id) + (" %d" % verbosity if verbosity else ""))

    def info(self, id, text, verbosity=UVM_MEDIUM):
        """Issues an INFO (uvm_report_info)."""
        self.report("INFO", id, text, verbosity)

    def warning(self, id, text):
        """Issues a WARNING (uvm_report_warning)."""
        self.report("WARNING", id, text)

    def error(self, id, text):
        """Issues an ERROR (uvm_report_error)."""
        self.report("ERROR", id, text)

    def fatal(self, id, text):
        """Issues a FATAL (uvm_report_fatal)."""
        self.report("FATAL", id, text)

    def set_verbosity(self, level, severity="", id=""):
        """Sets the verbosity level at this path, for all reports, or those of a severity, of an id, or of both."""
        self._do("verbosity %s %d" % (_which(severity, id), _number(level, 0, 65535, "level")))

    def set_actions(self, actions, severity="", id=""):
        """Sets what is done with reports at this path: an iterable of "display", "count", "exit"; an empty one for nothing."""
        given = {_word(action, DEEDS, "report action") for action in actions}
        self._do("actions %s %s" % (_which(severity, id), ",".join(deed for deed in DEEDS if deed in given) or "none"))

    def set_severity(self, old, new, id=""):
        """Changes the severity of reports at this path, of every id or of one."""
        _word(old, SEVERITIES, "severity")
        _word(new, SEVERITIES, "severity")
        if id == "none":
            raise ValueError("this action cannot name the report id none")
        self._do("severity %s %s %s" % (old, "none" if id == "" else _name(id, "report id"), new))

    def raise_objection(self, count=1):
        """Raises objections in the phase of this call."""
        self._do("raise %d" % _number(count, 0, 65535, "count"))

    def drop_objection(self, count=1):
        """Drops objections in the phase of this call."""
        self._do("drop %d" % _number(count, 0, 65535, "count"))

    def set_drain(self, ticks):
        """Sets the drain time of the phase, in ticks."""
        self._do("set_drain %d" % _number(ticks, 0, (1 << 64) - 1, "ticks"))

    def wait(self, ticks, tag=0):
        """Waits for ticks. `wake` follows, with this tag."""
        self._do("wait %d %d" % (_number(ticks, 0, (1 << 64) - 1, "ticks"), _number(tag, 0, (1 << 32) - 1, "tag")))

    # Calls.

    def wake(self, tag):
        """Is called when the ticks of a wait have passed."""

    def config(self, field, value):
        """Is called after `get_config`, with the value of the field, or None if it has none."""

    def finished(self, name, number):
        """Is called when a sequence that this object started has finished."""

    # For the first word of each call: the method, and what reads each further word.
    _calls = {
        "wake": ("wake", (int,)),
        "config": ("config", (str, _read_value)),
        "finished": ("finished", (str, int)),
    }

    def _call(self, words):
        # The words are those of an `ask`, so the call begins with the fourth.
        try:
            method, readers = self._calls[words[3]]
            if len(words) != len(readers) + 4:
                raise ValueError
            arguments = [read(word) for read, word in zip(readers, words[4:])]
        except (KeyError, ValueError):
            raise ProtocolError("unknown call: " + " ".join(words[3:])) from None
        self._answer = answer = []
        try:
            getattr(self, method)(*arguments)
        finally:
            self._answer = None
        return answer


class Component(Object):
    """A component. Each phase is a call: `build_phase`, `connect_phase`, `run_phase`, `main_phase` and so on."""

    _kind = "component"

    # Actions.

    def create(self, type_name, name):
        """Creates a component as a child of this one, by the factory, until build ends."""
        self._do("create %s %s" % (_name(type_name), _name(name)))

    def add_sequencer(self, name, mode="FIFO"):
        """Adds a sequencer as a child: FIFO, WEIGHTED, RANDOM, STRICT_FIFO or STRICT_RANDOM."""
        self._do("add %s sequencer %s" % (_name(name), _word(mode, MODES, "mode")))

    def add_fifo(self, name, size=1):
        """Adds a FIFO as a child; 0 is no limit."""
        self._do("add %s fifo %d" % (_name(name), _number(size, 0, 65535, "size")))

    def add_port(self, name, kind):
        """Adds a port as a child: put, get, analysis or seq."""
        self._do("add %s port %s" % (_name(name), _word(kind, KINDS, "kind")))

    def add_export(self, name, kind):
        """Adds an export as a child: put, get, analysis or seq."""
        self._do("add %s export %s" % (_name(name), _word(kind, KINDS, "kind")))

    def add_imp(self, name):
        """Adds an imp as a child. `written` follows each write that reaches it."""
        self._do("add %s imp" % _name(name))

    def connect(self, source, target):
        """Connects a port or an export to another end, by paths below this component."""
        self._do("connect (%s) (%s)" % (_path(source), _path(target)))

    def put(self, port, item):
        """Puts an item into a FIFO, once it has capacity. `stored` follows."""
        self._do("put %s %s" % (_name(port), _item(item)))

    def try_put(self, port, item):
        """Puts an item into a FIFO, if it has capacity. `try_stored` follows."""
        self._do("try_put %s %s" % (_name(port), _item(item)))

    def take(self, port):
        """Takes an item from a FIFO, once it has one (UVM's get). `taken` follows."""
        self._do("take " + _name(port))

    def try_take(self, port):
        """Takes an item from a FIFO, if it has one (UVM's try_get). `try_taken` follows."""
        self._do("try_take " + _name(port))

    def peek(self, port):
        """Reads the first item of a FIFO, once it has one. `peeked` follows."""
        self._do("peek " + _name(port))

    def write(self, port, item):
        """Writes an item through an analysis port."""
        self._do("write %s %s" % (_name(port), _item(item)))

    def get_next_item(self, port):
        """Asks a sequencer for an item. `next_item` follows."""
        self._do("ask %s next" % _name(port))

    def try_next_item(self, port):
        """Asks a sequencer for an item, without waiting. `next_item` follows, with None if there is none."""
        self._do("ask %s try" % _name(port))

    def get_item(self, port):
        """Asks a sequencer for an item that counts as done when it comes (the driver's get). `next_item` follows."""
        self._do("ask %s get" % _name(port))

    def item_done(self, port, response=None):
        """Completes the item of this driver, with or without a response."""
        self._do("item_done %s %s" % (_name(port), "none" if response is None else _item(response)))

    # Calls.

    def stored(self, port):
        """Is called when an item that was put is in the FIFO."""

    def try_stored(self, port, stored):
        """Is called after `try_put`, with whether the item is in the FIFO."""

    def taken(self, port, item):
        """Is called after `take`, with the item."""

    def try_taken(self, port, item):
        """Is called after `try_take`, with the item, or None if there was none."""

    def peeked(self, port, item):
        """Is called after `peek`, with the first item of the FIFO, which stays there."""

    def written(self, imp, item):
        """Is called when an item was written to an imp of this component."""

    def next_item(self, port, item):
        """Is called when a sequence has sent an item; with None if `try_next_item` found none."""

    _calls = dict(Object._calls, **{
        "stored": ("stored", (str,)),
        "try_stored": ("try_stored", (str, "yes".__eq__)),
        "taken": ("taken", (str, _read_item)),
        "try_taken": ("try_taken", (str, _read_some_item)),
        "peeked": ("peeked", (str, _read_item)),
        "written": ("written", (str, _read_item)),
        "next_item": ("next_item", (str, _read_some_item)),
    }, **{phase: (phase + "_phase", ()) for phase in PHASES})


def _no_phase(self):
    """Is called once in the phase."""


for _phase in PHASES:
    setattr(Component, _phase + "_phase", _no_phase)


class Sequence(Object):
    """A sequence. The action `end_step` ends each of its steps: `pre_start`, `body`, `post_start`."""

    _kind = "sequence"

    number = None
    """The number of the sequence in the run, from 1."""

    # Actions.

    def request(self, priority=None):
        """Requests to send an item (wait_for_grant). `grant` follows."""
        self._do("request " + _priority(priority))

    def send(self, item):
        """Sends an item to the driver, after a grant (send_request). `item_done` follows."""
        self._do("send " + _item(item))

    def lock(self):
        """Requests to hold the sequencer, after all requests that wait. `held` follows."""
        self._do("lock")

    def grab(self):
        """Requests to hold the sequencer, before all requests that wait. `held` follows."""
        self._do("grab")

    def unlock(self):
        """Releases the latest lock or grab of this sequence."""
        self._do("unlock")

    def end_step(self):
        """Ends the current step. `body` or `post_start` follows, or the sequence has finished."""
        self._do("end_step")

    # Calls.

    def pre_start(self):
        """Is called in the first step. By default it ends the step."""
        self.end_step()

    def body(self):
        """Is called in the second step. By default it ends the step."""
        self.end_step()

    def post_start(self):
        """Is called in the last step. By default it ends the step."""
        self.end_step()

    def grant(self):
        """Is called when the sequence may send its item."""

    def item_done(self, response):
        """Is called when the driver has completed the item, with the response, or None."""

    def held(self):
        """Is called when the sequence holds the sequencer."""

    _calls = dict(Object._calls, **{
        "pre_start": ("pre_start", ()),
        "body": ("body", ()),
        "post_start": ("post_start", ()),
        "grant": ("grant", ()),
        "item_done": ("item_done", (_read_some_item,)),
        "held": ("held", ()),
    })


class Result:
    """The result of a run."""

    verdict = None
    """clean, faulty, refused or broken."""
    status = None
    """The exit status of the kernel: 0, 1, 2 or 3."""
    fault = None
    """None, or the line of the answers and the reason for which the kernel aborted the run."""
    transcript = b""
    """The transcript, if `on_line` is None."""
    questions = 0
    """The number of questions."""


def _blame(where, words, error):
    # Says on standard error where a class of the user raised.
    if not isinstance(error, ProtocolError):
        print("exception %s: %s" % (where, " ".join(words)), file=sys.stderr)


class _Run:
    """One run, from the client's side."""

    def __init__(self, types, on_line):
        self.types = TYPES if types is None else types
        self.time, self.seed = 0, None
        self.objects = {}
        self.pending = None
        self.lines = []
        self.on_line = self.lines.append if on_line is None else on_line
        self.result = Result()

    def question(self, text):
        """Returns the answer to a question."""
        words = text.split(" ")
        if words[0] == "ask" and len(words) > 3:
            try:
                it = self.objects[words[1], words[2]]
            except KeyError:
                raise ProtocolError("unknown object: " + text) from None
            try:
                actions = it._call(words)
            except Exception as error:
                _blame("in the call", words[1:], error)
                raise
            return "\n".join(actions) + "\n\n" if actions else "\n"
        if words[0] == "need" and len(words) == 4:
            cls = self.types.get((words[1], words[2]))
            self.pending = None if cls is None else (cls, words[2], words[3])
            return "declined\n" if cls is None else "made\n"
        raise ProtocolError("unknown question: " + text)

    def notice(self, text):
        """Takes in a notice, and returns whether it is the last line."""
        words = text.split(" ")
        if words[0] == "new":
            self.objects[words[1], words[2]] = self.make(words[1], words[2])
        elif words[0] == "back":
            self.objects.pop((words[1], words[2]), None)
        elif words[0] == "seed":
            self.seed = int(words[1])
        elif words[0] == "fault":
            self.result.fault = (int(words[1]), " ".join(words[2:]))
        elif words[0] == "end":
            self.result.verdict, self.result.status = words[1], int(words[2])
            return True
        return False

    def make(self, kind, who):
        """Returns the new object that `who` names."""
        if self.pending is None:
            raise ProtocolError("a new object that the client did not make: " + who)
        (cls, type_name, path), self.pending = self.pending, None
        it = cls.__new__(cls)
        it._run, it.type_name, it.path, it.who = self, type_name, path, who
        it.name = path.rsplit(".", 1)[-1]
        if kind == "sequence":
            it.number = int(who.rsplit("#", 1)[-1])
        try:
            it.__init__()
        except Exception as error:
            _blame("in the constructor of", (kind, who), error)
            raise
        return it

    def read(self, lines, answer):
        """Reads lines to the end. `answer` writes an answer; without it, questions are skipped."""
        for line in lines:
            mark = line[:2]
            if mark == b"? ":
                if answer is not None:
                    answer(self.question(line[2:-1].decode("ascii")))
                    self.result.questions += 1
            elif mark != b"! ":
                self.on_line(line)
            elif answer is not None and line.startswith(b"! time "):
                self.time = int(line[7:])
            elif answer is not None or line.startswith((b"! fault ", b"! end ")):
                if self.notice(line[2:-1].decode("ascii")):
                    break
        self.result.transcript = b"".join(self.lines)
        return self.result


def serve(reader, writer, types=None, on_line=None, record=None):
    """Answers the questions that come on `reader` to `writer`, both binary, until `! end`, and returns the result.

    Each line of the transcript goes to `on_line`; if it is None, to the result. Each answer goes to `record` too: as the kernel's
    standard input they repeat the run without a client. Errors: ProtocolError; whatever a call raises.
    """
    return _serve(_Run(types, on_line), reader, writer, record)


def _serve(it, reader, writer, record):
    first = reader.readline()
    if first != b"! serve %d\n" % VERSION:
        raise ProtocolError("not version %d of the protocol: %r" % (VERSION, first) if first else "the kernel wrote no line")

    def answer(text):
        data = text.encode("ascii")
        if record is not None:
            record.write(data)
        try:
            writer.write(data)
            writer.flush()
        except BrokenPipeError:
            raise _Gone("the kernel ended without `! end`") from None

    it.read(reader, answer)
    if it.result.status is None:
        raise ProtocolError("the kernel ended without `! end`")
    return it.result


def run(file, test=None, seed=1, trace=False, kernel=None, types=None, on_line=None, record=None):
    """Starts a kernel for the script in a file, answers its questions, and returns the result.

    `kernel` is the path of `script_bench`; if it is None, the environment variable KERNEL, else `script_bench` on the PATH. `types`,
    `on_line` and `record` are those of `serve`. If a call raises, the kernel is ended, and the exception passes on.
    """
    words = [kernel or os.environ.get("KERNEL") or "script_bench", "serve", "--seed", str(seed)]
    words += ["--trace"] * bool(trace) + (["--test", test] if test is not None else [])
    try:
        process = subprocess.Popen(words + [str(file)], stdin=subprocess.PIPE, stdout=subprocess.PIPE)
    except OSError as error:
        raise ProtocolError("%s: %s" % (words[0], error.strerror)) from None
    it = _Run(types, on_line)
    try:
        return _serve(it, process.stdout, process.stdin, record)
    except _Gone:
        # If the kernel aborted the run, its last lines say why.
        _finish(process, it)
        if it.result.status is None:
            raise
        return it.result
    except ProtocolError as error:
        _finish(process, it)
        if process.returncode == 2:
            error.status = 2
        raise
    finally:
        _finish(process, it)


def _finish(process, it):
    # Closes the answers, reads what the kernel still writes, and waits for it.
    if process.returncode is not None:
        return
    try:
        process.stdin.close()
    except BrokenPipeError:
        pass
    try:
        if it.result.status is None:
            it.read(process.stdout, None)
    finally:
        process.stdout.close()
        process.wait()


def stdio(types=None):
    """Answers a kernel over standard input and output, and returns the result. `print` writes to standard error meanwhile."""
    out, sys.stdout = sys.stdout, sys.stderr
    try:
        return serve(sys.stdin.buffer, out.buffer, types, on_line=lambda line: None)
    finally:
        sys.stdout = out


def main(arguments=None):
    """Runs a script over the registered classes, as the command line says, and returns the exit status: that of the kernel, or 3."""
    words = argparse.ArgumentParser(description="Runs a testbench over the objects of this program.")
    words.add_argument("file", nargs="?", help="the script, in TOML")
    words.add_argument("--kernel", help="the program script_bench; else the variable KERNEL, else script_bench on the PATH")
    words.add_argument("--trace", action="store_true", help="prints every entry of the log")
    words.add_argument("--seed", type=int, default=1, help="the seed of the run (1 if omitted)")
    words.add_argument("--test", help="runs this test instead of the file's own")
    words.add_argument("--record", metavar="FILE", help="writes the answers to FILE, for: script_bench serve SCRIPT < FILE")
    words.add_argument("--quiet", action="store_true", help="prints no transcript")
    words.add_argument("--count", action="store_true", help="prints the number of questions and the seconds to standard error")
    words.add_argument("--stdio", action="store_true", help="starts no kernel: reads standard input, answers to standard output")
    given = words.parse_args(arguments)
    if given.stdio == (given.file is not None):
        words.error("give either a file or --stdio")
    if not 0 <= given.seed < 1 << 64:
        words.error("--seed is a number from 0 to 2^64-1")
    try:
        begun = time.perf_counter()
        result = stdio() if given.stdio else _run_as_given(given)
        if result.fault is not None:
            print("the kernel aborts the run at line %d of the answers: %s" % result.fault, file=sys.stderr)
        if given.count:
            seconds = time.perf_counter() - begun
            print("%d questions in %.3f s, %.0f a second" % (result.questions, seconds, result.questions / seconds), file=sys.stderr)
        return result.status
    except ProtocolError as error:
        print("%s: %s" % (words.prog, error), file=sys.stderr)
        return error.status
    except Exception:  # of a class of the user
        traceback.print_exc()
        return 3


def _run_as_given(given):
    record = None
    try:
        if given.record is not None:
            record = open(given.record, "wb")
    except OSError as error:
        raise ProtocolError("%s: %s" % (given.record, error.strerror)) from None
    try:
        return run(given.file, given.test, given.seed, given.trace, given.kernel, on_line=(lambda line: None) if given.quiet else _show, record=record)
    finally:
        if record is not None:
            record.close()
        _flush()


def _show(line):
    # Prints a line of the transcript, in order with what classes print.
    try:
        sys.stdout.write(line.decode("ascii"))
    except OSError:
        _drop_output()


def _flush():
    try:
        sys.stdout.flush()
    except OSError:
        _drop_output()


def _drop_output():
    # Nothing can be printed any more, not even at the end of the program.
    os.dup2(os.open(os.devnull, os.O_WRONLY), sys.stdout.fileno())
    raise ProtocolError("output fault")
