"""The machine: what comes next, and what each act comes to."""

import heapq
from collections import deque

from words import (
    DOWN_PHASES, FATAL_TEXTS, Fault, Pcg64, RUNTIME, Refused, TASKS, TOO_FEW, TOO_MANY, fits, glob_under, or_none, path_text,
    phase_after, up_key,
)
from scripts import MAX_TICKS
from answers import Call, act_text, item_call
from services import Factory, Objection, Reports, Settings
from tree import Fifo, Node, Sequence, Sequencer, Waiting


COMPONENT_ACTS = frozenset("create add connect put try_put write take try_take peek ask item_done".split())
SEQUENCE_ACTS = frozenset("request lock grab unlock send end_step".split())
TASK_ACTS = frozenset("raise drop put try_put write take try_take peek ask item_done start".split())
BUILD_ACTS = frozenset(["create", "add"])
PRIORITY_ACTS = frozenset(["start", "request"])
MAX_ACTS, MAX_NODES = 64, 4096


class Due:
    """A call or a drain (no call) that is due; owner is who hears or drains."""

    __slots__ = ("time", "cause", "phase", "owner", "call")

    def __init__(self, time, cause, phase, owner, call):
        self.time = time
        self.cause = cause
        self.phase = phase
        self.owner = owner
        self.call = call

    def __lt__(self, other):
        return (self.time, self.cause) < (other.time, other.cause)


class Machine:
    def __init__(self, script, maker, seed, trace, write):
        self.script = script
        self.maker = maker
        self.draw = Pcg64.from_u64(seed).word
        self.trace = trace
        self.write = write
        self.factory = Factory(script)
        self.settings = Settings(script)
        self.reports = Reports(script)
        self.top = Node(None, "", "top")
        self.nodes = {(): self.top}
        self.sequencers, self.fifos = [], []
        self.sequences = []
        self.objections = {phase: self._objection(phase) for phase in TASKS}
        for row in script.lists.get("drain", ()):
            self.objections[row["phase"]].drain[row["path"]] = row["ticks"]
        self.length = 0
        self.causes = 0
        self.now = 0
        self.agenda = []
        self.mark = ("before", None)
        self.ended = set()
        self.turns = {}
        self.performer, self.act_phase = self.top, None
        self.acts, self.next_act = [("create", script.test, "uvm_test_top")], 0
        self.unsound = None
        self.unsettled = False
        self.exit_asked = False
        self.doom = None
        self.over = None

    def _objection(self, phase):
        return Objection(lambda node, ticks: self.cause(ticks, phase, node, None))

    # -- The log

    def enter(self):
        """A new entry: its place is the length before it."""
        if self.length == self.script.log_limit:
            raise Fault("log full", 3)
        self.length += 1
        self.causes = 0

    def cause(self, ticks, phase, owner, call):
        """The entry that was entered last causes a call or a drain."""
        due = Due(self.now + ticks, (self.length, self.causes), phase, owner, call)
        self.causes += 1
        heapq.heappush(self.agenda, due)
        return due

    def is_due(self, due):
        if due.phase in self.ended or not due.owner.live:
            return False
        return due.call is not None or self.objections[due.phase].due.get(due.owner) is due

    def first_due(self):
        while self.agenda and not self.is_due(self.agenda[0]):
            heapq.heappop(self.agenda)
        return self.agenda[0] if self.agenda else None

    def report(self, who, severity, ident, verbosity, text):
        fate = self.reports.issue(who.home.path, severity, ident, verbosity)
        if fate is None:
            return
        severity, displayed, leaves = fate
        if displayed:
            self.write(f"UVM_{severity} @ {self.now}: {who.source} [{ident}] {text}\n")
        self.exit_asked |= leaves

    # -- The cases, in their order

    def run(self):
        while self.over is None:
            self.step()
        for line in self.reports.summary():
            self.write(line + "\n")
        clean = self.over == "finished" and not self.reports.severities["ERROR"] and not self.reports.severities["FATAL"]
        return 0 if clean else 1

    def step(self):
        if self.doom is not None or self.exit_asked:
            self.finish(self.doom or "exit")
        elif self.unsettled and self.settle():
            pass
        elif self.next_act < len(self.acts):
            self.perform_next()
        elif not (self.hear_due() or self.begin_next() or self.call_next() or self.check_port() or self.end_or_pass()):
            self.finish("finished")

    def finish(self, reason):
        self.enter()
        if self.trace:
            self.write(f"over {reason}\n")
        self.over = reason

    def settle(self):
        """Locks, then grants, then moves, each by path; one entry."""
        if self.lock_next() or self.grant_next() or self.pass_next():
            return True
        self.unsettled = False
        return False

    def lock_next(self):
        for node in self.sequencers:
            sequence = node.service.settle()
            if sequence is not None:
                self.enter()
                if self.trace:
                    self.write(f"locked {node.label} {sequence.label}\n")
                self.cause(0, sequence.phase, sequence, Call("held"))
                return True
        return False

    def grant_next(self):
        for node in self.sequencers:
            granted = node.service.grant(self.draw)
            if granted is not None:
                sequence, word = granted
                self.enter()
                if self.trace:
                    drawn = "" if word is None else f" word {word}"
                    self.write(f"granted {node.label} {sequence.label}{drawn}\n")
                self.cause(0, sequence.phase, sequence, Call("grant"))
                return True
        return False

    def pass_next(self):
        for node in self.fifos:
            move = node.service.move()
            if move is not None:
                request, item = move
                self.enter()
                if self.trace:
                    self.write(f"passed {node.label} {request.kind} {request.who.label}\n")
                self.cause(0, request.phase, request.who, self.passed_call(request, item))
                return True
        return False

    @staticmethod
    def passed_call(request, item):
        if request.kind == "put":
            return Call("stored", request.port.name)
        return item_call({"take": "taken", "peek": "peeked"}[request.kind], request.port.name, item=item)

    def hear_due(self):
        due = self.first_due()
        if due is None or due.time != self.now:
            return False
        heapq.heappop(self.agenda)
        if due.call is not None:
            self.hear(due.owner, due.call, due.phase)
        else:
            self.enter()
            if self.trace:
                self.write(f"drained {due.owner.label}\n")
            self.objections[due.phase].drained(due.owner)
        return True

    def hear(self, who, call, phase):
        self.enter()
        acts = who.object.hear(call)
        if self.trace:
            self.write(f"heard {who.label} {call.text}: {len(acts)}\n")
        self.performer, self.act_phase = who, phase
        self.acts, self.next_act = acts, 0
        if len(acts) > MAX_ACTS:
            self.acts = []
            self.note("ACTLIM", who.home)

    def note(self, ident, node, text=None):
        self.enter()
        if self.trace:
            self.write(f"note {ident} {node.label}\n")
        self.report(node, "FATAL", ident, 0, FATAL_TEXTS[ident] if text is None else text)

    def begin_next(self):
        phase = self.phase_to_begin()
        if phase is None:
            return False
        self.enter()
        if self.trace:
            self.write(f"begin {phase}\n")
        self.mark = ("during", phase)
        self.turns[phase] = []
        for node in self.nodes.values():
            self.add_turn(phase, node)
        return True

    def phase_to_begin(self):
        stage, phase = self.mark
        if stage == "before":
            return "build"
        if stage == "during":
            return "pre_reset" if phase == "run" and self.script.runtime else None
        return None if phase == "post_shutdown" else phase_after(phase)

    def add_turn(self, phase, node):
        if node.object is not None:
            key = node.path if phase in DOWN_PHASES else up_key(node.path)
            heapq.heappush(self.turns[phase], (key, node))

    def running(self):
        """The phase that ends next of those in progress."""
        stage, phase = self.mark
        if stage == "during":
            return phase
        return "run" if phase in RUNTIME else None

    def in_progress(self):
        stage, phase = self.mark
        if phase in RUNTIME:
            return ("run", phase) if stage == "during" else ("run",)
        return (phase,) if stage == "during" else ()

    def call_next(self):
        for phase in self.in_progress():
            if self.turns[phase]:
                _, node = heapq.heappop(self.turns[phase])
                self.hear(node, Call(phase), phase)
                return True
        return False

    def check_port(self):
        if self.running() != "connect":
            return False
        if self.unsound is None:
            self.unsound = deque(self.close_wiring())
        if not self.unsound:
            return False
        port = self.unsound.popleft()
        self.note("CONNERR", port, port.fault)
        return True

    def end_or_pass(self):
        phase = self.running()
        if phase is None:
            return False
        keepers = ("post_shutdown", "run") if phase == "post_shutdown" else (phase,)
        if any(keeper in TASKS and self.objections[keeper].stands(self.top) for keeper in keepers):
            self.pass_time()
        else:
            self.end(phase)
        return True

    def pass_time(self):
        due = self.first_due()
        if due is None:
            self.note("STALL", self.top)
            self.doom = "stall"
        elif due.time > self.script.time_limit:
            self.note("PH_TIMEOUT", self.top)
            self.doom = "timeout"
        else:
            self.enter()
            self.now = due.time
            if self.trace:
                self.write(f"time {self.now}\n")

    def end(self, phase):
        """A phase ends, and with it what belongs to it."""
        self.enter()
        if self.trace:
            self.write(f"end {phase}\n")
        self.mark = ("after", phase)
        self.ended.add(phase)
        self.unsettled = True
        for node in self.fifos:
            node.service.end_phase(phase)
        for sequence in self.sequences:
            if sequence.live and sequence.phase == phase:
                sequence.live = False
                sequence.home.service.leave(sequence)
        for node in self.sequencers:
            if node.service.phase == phase:
                node.service.idle()
            elif node.service.state == "granted" and not node.service.sequence.live:
                self.lapse(node.service)

    def lapse(self, sequencer):
        if sequencer.lapse():
            self.cause(0, sequencer.phase, sequencer.port.parent, item_call("next_item", sequencer.port.name, item=None))
            sequencer.idle()

    # -- Wiring

    def close_wiring(self):
        """Gives each port its targets and its fault; the unsound ones in path order."""
        unsound, driven = [], set()
        for _, port in sorted((node.path, node) for node in self.nodes.values() if node.kind == "port"):
            port.targets = self.reached(port)
            if port.detail != "analysis" and len(port.targets) != 1:
                port.fault = TOO_MANY if port.targets else TOO_FEW
            elif port.detail == "seq":
                if port.targets[0] in driven:
                    port.fault = TOO_MANY
                driven.add(port.targets[0])
            if port.fault:
                unsound.append(port)
        return unsound

    @staticmethod
    def reached(port):
        seen, work = {port}, [port]
        while work:
            for node in work.pop().links:
                if node not in seen:
                    seen.add(node)
                    work.append(node)
        return sorted((node for node in seen if node.kind in ("imp", "fifo", "sequencer")), key=lambda node: node.path)

    # -- Acts

    def perform_next(self):
        act = self.acts[self.next_act]
        self.next_act += 1
        who = self.performer
        self.enter()
        try:
            self.judge(who, act)
            outcome, refusal = getattr(self, "do_" + act[0])(who, *act[1:]) or "done", None
        except Refused as refused:
            outcome, refusal = f"refused {refused.ident}", refused
        if self.trace:
            self.write(f"did {who.label} {act_text(act)}: {outcome}\n")
        if refusal is not None:
            self.report(who, "FATAL", refusal.ident, 0, refusal.text)
            if who is self.top:
                self.doom = "no_test"
        elif act[0] == "report":
            self.report(who, *act[1:])
        elif outcome == "finished":
            self.acts = []

    def judge(self, who, act):
        """The refusals that do not depend on the services, in their order."""
        kind = act[0]
        if kind in (COMPONENT_ACTS if who.is_sequence else SEQUENCE_ACTS):
            raise Refused("ILLACT")
        if (kind in TASK_ACTS or (kind == "wait" and act[1] != 0)) and self.act_phase not in TASKS:
            raise Refused("NOTTASK")
        if kind in BUILD_ACTS and self.mark not in (("before", None), ("during", "build")):
            raise Refused("ILLCRT")
        if (kind in ("wait", "set_drain") and act[1] > MAX_TICKS) or (kind in PRIORITY_ACTS and act[-1] == 0):
            raise Refused("ACTRNG")

    def judge_type(self, ty, kind):
        if self.factory.kinds.get(ty) != kind:
            raise Refused("INVTYP")

    def judge_child(self, parent, name):
        if name in parent.children:
            raise Refused("CLDEXT")
        if not fits(parent.path + (name,)) or len(self.nodes) > MAX_NODES:
            raise Refused("TREELIM")

    def need_object(self, ty, path):
        """A type's object at a path, and the type that was made."""
        made = self.factory.made(ty, path)
        if made is None:
            raise Refused("OVRDLOOP")
        thing = self.maker.make(made)
        if thing is None:
            raise Refused("FCTTYP")
        return made, thing

    def add_node(self, parent, name, kind, detail=None):
        node = Node(parent, name, kind, detail)
        parent.children[name] = node
        self.nodes[node.path] = node
        return node

    def do_create(self, who, ty, name):
        self.judge_type(ty, "component")
        self.judge_child(who, name)
        made, thing = self.need_object(ty, who.path + (name,))
        node = self.add_node(who, name, "component")
        node.object = thing
        if self.mark == ("during", "build"):
            self.add_turn("build", node)
        return f"made {made}"

    def do_add(self, who, name, what):
        self.judge_child(who, name)
        node = self.add_node(who, name, *what)
        if node.kind == "fifo":
            node.service = Fifo(node.detail)
            self.fifos = sorted(self.fifos + [node], key=lambda fifo: fifo.path)
        elif node.kind == "sequencer":
            node.service = Sequencer(node.detail)
            self.sequencers = sorted(self.sequencers + [node], key=lambda sequencer: sequencer.path)

    def do_set(self, who, glob, field, value):
        path = who.home.path
        precedence = 1000 - len(path) if self.mark == ("during", "build") else 1000
        self.settings.set(precedence, glob_under(path, glob), field, value)

    def do_get(self, who, field):
        value = self.settings.get(who.home.path, field)
        self.cause(0, self.act_phase, who, Call("config", field, or_none(value)))
        return f"value {or_none(value)}"

    def judge_override(self, orig, new):
        kinds = self.factory.kinds
        if orig not in kinds or new not in kinds or kinds[orig] != kinds[new]:
            raise Refused("INVTYP")

    def do_override(self, who, orig, new, replace):
        self.judge_override(orig, new)
        self.factory.override(orig, new, replace)

    def do_override_at(self, who, orig, new, glob):
        self.judge_override(orig, new)
        self.factory.override_at(orig, new, glob_under(who.home.path, glob))

    def do_connect(self, who, start, end):
        if "connect" in self.ended:
            raise Refused("CONNERR", "connected too late")
        source, target = self.nodes.get(who.path + start), self.nodes.get(who.path + end)
        if any(node is None or node.kind in ("component", "top") for node in (source, target)):
            raise Refused("CONNERR", "unknown node")
        if not self.may_connect(source, target):
            raise Refused("CONNERR", "kinds differ")
        source.links.append(target)

    @staticmethod
    def may_connect(source, target):
        if source.kind not in ("port", "export") or (source.kind == "export" and target.kind == "port"):
            return False
        return target.carries(source.detail)

    def do_raise(self, who, count):
        self.objections[self.act_phase].raise_by(who.home, count)

    def do_drop(self, who, count):
        self.objections[self.act_phase].drop_by(who.home, count)

    def do_set_drain(self, who, ticks):
        for phase in [self.act_phase] if self.act_phase in TASKS else TASKS:
            self.objections[phase].drain[who.home.path] = ticks

    def do_wait(self, who, ticks, tag):
        self.cause(ticks, self.act_phase, who, Call("wake", str(tag)))

    def do_report(self, who, severity, ident, verbosity, text):
        """The report itself is issued behind the entry's line."""

    def do_verbosity(self, who, which, level):
        self.reports.set_level(path_text(who.home.path), which, level)

    def do_actions(self, who, which, actions):
        self.reports.set_actions(path_text(who.home.path), which, actions)

    def do_severity(self, who, start, ident, end):
        self.reports.set_severity(path_text(who.home.path), start, ident, end)

    # -- Ports

    def port_of(self, who, name, kind):
        port = who.children.get(name)
        if port is None or port.kind != "port" or port.detail != kind or port.fault:
            raise Refused("NOPORT")
        return port

    def fifo_of(self, who, name, kind):
        port = self.port_of(who, name, kind)
        self.unsettled = True
        return port, port.targets[0].service

    def do_put(self, who, name, item):
        port, fifo = self.fifo_of(who, name, "put")
        fifo.puts.append(Waiting("put", port, self.act_phase, item))

    def do_take(self, who, name):
        port, fifo = self.fifo_of(who, name, "get")
        fifo.takes.append(Waiting("take", port, self.act_phase))

    def do_peek(self, who, name):
        port, fifo = self.fifo_of(who, name, "get")
        fifo.takes.append(Waiting("peek", port, self.act_phase))

    def do_try_put(self, who, name, item):
        _, fifo = self.fifo_of(who, name, "put")
        good = "yes" if fifo.try_put(item) else "no"
        self.cause(0, self.act_phase, who, Call("try_stored", name, good))
        return good

    def do_try_take(self, who, name):
        _, fifo = self.fifo_of(who, name, "get")
        item = fifo.try_take()
        self.cause(0, self.act_phase, who, item_call("try_taken", name, item=item))
        return "no" if item is None else "yes"

    def do_write(self, who, name, item):
        port = self.port_of(who, name, "analysis")
        self.unsettled = True
        for target in port.targets:
            if target.kind == "imp":
                self.cause(0, self.act_phase, target.parent, item_call("written", target.name, item=item))
            else:
                target.service.try_put(item)

    # -- Drivers and sequences

    def sequencer_of(self, who, name):
        port = self.port_of(who, name, "seq")
        self.unsettled = True
        return port, port.targets[0].service

    def do_ask(self, who, name, how):
        port, sequencer = self.sequencer_of(who, name)
        stands = sequencer.ask(port, how, self.act_phase)
        if not stands:
            self.cause(0, self.act_phase, who, item_call("next_item", name, item=None))
        if how == "try":
            return "yes" if stands else "no"
        return None

    def do_item_done(self, who, name, response):
        _, sequencer = self.sequencer_of(who, name)
        if sequencer.state != "in_hand":
            raise Refused("SQRERR", "nothing out")
        sequence = sequencer.sequence
        sequencer.idle()
        self.cause(0, sequence.phase, sequence, item_call("item_done", item=response))

    def do_start(self, who, ty, name, on, priority):
        self.judge_type(ty, "sequence")
        home, parent = self.home_of(who, on), who if who.is_sequence else None
        names = (parent.names if parent else ()) + (name,)
        if not fits(home.path + names):
            raise Refused("TREELIM")
        _, thing = self.need_object(ty, home.path + names)
        if priority is None:
            priority = parent.priority if parent else 100
        sequence = Sequence(len(self.sequences) + 1, home, parent, who, name, priority, self.act_phase)
        sequence.object = thing
        self.sequences.append(sequence)
        self.cause(0, self.act_phase, sequence, Call("pre_start"))
        return f"started {sequence.number}"

    def home_of(self, who, on):
        home = who.home if who.is_sequence and on == () else self.nodes.get(who.home.path + on)
        if home is None or home.kind != "sequencer" or (who.is_sequence and on != ()):
            raise Refused("NOSQR")
        return home

    def do_request(self, who, priority):
        who.home.service.request(who, who.priority if priority is None else priority)
        self.unsettled = True

    def do_lock(self, who):
        who.home.service.lock(who, front=False)
        self.unsettled = True

    def do_grab(self, who):
        who.home.service.lock(who, front=True)
        self.unsettled = True

    def do_unlock(self, who):
        who.home.service.unlock(who)
        self.unsettled = True

    def do_send(self, who, item):
        sequencer = who.home.service
        if not sequencer.has_grant(who):
            raise Refused("SQRERR", "not granted")
        port = sequencer.port
        self.cause(0, sequencer.phase, port.parent, item_call("next_item", port.name, item=item))
        if sequencer.how == "get":
            sequencer.idle()
            self.cause(0, who.phase, who, item_call("item_done", item=None))
        else:
            sequencer.state = "in_hand"

    def do_end_step(self, who):
        who.step += 1
        if who.step < 3:
            self.cause(0, self.act_phase, who, Call("body" if who.step == 1 else "post_start"))
            return None
        who.live = False
        sequencer = who.home.service
        sequencer.leave(who)
        self.unsettled = True
        self.cause(0, who.phase, who.starter, Call("finished", who.name, str(who.number)))
        if sequencer.has_grant(who):
            self.lapse(sequencer)
        return "finished"
