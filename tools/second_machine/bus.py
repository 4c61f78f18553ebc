"""The objects of the bus bench. A call `next_item p i` is answered by the method `next_item`."""

from words import Fault, read_path
from answers import MODES, Scripted


class Bus:
    """Answers nothing to what it has no method for."""

    def hear(self, call):
        method = getattr(self, "on_" + call.kind, None)
        return method(call) if method else []


class Idle(Bus):
    pass


class Pulse(Bus):
    WAKES = {"1": [("drop", 1), ("wait", 2, 2)], "2": [("raise", 1), ("wait", 8, 3)], "3": [("drop", 1)]}

    def on_run(self, call):
        return [("set_drain", 5), ("raise", 1), ("wait", 10, 1)]

    def on_wake(self, call):
        return self.WAKES.get(call.words[0], [])


class Loud(Bus):
    def on_build(self, call):
        return [("report", "ERROR", "E", 0, text) for text in ("one", "two", "three")]


def config_value(call):
    return None if call.words[1] == "none" else int(call.words[1])


class Sleeper(Bus):
    def __init__(self):
        self.at = 0

    def on_build(self, call):
        return [("get", "at")]

    def on_config(self, call):
        self.at = config_value(call) or 0
        return []

    def on_run(self, call):
        return [("raise", 1)] + ([("wait", self.at, 1)] if self.at >= 0 else [])

    def on_wake(self, call):
        return [("drop", 1)]


class Spinner(Bus):
    def on_run(self, call):
        return [("wait", 0, 1)]

    on_wake = on_run


class BusTest(Bus):
    def on_build(self, call):
        return [("create", "bus_env", "env")]

    def on_run(self, call):
        return [("raise", 1), ("start", "seq_smoke", "seq", ("env", "agent", "sqr"), None)]

    def on_finished(self, call):
        return [("drop", 1)]


def connections(*pairs):
    return [("connect", read_path(start), read_path(end)) for start, end in pairs]


class BusEnv(Bus):
    def on_build(self, call):
        return [("create", "bus_agent", "agent"), ("create", "bus_mem", "mem"), ("create", "bus_scoreboard", "sb"),
                ("add", "reqf", ("fifo", 1)), ("add", "rspf", ("fifo", 1))]

    def on_connect(self, call):
        return connections(("agent.drv.req", "reqf"), ("agent.drv.rsp", "rspf"), ("mem.req", "reqf"), ("mem.rsp", "rspf"),
                           ("agent.mon.ap", "sb.seen"))


class BusAgent(Bus):
    MODES = {1: "WEIGHTED", 2: "RANDOM", 3: "STRICT_FIFO", 4: "STRICT_RANDOM"}

    def on_build(self, call):
        return [("get", "arb")]

    def on_config(self, call):
        mode = self.MODES.get(config_value(call), "FIFO")
        return [("add", "sqr", ("sequencer", mode)), ("create", "bus_driver", "drv"), ("create", "bus_monitor", "mon")]

    def on_connect(self, call):
        return connections(("drv.sqp", "sqr"), ("drv.ap", "mon.bus"))


class BusDriver(Bus):
    def __init__(self):
        self.item = (0, 0, 0, 0)

    def on_build(self, call):
        return [("add", "sqp", ("port", "seq")), ("add", "req", ("port", "put")), ("add", "rsp", ("port", "get")),
                ("add", "ap", ("port", "analysis"))]

    def on_run(self, call):
        return [("ask", "sqp", "next")]

    def on_next_item(self, call):
        return [] if call.item is None else [("put", "req", call.item)]

    def on_stored(self, call):
        return [("take", "rsp")]

    def on_taken(self, call):
        return [("write", "ap", call.item), ("item_done", "sqp", call.item), ("ask", "sqp", "next")]


class SlowDriver(BusDriver):
    def on_next_item(self, call):
        if call.item is None:
            return []
        self.item = call.item
        return [("wait", 3, 1)]

    def on_wake(self, call):
        return [("put", "req", self.item)]


class BusMonitor(Bus):
    def on_build(self, call):
        return [("add", "bus", ("imp",)), ("add", "ap", ("port", "analysis"))]

    def on_written(self, call):
        operation, address, data, _ = call.item
        text = f"{'write' if operation == 1 else 'read'} {address} {data}"
        return [("report", "INFO", "MON", 200, text), ("write", "ap", call.item)]


class BusMem(Bus):
    FLIP = 0

    def __init__(self):
        self.waits = 0
        self.item = (0, 0, 0, 0)
        self.words = {}

    def on_build(self, call):
        return [("add", "req", ("port", "get")), ("add", "rsp", ("port", "put")), ("get", "waits")]

    def on_config(self, call):
        value = config_value(call)
        self.waits = 2 if value is None or value < 0 else value
        return []

    def on_run(self, call):
        return [("take", "req")]

    def on_taken(self, call):
        self.item = call.item
        return [("wait", self.waits, 1)]

    def on_wake(self, call):
        operation, address, data, last = self.item
        if operation == 1:
            self.words[address] = data
        else:
            data = self.words.get(address, 0) ^ self.FLIP
        return [("put", "rsp", (operation, address, data, last))]

    def on_stored(self, call):
        return [("take", "req")]


class BusMemBad(BusMem):
    FLIP = 1


class BusScoreboard(Bus):
    def __init__(self):
        self.seen = self.bad = 0
        self.words = {}

    def on_build(self, call):
        return [("add", "seen", ("imp",))]

    def on_written(self, call):
        operation, address, data, _ = call.item
        self.seen = min(self.seen + 1, 10 ** 18)
        if operation == 1:
            self.words[address] = data
            return []
        expected = self.words.get(address, 0)
        if data == expected:
            return []
        self.bad = min(self.bad + 1, 10 ** 18)
        return [("report", "ERROR", "SB", 0, f"read {address} gave {data} not {expected}")]

    def on_report(self, call):
        return [("report", "INFO", "SB", 200, f"{self.seen} seen {self.bad} bad")]


class SeqSmoke(Bus):
    ITEMS = [(1, 0, 10, 0), (0, 0, 0, 0)]

    def __init__(self):
        self.left = list(self.ITEMS)

    def on_pre_start(self, call):
        return [("end_step",)]

    on_post_start = on_pre_start

    def on_body(self, call):
        return [("request", None)]

    def on_grant(self, call):
        return [("send", self.left.pop(0))] if self.left else []

    def on_item_done(self, call):
        return [("request", None)] if self.left else [("end_step",)]


class SeqBurst(SeqSmoke):
    ITEMS = [(1, 0, 20, 0), (1, 1, 21, 0), (0, 0, 0, 0), (0, 1, 0, 0)]

    def on_body(self, call):
        return [("lock",)]

    def on_held(self, call):
        return [("request", None)]

    def on_item_done(self, call):
        return [("request", None)] if self.left else [("unlock",), ("end_step",)]


class SeqPair(Bus):
    def __init__(self):
        self.ended = 0

    def on_pre_start(self, call):
        return [("end_step",)]

    on_post_start = on_pre_start

    def on_body(self, call):
        return [("start", "seq_smoke", "a", (), None), ("start", "seq_burst", "b", (), 200)]

    def on_finished(self, call):
        self.ended += 1
        return [("end_step",)] if self.ended == 2 else []


BUS_TYPES = {
    "idle": Idle, "pulse": Pulse, "loud": Loud, "sleeper": Sleeper, "spinner": Spinner, "bus_test": BusTest, "bus_env": BusEnv,
    "bus_agent": BusAgent, "bus_driver": BusDriver, "slow_driver": SlowDriver, "bus_monitor": BusMonitor, "bus_mem": BusMem,
    "bus_mem_bad": BusMemBad, "bus_scoreboard": BusScoreboard, "seq_smoke": SeqSmoke, "seq_burst": SeqBurst, "seq_pair": SeqPair,
}


def judge_objects(types, answers):
    """Refuses a script with a type that has neither answers nor an object of the bus bench."""
    for name in types:
        if name not in answers and name not in BUS_TYPES:
            raise Fault(f"type {name} has no [answers.{name}] and is not built in")


class Maker:
    """Makes the objects of a file: from the answers of the type if it has any, otherwise that of the bus bench, otherwise an idle one."""

    def __init__(self, answers, declined):
        self.answers = answers
        self.declined = declined

    def make(self, ty):
        if ty in self.declined:
            return None
        if ty in self.answers:
            return Scripted(self.answers[ty])
        return BUS_TYPES.get(ty, Idle)()
