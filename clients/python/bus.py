"""The memory bus, with objects in Python: the built-in types of docs/REFERENCE.md.

    python3 bus.py --kernel ../../crates/script_bench/out/script_bench ../../crates/bus_bench/data/bus.toml
"""
import sys

from geqiwlla import Component, Sequence, component, main, sequence

WRITE = 1
# A count of the scoreboard stops here.
MOST = 10 ** 18


@component("idle")
class Idle(Component):
    """Answers every call with no actions."""


@component("loud")
class Loud(Component):
    """Reports three ERRORs in build."""

    def build_phase(self):
        for text in ("one", "two", "three"):
            self.error("E", text)


@component("pulse")
class Pulse(Component):
    """Raises and drops two objections, and raises the second before the first has drained."""

    def run_phase(self):
        self.set_drain(5)
        self.raise_objection()
        self.wait(10, 1)

    def wake(self, tag):
        if tag == 1:
            self.drop_objection()
            self.wait(2, 2)
        elif tag == 2:
            self.raise_objection()
            self.wait(8, 3)
        elif tag == 3:
            self.drop_objection()


@component("sleeper")
class Sleeper(Component):
    """Keeps run from ending for a number of ticks, or forever if the number is negative."""

    ticks = 0

    def build_phase(self):
        self.get_config("at")

    def config(self, field, value):
        self.ticks = 0 if value is None else value

    def run_phase(self):
        self.raise_objection()
        if self.ticks >= 0:
            self.wait(self.ticks, 1)

    def wake(self, tag):
        self.drop_objection()


@component("spinner")
class Spinner(Component):
    """Waits for 0 ticks, repeatedly."""

    def run_phase(self):
        self.wait(0, 1)

    def wake(self, tag):
        self.wait(0, 1)


@component("bus_test")
class BusTest(Component):
    """Runs a seq_smoke in the environment of the bus."""

    def build_phase(self):
        self.create("bus_env", "env")

    def run_phase(self):
        self.raise_objection()
        self.start("seq_smoke", "seq", "env.agent.sqr")

    def finished(self, name, number):
        self.drop_objection()


@component("bus_env")
class BusEnv(Component):
    """Builds the environment of the bus, and connects its parts."""

    def build_phase(self):
        self.create("bus_agent", "agent")
        self.create("bus_mem", "mem")
        self.create("bus_scoreboard", "sb")
        self.add_fifo("reqf", 1)
        self.add_fifo("rspf", 1)

    def connect_phase(self):
        self.connect("agent.drv.req", "reqf")
        self.connect("agent.drv.rsp", "rspf")
        self.connect("mem.req", "reqf")
        self.connect("mem.rsp", "rspf")
        self.connect("agent.mon.ap", "sb.seen")


@component("bus_agent")
class BusAgent(Component):
    """Builds the sequencer, the driver and the monitor of the bus, and connects them."""

    MODES = {1: "WEIGHTED", 2: "RANDOM", 3: "STRICT_FIFO", 4: "STRICT_RANDOM"}

    def build_phase(self):
        self.get_config("arb")

    def config(self, field, value):
        self.add_sequencer("sqr", self.MODES.get(value, "FIFO"))
        self.create("bus_driver", "drv")
        self.create("bus_monitor", "mon")

    def connect_phase(self):
        self.connect("drv.sqp", "sqr")
        self.connect("drv.ap", "mon.bus")


@component("bus_driver")
class BusDriver(Component):
    """Passes items from a sequencer to a memory, and their results back."""

    def build_phase(self):
        self.add_port("sqp", "seq")
        self.add_port("req", "put")
        self.add_port("rsp", "get")
        self.add_port("ap", "analysis")

    def run_phase(self):
        self.get_next_item("sqp")

    def next_item(self, port, item):
        if item is not None:
            self.put("req", item)

    def stored(self, port):
        self.take("rsp")

    def taken(self, port, item):
        self.write("ap", item)
        self.item_done("sqp", item)
        self.get_next_item("sqp")


@component("slow_driver")
class SlowDriver(BusDriver):
    """Puts an item 3 ticks after it came."""

    item = (0, 0, 0, 0)

    def next_item(self, port, item):
        if item is not None:
            self.item = item
            self.wait(3, 1)

    def wake(self, tag):
        self.put("req", self.item)


@component("bus_monitor")
class BusMonitor(Component):
    """Reports the items that are written to it, and passes them on."""

    def build_phase(self):
        self.add_imp("bus")
        self.add_port("ap", "analysis")

    def written(self, imp, item):
        operation, address, data, _ = item
        self.info("MON", "%s %d %d" % ("write" if operation == WRITE else "read", address, data))
        self.write("ap", item)


@component("bus_mem")
class BusMem(Component):
    """Performs the items of the bus, as a memory."""

    FLIP = 0

    def __init__(self):
        self.waits = 0
        self.item = (0, 0, 0, 0)
        self.words = {}

    def build_phase(self):
        self.add_port("req", "get")
        self.add_port("rsp", "put")
        self.get_config("waits")

    def config(self, field, value):
        self.waits = 2 if value is None or value < 0 else value

    def run_phase(self):
        self.take("req")

    def taken(self, port, item):
        self.item = item
        self.wait(self.waits, 1)

    def wake(self, tag):
        operation, address, data, extra = self.item
        if operation == WRITE:
            self.words[address] = data
        else:
            data = self.words.get(address, 0) ^ self.FLIP
        self.put("rsp", (operation, address, data, extra))

    def stored(self, port):
        self.take("req")


@component("bus_mem_bad")
class BusMemBad(BusMem):
    """Flips the lowest bit of each word that is read."""

    FLIP = 1


@component("bus_scoreboard")
class BusScoreboard(Component):
    """Checks that each read gives the word that was last written at its address."""

    def __init__(self):
        self.seen = self.bad = 0
        self.words = {}

    def build_phase(self):
        self.add_imp("seen")

    def written(self, imp, item):
        operation, address, data, _ = item
        word = self.words.get(address, 0)
        if operation == WRITE:
            self.words[address] = data
        elif data != word:
            self.bad = min(self.bad + 1, MOST)
            self.error("SB", "read %d gave %d not %d" % (address, data, word))
        self.seen = min(self.seen + 1, MOST)

    def report_phase(self):
        self.info("SB", "%d seen %d bad" % (self.seen, self.bad))


class Sender(Sequence):
    """Sends one of its items at each grant."""

    ITEMS = ()
    sent = 0

    def grant(self):
        if self.sent < len(self.ITEMS):
            self.send(self.ITEMS[self.sent])
            self.sent += 1


@sequence("seq_smoke")
class SeqSmoke(Sender):
    """Writes a word, and reads it."""

    ITEMS = ((1, 0, 10, 0), (0, 0, 0, 0))

    def body(self):
        self.request()

    def item_done(self, response):
        if self.sent < len(self.ITEMS):
            self.request()
        else:
            self.end_step()


@sequence("seq_burst")
class SeqBurst(Sender):
    """Writes two words and reads them, under a lock."""

    ITEMS = ((1, 0, 20, 0), (1, 1, 21, 0), (0, 0, 0, 0), (0, 1, 0, 0))

    def body(self):
        self.lock()

    def held(self):
        self.request()

    def item_done(self, response):
        if self.sent < len(self.ITEMS):
            self.request()
        else:
            self.unlock()
            self.end_step()


@sequence("seq_pair")
class SeqPair(Sequence):
    """Starts two sequences, and ends when both have finished."""

    ended = 0

    def body(self):
        self.start("seq_smoke", "a")
        self.start("seq_burst", "b", priority=200)

    def finished(self, name, number):
        if self.ended < 2:
            self.ended += 1
            if self.ended == 2:
                self.end_step()


if __name__ == "__main__":
    sys.exit(main())
