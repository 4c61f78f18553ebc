"""The tree: nodes, FIFOs, sequencers; sequences."""

from collections import deque

from words import Refused, path_text


class Node:
    """A node of the tree. `label` stands in entries, `source` in reports; a node is its own home."""

    is_sequence = False
    live = True

    def __init__(self, parent, name, kind, detail=None):
        self.parent = parent
        self.path = () if parent is None else parent.path + (name,)
        self.name = name
        self.kind = kind
        self.detail = detail
        self.children = {}
        self.object = None
        self.label = self.source = path_text(self.path) if self.path else "uvm_top"
        self.links = []
        self.targets, self.fault = (), None
        self.service = None

    @property
    def home(self):
        return self

    def carries(self, kind):
        """Whether traffic of a kind goes through or ends here."""
        if self.kind in ("port", "export"):
            return self.detail == kind
        if self.kind == "fifo":
            return kind in ("put", "get") or (kind == "analysis" and self.detail == 0)
        return kind == {"imp": "analysis", "sequencer": "seq"}.get(self.kind)


class Sequence:
    is_sequence = True

    def __init__(self, number, home, parent, starter, name, priority, phase):
        self.number = number
        self.home = home
        self.parent = parent
        self.starter = starter
        self.name = name
        self.priority = priority
        self.phase = phase
        self.names = (parent.names if parent else ()) + (name,)
        self.source = f"{home.source}@@{path_text(self.names)}"
        self.label = f"{self.source}#{number}"
        self.live = True
        self.step = 0
        self.object = None

    def is_under(self, other):
        sequence = self
        while sequence is not None:
            if sequence is other:
                return True
            sequence = sequence.parent
        return False


class Waiting:
    """A put, take or peek that waits at a FIFO."""

    def __init__(self, kind, port, phase, item=None):
        self.kind = kind
        self.port = port
        self.who = port.parent
        self.phase = phase
        self.item = item


class Fifo:
    def __init__(self, size):
        self.size = size
        self.items = deque()
        self.puts, self.takes = deque(), deque()

    def has_room(self):
        return self.size == 0 or len(self.items) < self.size

    def try_put(self, item):
        good = self.has_room() and not self.puts
        if good:
            self.items.append(item)
        return good

    def try_take(self):
        return self.items.popleft() if self.items and not self.takes else None

    def move(self):
        """The request that passes now, with the item that it moves or shows; None where none does."""
        if self.takes and self.items:
            request = self.takes.popleft()
            return request, self.items[0] if request.kind == "peek" else self.items.popleft()
        if self.puts and self.has_room():
            request = self.puts.popleft()
            self.items.append(request.item)
            return request, request.item
        return None

    def end_phase(self, phase):
        self.puts = deque(request for request in self.puts if request.phase != phase)
        self.takes = deque(request for request in self.takes if request.phase != phase)


class Sequencer:
    """Queue, holders and driver. The driver is idle, waiting, granted or in_hand."""

    def __init__(self, mode):
        self.mode = mode
        self.queue = []
        self.holders = []
        self.idle()

    def idle(self):
        self.state = "idle"
        self.port = self.how = self.sequence = self.phase = None

    def request(self, sequence, priority):
        if any(kind == "item" and who is sequence for kind, who, _ in self.queue) or self.has_grant(sequence):
            raise Refused("SQRERR", "asked twice")
        self.queue.append(("item", sequence, priority))

    def lock(self, sequence, front):
        if any(kind == "lock" and who is sequence for kind, who, _ in self.queue):
            raise Refused("SQRERR", "asked twice")
        self.queue.insert(0 if front else len(self.queue), ("lock", sequence, None))

    def unlock(self, sequence):
        for at in range(len(self.holders) - 1, -1, -1):
            if self.holders[at] is sequence:
                del self.holders[at]
                return
        raise Refused("SQRERR", "not held")

    def is_blocked(self, sequence):
        return any(not sequence.is_under(holder) for holder in self.holders)

    def settle(self):
        """The lock that leads the unblocked requests, granted now."""
        for at, (kind, sequence, _) in enumerate(self.queue):
            if not self.is_blocked(sequence):
                if kind != "lock":
                    return None
                del self.queue[at]
                self.holders.append(sequence)
                return sequence
        return None

    def candidates(self):
        return [entry for entry in self.queue if entry[0] == "item" and not self.is_blocked(entry[1])]

    def ask(self, port, how, phase):
        """Whether the ask stands: a `try` without a candidate does not."""
        if self.state != "idle":
            raise Refused("SQRERR", "asked twice")
        if how == "try" and not self.candidates():
            return False
        self.state, self.port, self.how, self.phase = "waiting", port, how, phase
        return True

    def grant(self, draw):
        """The sequence that is granted now and the word that was drawn; None where there is none to grant."""
        candidates = self.candidates() if self.state == "waiting" else []
        if not candidates:
            return None
        chosen, word = self._choose(candidates, draw)
        self.queue.remove(chosen)
        self.state, self.sequence = "granted", chosen[1]
        return chosen[1], word

    def _choose(self, candidates, draw):
        if self.mode in ("STRICT_FIFO", "STRICT_RANDOM"):
            greatest = max(priority for _, _, priority in candidates)
            candidates = [entry for entry in candidates if entry[2] == greatest]
        if self.mode in ("FIFO", "STRICT_FIFO") or len(candidates) < 2:
            return candidates[0], None
        word = draw()
        if self.mode == "WEIGHTED":
            return self._weighted(candidates, word), word
        return candidates[word % len(candidates)], word

    @staticmethod
    def _weighted(candidates, word):
        left = word % sum(priority for _, _, priority in candidates)
        for entry in candidates:
            if left < entry[2]:
                return entry
            left -= entry[2]
        raise AssertionError

    def has_grant(self, sequence):
        return self.state == "granted" and self.sequence is sequence

    def lapse(self):
        """An unsent grant lapses: the ask stands again; true where it was a `try`, which is answered with none."""
        self.state, self.sequence = "waiting", None
        return self.how == "try"

    def leave(self, sequence):
        self.queue = [entry for entry in self.queue if entry[1] is not sequence]
        self.holders = [holder for holder in self.holders if holder is not sequence]
