"""Services: factory, settings, reports, objections."""

from words import Refused, matches, path_text
from scripts import SEVERITIES


class Factory:
    def __init__(self, script):
        self.kinds = script.types
        self.by_type = {}
        self.by_path = {}
        for row in script.lists["override"]:
            if row["at"] is None:
                self.override(row["orig"], row["new"], row["replace"])
            else:
                self.override_at(row["orig"], row["new"], row["at"])

    def override(self, orig, new, replace):
        if replace or orig not in self.by_type:
            self.by_type[orig] = new

    def override_at(self, orig, new, glob):
        self.by_path.setdefault(orig, []).append((glob, new))

    def _step(self, ty, text):
        for glob, new in self.by_path.get(ty, ()):
            if matches(glob, text):
                return new
        return self.by_type.get(ty)

    def made(self, ty, path):
        """The type that is made at a path, None for a loop."""
        text = path_text(path)
        for _ in range(len(self.kinds) + 1):
            new = self._step(ty, text)
            if new is None or new == ty:
                return ty
            ty = new
        return None


class Settings:
    LIMIT = 65536

    def __init__(self, script):
        self.count = 0
        self.fields = {}
        for row in script.lists["set"]:
            self.set(1000, row["scope"], row["field"], row["value"])

    def set(self, precedence, scope, field, value):
        if self.count == self.LIMIT:
            raise Refused("CFGFULL")
        self.count += 1
        self.fields.setdefault(field, []).append((precedence, scope, value))

    def get(self, path, field):
        text = path_text(path)
        best = None
        for precedence, scope, value in self.fields.get(field, ()):
            if (best is None or precedence >= best[0]) and matches(scope, text):
                best = (precedence, value)
        return None if best is None else best[1]


class Reports:
    DEFAULTS = {"INFO": frozenset(["display"]), "WARNING": frozenset(["display"]), "ERROR": frozenset(["display", "count"]),
                "FATAL": frozenset(["display", "exit"])}

    def __init__(self, script):
        self.quit_limit = script.quit_limit
        self.quit_count = 0
        self.severities = dict.fromkeys(SEVERITIES, 0)
        self.ids = {}
        self.levels, self.actions, self.changes = {}, {}, {}
        for row in script.lists["verbosity"]:
            self.set_level(row["scope"], (row["severity"], row["id"]), row["level"])
        for row in script.lists["action"]:
            self.set_actions(row["scope"], (row["severity"], row["id"]), row["actions"])
        for row in script.lists["severity"]:
            self.set_severity(row["scope"], row["from"], row["id"], row["to"])

    def set_level(self, scope, which, level):
        self.levels.setdefault(which, []).append((scope, level))

    def set_actions(self, scope, which, actions):
        self.actions.setdefault(which, []).append((scope, actions))

    def set_severity(self, scope, start, ident, end):
        self.changes.setdefault((start, ident), []).append((scope, end))

    @staticmethod
    def _lookup(table, classes, text, default):
        for which in classes:
            for scope, value in reversed(table.get(which, ())):
                if matches(scope, text):
                    return value
        return default

    def issue(self, path, severity, ident, verbosity):
        """None where nothing comes of it, else the severity, and whether it is displayed and asks for exit."""
        text = path_text(path)
        if severity != "INFO":
            verbosity = 0
        severity = self._lookup(self.changes, [(severity, ident), (severity, None)], text, severity)
        classes = [(severity, ident), (None, ident), (severity, None), (None, None)]
        if verbosity > self._lookup(self.levels, classes, text, 200):
            return None
        actions = self._lookup(self.actions, classes, text, self.DEFAULTS[severity])
        if not actions:
            return None
        self.severities[severity] += 1
        self.ids[ident] = self.ids.get(ident, 0) + 1
        self.quit_count += "count" in actions
        leaves = "exit" in actions or (self.quit_limit != 0 and self.quit_count >= self.quit_limit)
        return severity, "display" in actions, leaves

    def summary(self):
        lines = ["--- UVM Report Summary ---"]
        if self.quit_limit:
            lines.append(f"Quit count : {self.quit_count} of {self.quit_limit}")
        lines.append("** Report counts by severity")
        lines += [f"UVM_{severity} : {count}" for severity, count in self.severities.items()]
        lines.append("** Report counts by id")
        lines += [f"[{ident}] {count}" for ident, count in self.ids.items()]
        return lines


class Objection:
    """The objection of one task phase. `start` is called with a node and ticks where a drain starts."""

    def __init__(self, start):
        self.start = start
        self.source, self.total, self.held, self.drain, self.due = {}, {}, {}, {}, {}

    def stands(self, top):
        return self.total.get(top, 0) > 0 or self.held.get(top, 0) > 0

    def raise_by(self, node, count):
        self.source[node] = self.source.get(node, 0) + count
        self._change(node, count)

    def drop_by(self, node, count):
        source = self.source.get(node, 0)
        if count > source:
            raise Refused("OBJTN_ZERO")
        self.source[node] = source - count
        self._change(node, -count)

    def drained(self, node):
        held = self.held.pop(node)
        del self.due[node]
        self._change(node.parent, -held)

    def _change(self, node, change):
        """Changes a node's total; a fall to zero is held for a drain, and a raise that ends a drain passes the net change."""
        while node is not None and change != 0:
            before = self.total.get(node, 0)
            self.total[node] = before + change
            if before + change == 0 and before > 0 and self.drain.get(node.path, 0):
                self.held[node] = before
                self.due[node] = self.start(node, self.drain[node.path])
                return
            if before + change > 0 and node in self.held:
                change -= self.held.pop(node)
                del self.due[node]
            node = node.parent
