"""Scripts: the keys of a document, judged in their order."""

import tomllib

from words import Fault, I64, RUNTIME, U16, is_glob, is_name, read_path, script_fault


SEVERITIES = ("INFO", "WARNING", "ERROR", "FATAL")
ACTIONS = ("display", "count", "exit")
MAX_TICKS, MAX_TIME = 10 ** 15, 10 ** 18
REQUIRED = object()


def is_integer(value):
    return isinstance(value, int) and not isinstance(value, bool)


def judged(good, value, fault):
    if not good:
        raise script_fault(fault)
    return value


def read_integer(low, high):
    def read(value):
        judged(is_integer(value), value, "WrongKind")
        return judged(low <= value <= high, value, "OutOfRange")
    return read


def read_boolean(value):
    return judged(isinstance(value, bool), value, "WrongKind")


def read_word(words):
    def read(value):
        judged(isinstance(value, str), value, "WrongKind")
        return judged(value in words, value, "OutOfRange")
    return read


def read_name(value):
    judged(isinstance(value, str), value, "WrongKind")
    return judged(is_name(value), value, "BadName")


def read_glob(value):
    judged(isinstance(value, str), value, "WrongKind")
    return judged(is_glob(value), value, "BadName")


def read_named_path(value):
    judged(isinstance(value, str), value, "WrongKind")
    return judged(bool(read_path(value)), read_path(value), "BadName")


def read_actions(value):
    judged(isinstance(value, list), value, "WrongKind")
    judged(all(isinstance(word, str) for word in value), value, "WrongKind")
    judged(all(word in ACTIONS for word in value), value, "OutOfRange")
    return frozenset(value)


read_severity = read_word(SEVERITIES)


class Script:
    """The script of a TOML tree."""

    def __init__(self, tree, extra_keys):
        self.types = {}
        self.version = self._version(tree)
        self.log_limit = 1_000_000 if self.version == 1 else 8_000_000
        arrays = [name for name in self.ARRAYS if name != "drain" or self.version == 2]
        listed = {"version", "test", "time_limit", "quit_limit", "runtime", *arrays, *extra_keys}
        judged(listed.issuperset(tree), None, "UnknownKey")
        self.test = read_name(tree["test"]) if "test" in tree else None
        self.time_limit = read_integer(0, MAX_TIME)(tree.get("time_limit", MAX_TIME))
        self.quit_limit = read_integer(*U16)(tree.get("quit_limit", 0))
        self.runtime = read_boolean(tree.get("runtime", False))
        self.lists = {name: self._array(name, tree.get(name, [])) for name in arrays}
        if self.test is not None:
            self.judge_test()

    @staticmethod
    def _version(tree):
        judged("version" in tree, None, "Missing")
        judged(is_integer(tree["version"]), None, "WrongKind")
        return judged(tree["version"] in (1, 2), tree["version"], "Version")

    def _array(self, name, array):
        judged(isinstance(array, list), None, "WrongKind")
        judged(len(array) <= {"type": 1024, "set": 65536}.get(name, len(array)), None, "OutOfRange")
        return [self._element(name, element) for element in array]

    def _element(self, name, element):
        judged(isinstance(element, dict), None, "WrongKind")
        keys = self.ARRAYS[name]
        judged(all(key in keys for key in element), None, "UnknownKey")
        row = {}
        for key, (read, default) in keys.items():
            if key in element:
                row[key] = read(element[key])
                self._judge_key(name, key, row)
            else:
                judged(default is not REQUIRED, None, "Missing")
                row[key] = default
        if name == "type":
            self.types[row["name"]] = row["kind"]
        return row

    def _judge_key(self, name, key, row):
        """What a key's value has to do with the rest of the script."""
        if (name, key) == ("type", "name"):
            judged(row["name"] not in self.types, None, "BadName")
        if (name, key) in (("override", "orig"), ("override", "new"), ("probe", "type")):
            judged(row[key] in self.types, None, "UnknownType")
        if (name, key) == ("override", "new"):
            judged(self.types[row["orig"]] == self.types[row["new"]], None, "WrongKind")

    def judge_test(self):
        if self.test not in self.types:
            raise Fault(f"test {self.test} is not declared in 'type' ({script_fault('UnknownType').line})")
        judged(self.types[self.test] == "component", None, "WrongKind")

    ARRAYS = {
        "type": {"name": (read_name, REQUIRED), "kind": (read_word(("component", "sequence")), REQUIRED)},
        "override": {"orig": (read_name, REQUIRED), "new": (read_name, REQUIRED), "at": (read_glob, None), "replace": (read_boolean, True)},
        "set": {"scope": (read_glob, REQUIRED), "field": (read_name, REQUIRED), "value": (read_integer(*I64), REQUIRED)},
        "verbosity": {"scope": (read_glob, REQUIRED), "id": (read_name, None), "severity": (read_severity, None),
                      "level": (read_integer(0, 10000), REQUIRED)},
        "action": {"scope": (read_glob, REQUIRED), "id": (read_name, None), "severity": (read_severity, None),
                   "actions": (read_actions, REQUIRED)},
        "severity": {"scope": (read_glob, REQUIRED), "from": (read_severity, REQUIRED), "id": (read_name, None),
                     "to": (read_severity, REQUIRED)},
        "probe": {"type": (read_name, REQUIRED), "path": (read_named_path, REQUIRED)},
        "drain": {"path": (read_named_path, REQUIRED), "phase": (read_word(("run", *RUNTIME)), REQUIRED),
                  "ticks": (read_integer(0, MAX_TICKS), REQUIRED)},
    }


def integers_fit(value):
    """Whether each integer of a TOML tree is one of 64 bits: the `toml` crate refuses others."""
    if isinstance(value, dict):
        return all(map(integers_fit, value.values()))
    if isinstance(value, list):
        return all(map(integers_fit, value))
    return not is_integer(value) or I64[0] <= value <= I64[1]


def allow_toml_1_1():
    """The TOML of scripts is 1.1, tomllib's 1.0: inline tables over several lines, a comma behind the last key, and two escapes."""
    parser = tomllib._parser
    old_escape = parser.parse_basic_str_escape

    def inline_table(src, pos, parse_float):
        nested, flags = parser.NestedDict(), parser.Flags()
        pos = parser.skip_comments_and_array_ws(src, pos + 1)
        while not src.startswith("}", pos):
            pos, key, value = parser.parse_key_value_pair(src, pos, parse_float)
            if flags.is_(key, parser.Flags.FROZEN):
                raise parser.suffixed_err(src, pos, "a key stands in a table that is closed")
            nest = nested.get_or_create_nest(key[:-1], access_lists=False)
            if key[-1] in nest:
                raise parser.suffixed_err(src, pos, "a key stands twice")
            nest[key[-1]] = value
            if isinstance(value, (dict, list)):
                flags.set(key, parser.Flags.FROZEN, recursive=True)
            pos = parser.skip_comments_and_array_ws(src, pos)
            if src.startswith(",", pos):
                pos = parser.skip_comments_and_array_ws(src, pos + 1)
            elif not src.startswith("}", pos):
                raise parser.suffixed_err(src, pos, "an inline table goes on")
        return pos + 1, nested.dict

    def escape(src, pos, *, multiline=False):
        if src.startswith("\\e", pos):
            return pos + 2, "\x1b"
        if src.startswith("\\x", pos):
            return parser.parse_hex_char(src, pos + 2, 2)
        return old_escape(src, pos, multiline=multiline)

    parser.parse_inline_table = inline_table
    parser.parse_basic_str_escape = escape
    parser.parse_basic_str_escape_multiline = lambda src, pos: escape(src, pos, multiline=True)


allow_toml_1_1()


def read_tree(data):
    if len(data) > 1_048_576:
        raise script_fault("TooLong")
    try:
        text = data.decode("utf-8")
    except UnicodeDecodeError:
        raise script_fault("NotText") from None
    try:
        tree = tomllib.loads(text.removeprefix("\ufeff"))
    except (tomllib.TOMLDecodeError, ValueError, RecursionError):
        raise script_fault("NotToml") from None
    return judged(integers_fit(tree), tree, "NotToml")
