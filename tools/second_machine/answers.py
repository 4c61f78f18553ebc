"""Calls, acts, and the answers of types whose objects are data."""

from words import COMMON, Fault, I64, RUNTIME, U16, U32, U64, is_glob, is_name, item_of, item_text, number_of, or_none, path_text, read_path
from scripts import ACTIONS, SEVERITIES


class Call:
    __slots__ = ("kind", "words", "item")

    def __init__(self, kind, *words, item=None):
        self.kind = kind
        self.words = words
        self.item = item

    @property
    def text(self):
        return " ".join((self.kind, *self.words))


def item_call(kind, *words, item):
    return Call(kind, *words, item_text(item), item=item)


def is_some_item(word):
    return item_of(word) is not None


def is_item_or_none(word):
    return word == "none" or is_some_item(word)


def is_number(bounds):
    return lambda word: number_of(word, bounds) is not None


CALL_FORMS = {
    **{phase: () for phase in COMMON + RUNTIME},
    "wake": (is_number(U32),),
    "config": (is_name, lambda word: word == "none" or number_of(word, I64) is not None),
    "stored": (is_name,),
    "try_stored": (is_name, lambda word: word in ("yes", "no")),
    "taken": (is_name, is_some_item),
    "try_taken": (is_name, is_item_or_none),
    "peeked": (is_name, is_some_item),
    "written": (is_name, is_some_item),
    "next_item": (is_name, is_item_or_none),
    "pre_start": (), "body": (), "post_start": (), "grant": (), "held": (),
    "item_done": (is_item_or_none,),
    "finished": (is_name, is_number(U64)),
}


def judge_key(key):
    """Whether a key of answers is a call, and whether such a call can have an item."""
    words = key.split(" ")
    if key == "*":
        return True, True
    form = CALL_FORMS.get(words[0])
    star = words[-1] == "*"
    given = words[1:-1] if star else words[1:]
    if form is None or not (len(given) < len(form) if star else len(given) == len(form)):
        return False, False
    if not all(test(word) for test, word in zip(form, given)):
        return False, False
    has_item = bool(form) and form[-1] in (is_some_item, is_item_or_none)
    return True, has_item and (star or given[-1] != "none")


# ---------------------------------------------------------------------------------------------------------------------------------------
# Acts: tuples of a kind and its values. STAR stands for the item of the call.

STAR = "*"
MODES = ("FIFO", "WEIGHTED", "RANDOM", "STRICT_FIFO", "STRICT_RANDOM")
PORT_KINDS = ("put", "get", "analysis", "seq")
ITEM_ACTS = {"put": 2, "try_put": 2, "write": 2, "item_done": 2, "send": 1}


def actions_text(actions):
    return ",".join(word for word in ACTIONS if word in actions) or "none"


def which_text(which):
    severity, ident = which
    if severity is None:
        return "all" if ident is None else f"id {ident}"
    return severity if ident is None else f"{severity} {ident}"


def item_or_star(item):
    return STAR if item == STAR else item_text(item)


def what_text(what):
    return " ".join(str(word) for word in what)


ACT_TEXTS = {
    "create": lambda ty, name: f"{ty} {name}",
    "add": lambda name, what: f"{name} {what_text(what)}",
    "set": lambda glob, field, value: f"({glob}) {field} {value}",
    "get": lambda field: field,
    "override": lambda orig, new, replace: f"{orig} {new}" + (" replace" if replace else ""),
    "override_at": lambda orig, new, glob: f"{orig} {new} at ({glob})",
    "connect": lambda start, end: f"({path_text(start)}) ({path_text(end)})",
    "raise": str,
    "drop": str,
    "set_drain": str,
    "wait": lambda ticks, tag: f"{ticks} {tag}",
    "report": lambda severity, ident, verbosity, text: f"{severity} {ident}",
    "verbosity": lambda which, level: f"{which_text(which)} {level}",
    "actions": lambda which, actions: f"{which_text(which)} {actions_text(actions)}",
    "severity": lambda start, ident, end: f"{start} {or_none(ident)} {end}",
    "put": lambda port, item: f"{port} {item_or_star(item)}",
    "try_put": lambda port, item: f"{port} {item_or_star(item)}",
    "write": lambda port, item: f"{port} {item_or_star(item)}",
    "take": str,
    "try_take": str,
    "peek": str,
    "ask": lambda port, how: f"{port} {how}",
    "item_done": lambda port, item: f"{port} {item_or_star(item)}",
    "start": lambda ty, name, on, priority: f"{ty} {name} ({path_text(on)}) {or_none(priority)}",
    "request": or_none,
    "lock": lambda: "",
    "grab": lambda: "",
    "unlock": lambda: "",
    "send": item_or_star,
    "end_step": lambda: "",
}


def act_text(act):
    words = ACT_TEXTS[act[0]](*act[1:])
    kind = "override" if act[0] == "override_at" else act[0]
    return f"{kind} {words}" if words else kind


class NoAct(Exception):
    pass


def need(value):
    if value is None:
        raise NoAct
    return value


def as_name(word):
    return need(word if is_name(word) else None)


def as_number(bounds):
    return lambda word: need(number_of(word, bounds))


def as_bracketed(word):
    return need(word[1:-1] if len(word) >= 2 and word[0] == "(" and word[-1] == ")" else None)


def as_path(word):
    return need(read_path(as_bracketed(word)))


def as_glob(word):
    glob = as_bracketed(word)
    return need(glob if is_glob(glob) else None)


def as_item(word):
    return STAR if word == STAR else need(item_of(word))


def as_response(word):
    return None if word == "none" else as_item(word)


def as_word(*words):
    return lambda word: need(word if word in words else None)


def as_priority(word):
    return None if word == "none" else need(number_of(word, U16))


def as_id(word):
    return None if word == "none" else as_name(word)


def as_actions(word):
    return frozenset() if word == "none" else frozenset(as_word(*ACTIONS)(w) for w in word.split(","))


as_severity = as_word(*SEVERITIES)
as_u16, as_u64 = as_number(U16), as_number(U64)

PLAIN_ACTS = {
    "create": (as_name, as_name),
    "set": (as_glob, as_name, as_number(I64)),
    "get": (as_name,),
    "connect": (as_path, as_path),
    "raise": (as_u16,),
    "drop": (as_u16,),
    "set_drain": (as_u64,),
    "wait": (as_u64, as_number(U32)),
    "severity": (as_severity, as_id, as_severity),
    "put": (as_name, as_item),
    "try_put": (as_name, as_item),
    "write": (as_name, as_item),
    "take": (as_name,),
    "try_take": (as_name,),
    "peek": (as_name,),
    "ask": (as_name, as_word("next", "try", "get")),
    "item_done": (as_name, as_response),
    "start": (as_name, as_name, as_path, as_priority),
    "request": (as_priority,),
    "lock": (),
    "grab": (),
    "unlock": (),
    "send": (as_item,),
    "end_step": (),
}


def each(readers, words):
    if len(readers) != len(words):
        raise NoAct
    return tuple(read(word) for read, word in zip(readers, words))


def read_what(words):
    rest = {"sequencer": (as_word(*MODES),), "fifo": (as_u16,), "port": (as_word(*PORT_KINDS),), "export": (as_word(*PORT_KINDS),),
            "imp": ()}.get(words[0])
    return (words[0], *each(need(rest), words[1:]))


def read_override(words):
    if len(words) == 4 and words[2] == "at":
        return ("override_at", as_name(words[0]), as_name(words[1]), as_glob(words[3]))
    if len(words) == 3:
        as_word("replace")(words[2])
    return ("override", *each((as_name, as_name), words[:2]), need(len(words) == 3 if len(words) <= 3 else None))


def read_which(words):
    if len(words) == 1:
        return (None, None) if words[0] == "all" else (as_severity(words[0]), None)
    first, ident = each((as_word("id", *SEVERITIES), as_name), words)
    return (None if first == "id" else first, ident)


def read_report(text):
    """report SEVERITY ID, or report SEVERITY ID VERBOSITY TEXT with the text to the end."""
    words = text.split(" ", 4)
    head = each((as_severity, as_name), words[1:3])
    if len(words) == 3:
        return ("report", *head, 0, "")
    verbosity = as_u16(words[3])
    behind = words[4] if len(words) == 5 else ""
    good = len(behind) <= 200 and all(" " <= c <= "~" for c in behind) and (behind or verbosity)
    return ("report", *head, verbosity, need(behind if good else None))


def read_act(text):
    """The act whose line is the text, with what a report says behind; NoAct where there is none."""
    words = text.split(" ")
    kind, rest = words[0], words[1:]
    if kind == "report":
        return read_report(text)
    if kind in PLAIN_ACTS:
        act = (kind, *each(PLAIN_ACTS[kind], rest))
    elif kind == "add" and len(rest) >= 2:
        act = ("add", as_name(rest[0]), read_what(rest[1:]))
    elif kind == "override":
        act = read_override(rest)
    elif kind == "verbosity" and rest:
        act = ("verbosity", read_which(rest[:-1]), as_u16(rest[-1]))
    elif kind == "actions" and rest:
        act = ("actions", read_which(rest[:-1]), as_actions(rest[-1]))
    else:
        raise NoAct
    return need(act if act_text(act) == text else None)


def takes_star(act):
    return act[0] in ITEM_ACTS and act[-1] == STAR


# ---------------------------------------------------------------------------------------------------------------------------------------
# Answers: the rules of types whose objects are data

class Rule:
    """A key of a type: which calls it fits, and its answers."""

    def __init__(self, key, answers, every):
        self.key = key
        self.start = key[:-1] if key.endswith("*") else None
        self.answers = answers
        self.every = every

    def fits(self, text):
        if self.start is None:
            return text == self.key
        return text.startswith(self.start) and len(text) > len(self.start)

    def answer(self, count, item):
        """The answer after so many, with the item put in; None where there is none left, or no item."""
        if self.every:
            acts = self.answers[0]
        elif count < len(self.answers):
            acts = self.answers[count]
        else:
            return None
        if item is None:
            return None if any(map(takes_star, acts)) else acts
        return [act[:-1] + (item,) if takes_star(act) else act for act in acts]


def is_texts(value):
    return isinstance(value, list) and all(isinstance(text, str) for text in value)


def read_rule(place, key, value):
    if is_texts(value):
        lists, every = [value], True
    elif isinstance(value, list) and all(map(is_texts, value)):
        lists, every = value, False
    else:
        raise Fault(f"{place}: expected an array of action strings")
    is_call, has_item = judge_key(key)
    if not is_call:
        raise Fault(f"{place}: not a call")
    return Rule(key, [[read_reply(place, text, has_item) for text in texts] for texts in lists], every)


def read_reply(place, text, has_item):
    try:
        act = read_act(text)
    except NoAct:
        raise Fault(f"{place}: not an action: {text}") from None
    if takes_star(act) and not has_item:
        raise Fault(f"{place}: '*' needs a call that carries an item: {text}")
    return act


def read_answers(tree, types):
    if not isinstance(tree, dict):
        raise Fault("answers: not a table")
    answers = {}
    for name in sorted(tree):
        if not is_name(name):
            raise Fault(f"answers.{name}: not a name")
        if not isinstance(tree[name], dict):
            raise Fault(f"answers.{name}: not a table")
        rules = [read_rule(f'answers.{name}."{key}"', key, tree[name][key]) for key in sorted(tree[name])]
        answers[name] = sorted(rules, key=lambda rule: (-len(rule.key), rule.start is not None))
    for name in answers:
        if name not in types:
            raise Fault(f"answers.{name}: not declared in 'type'")
    return answers


class Scripted:
    """An object that keeps nothing but how often each key has answered."""

    def __init__(self, rules):
        self.rules = rules
        self.counts = [0] * len(rules)

    def hear(self, call):
        text = call.text
        for at, rule in enumerate(self.rules):
            if rule.fits(text):
                acts = rule.answer(self.counts[at], call.item)
                if acts is not None:
                    self.counts[at] += 1
                    return acts
        return []
