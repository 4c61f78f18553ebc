"""Faults, words of lines, phases and random words."""

import re
from functools import lru_cache


SCRIPT_FAULTS = {"NotText": 1, "NotToml": 2, "UnknownKey": 3, "Missing": 4, "WrongKind": 5, "OutOfRange": 6, "BadName": 7,
                 "UnknownType": 8, "Version": 9, "TooLong": 10}


class Fault(Exception):
    """What ends the work on a file before or during its run: a line for standard error and a status."""

    def __init__(self, line, status=2):
        super().__init__(line)
        self.line = line
        self.status = status


def script_fault(name):
    return Fault(f"script fault {SCRIPT_FAULTS[name]} {name}")


class Refused(Exception):
    """An act is refused: its id and the text of its report."""

    def __init__(self, ident, text=None):
        super().__init__(ident)
        self.ident = ident
        self.text = FATAL_TEXTS[ident] if text is None else text


FATAL_TEXTS = {
    "ILLACT": "act not open to this object", "NOTTASK": "act outside a task phase", "ILLCRT": "created after build",
    "ACTRNG": "value out of range", "ACTLIM": "more than 64 acts", "INVTYP": "type unknown or of another kind",
    "CLDEXT": "child name taken", "TREELIM": "tree limit reached", "OVRDLOOP": "override loop", "FCTTYP": "no object supplied",
    "CFGFULL": "too many settings", "OBJTN_ZERO": "objection dropped below zero", "NOPORT": "no such port",
    "NOSQR": "no such sequencer", "PH_TIMEOUT": "time limit passed", "STALL": "objection stands and nothing is due",
}
TOO_FEW = "too few connections"
TOO_MANY = "too many connections"

# ---------------------------------------------------------------------------------------------------------------------------------------
# Words: names, paths, globs, numbers, items

NAME = re.compile(r"[!-)\,\-0->@-~]{1,64}")
NUMBER = re.compile(r"0|-?[1-9][0-9]*")
ITEM = re.compile(r"\[([^,\[\]]+),([^,\[\]]+),([^,\[\]]+),([^,\[\]]+)\]")
I64 = (-(2 ** 63), 2 ** 63 - 1)
U16 = (0, 2 ** 16 - 1)
U32 = (0, 2 ** 32 - 1)
U64 = (0, 2 ** 64 - 1)
MAX_DEPTH, MAX_PATH, MAX_GLOB = 32, 1024, 1024


def is_name(text):
    return NAME.fullmatch(text) is not None


def path_text(path):
    return ".".join(path)


def fits(path):
    return len(path) <= MAX_DEPTH and len(path_text(path)) <= MAX_PATH


def read_path(text):
    """The path of a text, the top's for the empty one; None where it is none."""
    if text == "":
        return ()
    path = tuple(text.split("."))
    return path if all(map(is_name, path)) and fits(path) else None


def is_glob(text):
    return len(text) <= MAX_GLOB and all("!" <= c <= "~" and c != "/" for c in text)


def glob_under(path, glob):
    if not path:
        return glob
    return path_text(path) + "." + glob if glob else path_text(path)


@lru_cache(maxsize=1 << 18)
def matches(glob, text):
    """Whether a glob matches a whole text: one pass, with a place to go back to."""
    glob = glob.replace("+", "?*")
    at = place = 0
    star = mark = -1
    while place < len(text):
        if at < len(glob) and glob[at] == "*":
            star, mark = at, place
            at += 1
        elif at < len(glob) and glob[at] in ("?", text[place]):
            at += 1
            place += 1
        elif star >= 0:
            mark += 1
            at, place = star + 1, mark
        else:
            return False
    return all(c == "*" for c in glob[at:])


def up_key(path):
    """Path order with a list behind its extensions: no name reaches the last element."""
    return path + ("\x7f",)


def number_of(word, bounds):
    """The number that a word is in canonical form, within bounds; else None."""
    if NUMBER.fullmatch(word) is None or len(word) > 20:
        return None
    value = int(word)
    return value if bounds[0] <= value <= bounds[1] else None


def item_of(word):
    found = ITEM.fullmatch(word)
    if found is None:
        return None
    words = tuple(number_of(w, I64) for w in found.groups())
    return None if None in words else words


def item_text(item):
    return "none" if item is None else "[%d,%d,%d,%d]" % item


def or_none(value):
    return "none" if value is None else str(value)


# ---------------------------------------------------------------------------------------------------------------------------------------
# Phases

COMMON = ["build", "connect", "end_of_elaboration", "start_of_simulation", "run", "extract", "check", "report", "final"]
RUNTIME = ["pre_reset", "reset", "post_reset", "pre_configure", "configure", "post_configure", "pre_main", "main", "post_main",
           "pre_shutdown", "shutdown", "post_shutdown"]
TASKS = frozenset(["run"] + RUNTIME)
DOWN_PHASES = ("build", "final")


def phase_after(phase):
    order = RUNTIME if phase in RUNTIME else COMMON
    at = order.index(phase) + 1
    return order[at] if at < len(order) else None


# ---------------------------------------------------------------------------------------------------------------------------------------
# Random words: rand_pcg's Lcg128Xsl64 and the default seed_from_u64 of rand_core

M64, M128 = 2 ** 64 - 1, 2 ** 128 - 1


class Pcg64:
    MULTIPLIER = 0x2360ED051FC65DA44385DF649FCCF645

    def __init__(self, state, increment):
        self.increment = increment | 1
        self.state = (state + self.increment) & M128
        self._step()

    @classmethod
    def from_u64(cls, seed):
        words, state = [], seed
        for _ in range(8):
            state = (state * 6364136223846793005 + 11634580027462260723) & M64
            mixed = (((state >> 18) ^ state) >> 27) & 0xFFFFFFFF
            turn = state >> 59
            words.append(((mixed >> turn) | (mixed << (32 - turn))) & 0xFFFFFFFF)
        whole = sum(word << (32 * k) for k, word in enumerate(words))
        return cls(whole & M128, whole >> 128)

    def _step(self):
        self.state = (self.state * self.MULTIPLIER + self.increment) & M128

    def word(self):
        self._step()
        turn = self.state >> 122
        mixed = (self.state >> 64) ^ (self.state & M64)
        return ((mixed >> turn) | (mixed << (64 - turn))) & M64
