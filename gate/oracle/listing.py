"""Listings of superstep code: their text, and which code is well formed, as docs/MACHINE.md says them."""
import re
from types import SimpleNamespace

from language import KEYWORDS, RULES, Refused

LONGEST = 1 << 23
# The operands of each word: u and p registers of the uniform and of the private side, N a value, P a position, L a line, C an entry, T an
# instruction.
WORDS = {"mark": "L", "uset": "uN", "ucopy": "uu", "uneg": "uuP", "unot": "uu", "pset": "pN", "pcopy": "pp", "pneg": "ppP", "pnot": "pp",
         "pfrom": "pu", "pindex": "p", "enter": "uuP", "leave": "", "mask": "p", "flip": "", "unmask": "", "uask": "uCuP", "pask": "pCpP",
         "uput": "CuuP", "pput": "CppP", "send": "", "reply": "", "vote": "u", "print": "u", "jump": "T", "jzero": "uT", "halt": ""}
WORDS |= {f"{side}{it}": side * 3 + "P" for side in "up" for it in ("add", "sub", "mul", "div", "mod")}
WORDS |= {f"{side}{it}": side * 3 for side in "up" for it in ("eq", "lt", "le", "and", "or")}
IN_RANGE = {it for it in WORDS if it[0] == "p" and it != "print"} | {"leave", "mask", "flip", "unmask", "vote"}
OUT_OF_RANGE = {"enter", "uask", "uput"}
READS, PUTS = {"uask", "pask"}, {"uput", "pput"}
REGISTERS = {it for it in WORDS if it[0] in "up" and it not in READS | PUTS | {"print", "unmask"}}
TOP = {"u": 65535, "p": 65535, "C": 65535, "T": 65535, "P": 4294967295, "L": 4294967295}


class Lines:
    """The lines of a text, one by one; what is refused is told at the first that doesn't go on."""

    def __init__(self, text):
        self.text, self.at, self.line = text, 0, 0

    def fail(self):
        raise Refused("E15", self.line)

    def next(self):
        """The words of the next line."""
        self.line = self.at
        end = self.text.find(b"\n", self.at)
        if end < 0:
            self.fail()
        self.at = end + 1
        return self.text[self.line:end].decode("latin-1").split(" ")

    def number(self, word, low, high):
        if not re.fullmatch(r"0|-?[1-9][0-9]*", word) or not low <= int(word) <= high:
            self.fail()
        return int(word)

    def named(self, name, *ranges):
        """The numbers of a line that begins so."""
        words = self.next()
        if len(words) != 1 + len(ranges) or words[0] != name:
            self.fail()
        return [self.number(word, *it) for word, it in zip(words[1:], ranges)]


def read_listing(text):
    """The code of a listing, or `Refused`: E2 and E15."""
    if len(text) > LONGEST:
        raise Refused("E2")
    lines = Lines(text)
    lines.named("bsp", (1, 1))
    words = lines.next()
    if len(words) != 2 or words[0] != "rule" or words[1] not in RULES:
        lines.fail()
    code = SimpleNamespace(rule=words[1], procs=lines.named("procs", (1, 16384))[0], entries=[], cells=0)
    while text.startswith((b"cell ", b"array "), lines.at):
        read_entry(lines, code)
    code.uniform, = lines.named("uniform", (0, 65536))
    code.private, = lines.named("private", (0, 65536))
    count, = lines.named("code", (0, 65536))
    code.instructions = [read_instruction(lines, number) for number in range(count)]
    if lines.at < len(text):
        lines.line = lines.at
        lines.fail()
    return code


def read_entry(lines, code):
    words = lines.next()
    if len(words) != (2 if words[0] == "cell" else 4) or words[0] not in ("cell", "array"):
        lines.fail()
    name = words[1]
    if not re.fullmatch(r"[A-Za-z][A-Za-z0-9_]*", name) or name in KEYWORDS or name in [it.name for it in code.entries]:
        lines.fail()
    low, high = (lines.number(it, 0, (1 << 63) - 1) for it in words[2:]) if words[2:] else (0, 0)
    if low > high or code.cells + high - low + 1 > 1 << 20:
        lines.fail()
    code.entries.append(SimpleNamespace(name=name, array=bool(words[2:]), low=low, high=high, first=code.cells))
    code.cells += high - low + 1


def read_instruction(lines, number):
    words = lines.next()
    if len(words) < 2 or words[0] != str(number) or words[1] not in WORDS or len(words) != 2 + len(WORDS[words[1]]):
        lines.fail()
    kinds = WORDS[words[1]]
    ranges = [(-1 << 63, (1 << 63) - 1) if it == "N" else (0, TOP[it]) for it in kinds]
    return (words[1], *[lines.number(word, *it) for word, it in zip(words[2:], ranges)])


# ---- what is well formed

START = SimpleNamespace(inside=False, masks=0, reads=0, put=False, waits=False)


def first_wrong(code):
    """The first instruction that can't be met together with those before it, with the reason; or None."""
    states, all_of_them = {0: START}, code.instructions
    if not all_of_them:
        return 0, "end"
    for at, it in enumerate(all_of_them):
        if at not in states:
            return at, "state"
        reason = against(code, at, it, states[at])
        if reason:
            return at, reason
        behind = left(it, states[at])
        for to in followers(at, it):
            if states.setdefault(to, behind) != behind:
                return at, "state"
    return None


def followers(at, it):
    return ([] if it[0] in ("jump", "halt") else [at + 1]) + ([it[-1]] if it[0] in ("jump", "jzero") else [])


def against(code, at, it, state):
    """The first reason against an instruction at a place with this state."""
    word, kinds = it[0], WORDS[it[0]]
    operands = list(zip(kinds, it[1:]))
    if any(kind == "u" and value >= code.uniform or kind == "p" and value >= code.private for kind, value in operands):
        return "register"
    if any(kind == "C" and value >= len(code.entries) for kind, value in operands):
        return "entry"
    for kind, to in operands:
        if kind == "T" and (to >= len(code.instructions) or to <= at and code.instructions[to][0] != "mark"):
            return "target"
    if word in (OUT_OF_RANGE if state.inside else IN_RANGE):
        return "mode"
    if word == "mask" and state.masks == 64 or word in ("flip", "unmask") and not state.masks or word == "leave" and state.masks:
        return "mask"
    if state.waits != (word == "reply"):
        return "exchange"
    if state.reads and word not in REGISTERS | READS | {"send"} or word in READS and state.reads == 8:
        return "exchange"
    if word in PUTS and state.put or word == "vote" and (state.reads or state.put):
        return "exchange"
    if at + 1 == len(code.instructions) and at + 1 in followers(at, it):
        return "end"
    return None


def left(it, state):
    """The state behind an instruction."""
    new, word = SimpleNamespace(**vars(state)), it[0]
    new.inside = word == "enter" or state.inside and word != "leave"
    new.masks += (word == "mask") - (word == "unmask")
    new.reads = 0 if word == "send" else state.reads + (word in READS)
    new.put = word in PUTS or state.put and word != "send"
    new.waits = word == "send" and state.reads > 0
    return new
