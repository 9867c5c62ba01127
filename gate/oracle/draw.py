"""Draws programs, inputs, and changes of texts and listings. All of it comes from the generator that is handed in."""
from listing import WORDS

SMALL = [0, 1, 2, 3, 4, 5, 7, 8, -1, -2]
LARGE = [9223372036854775807, -9223372036854775807, 4611686018427387904, 3037000500]
ODD = list(b";:=[]().<>+-*#\"&{}/!_ \n\t\r") + list(b"0129azAZ") + [0, 127, 128, 255]


class Drawer:
    """A program text, mostly accepted, whose subscripts are mostly within bounds."""

    def __init__(self, random):
        self.random, self.arrays, self.singles, self.uniforms = random, [], [], []
        self.index, self.locals, self.loops = None, [], []

    def text(self):
        pick = self.random
        self.arrays = [(f"a{it}", pick.choice([0, 0, 1, 1, 5])) for it in range(pick.randint(1, 3))]
        self.singles = [f"s{it}" for it in range(pick.randint(0, 2))]
        self.uniforms = [f"x{it}" for it in range(pick.randint(1, 3))]
        self.size = pick.randint(1, 6)
        lines = [f"rule {pick.choice(['erew', 'crew', 'common', 'priority', 'sum'])}; procs {pick.choice([1, 2, 4, 6, 6, 6, 16])};"]
        lines += [f"shared {name}[{low}..{low + self.size - 1}];" for name, low in self.arrays]
        lines += [f"shared {it};" for it in self.singles] + [f"var {it};" for it in self.uniforms]
        return "\n".join([*lines, "begin", *self.statements(3, 1, 4), "end"]) + "\n"

    def input(self):
        pick = self.random
        return [pick.choice(LARGE if pick.random() < 0.05 else SMALL) for _ in range(pick.randint(0, self.size))]

    # ---- expressions

    def expression(self, depth):
        pick = self.random
        if depth == 0 or pick.random() < 0.3:
            return self.atom(depth)
        kind = pick.random()
        if kind < 0.12:
            return f"({pick.choice(['not ', '-', '-'])}{self.operand(depth - 1)})"
        rare = pick.choice(["div", "mod", "-"])
        operator = pick.choice(["+", "+", "+", "-", "-", "*", "=", "<>", "<", "<=", ">", ">=", "and", "or", rare])
        found = f"{self.operand(depth - 1)} {operator} {self.operand(depth - 1)}"
        return f"{found} {operator} {self.operand(depth - 1)}" if operator in ("+", "-", "*", "and") and pick.random() < 0.3 else found

    def operand(self, depth):
        found = self.expression(depth)
        return f"({found})" if " " in found else found

    def atom(self, depth):
        pick, kind = self.random, self.random.random()
        if kind < 0.3:
            return str(abs(pick.choice(LARGE if pick.random() < 0.02 else SMALL)))
        if kind < 0.5 and (self.index or self.locals):
            return pick.choice([it for it in [self.index, *self.locals] if it])
        if kind < 0.65:
            return pick.choice(self.uniforms)
        if kind < 0.75 and self.singles:
            return pick.choice(self.singles)
        return self.element(max(0, depth - 1))

    def element(self, depth):
        name, low = self.random.choice(self.arrays)
        if self.random.random() < 0.9:
            number = low + self.random.randrange(self.size)
            shift = f"({self.index or self.random.choice(self.uniforms)} + {number}) mod {self.size}"
            return f"{name}[{shift}{f' + {low}' if low else ''}]" if self.random.random() < 0.5 else f"{name}[{number}]"
        return f"{name}[{self.expression(depth)}]"

    # ---- statements

    def statements(self, depth, least, most):
        found = []
        for _ in range(self.random.randint(least, most)):
            found += self.statement(depth)
        return found

    def block(self, head, depth, tail="end", inner=()):
        return [head, *[f"  {it}" for it in [*inner, *self.statements(depth - 1, 0, 3)]], tail]

    def statement(self, depth):
        pick, kind = self.random, self.random.random()
        if self.index is None and depth == 3 and kind < 0.4:
            return self.pardo(depth)
        if depth == 0 or kind < 0.45:
            return [self.assignment() if self.index or pick.random() < 0.7 else f"print {self.expression(2)};"]
        if kind < 0.6:
            found = self.block(f"if {self.expression(2)} then", depth, "else" if pick.random() < 0.5 else "end")
            return found if found[-1] == "end" else found[:-1] + self.block("else", depth)
        if kind < 0.7:
            return self.block(f"while {pick.choice(['1', self.expression(1), self.expression(1)])} do", depth)
        if self.index:
            return [self.assignment()]
        free = [it for it in self.uniforms if it not in self.loops]
        if kind < 0.78 and free:
            name = pick.choice(free)
            head = f"for {name} := {self.expression(1)} to {pick.choice(['2', '3', self.expression(1)])} do"
            self.loops.append(name)
            found = self.block(head, depth)
            self.loops.remove(name)
            return found
        return self.pardo(depth)

    def pardo(self, depth):
        pick = self.random
        low, high = pick.choice([("1", "4"), ("0", str(self.size - 1)), ("1", str(self.size)), ("1", self.atom(1)), ("2", "1")])
        self.index, self.locals = "i", [f"r{it}" for it in range(pick.randint(0, 2))]
        found = self.block(f"for {low} <= i <= {high} pardo", depth, inner=[f"local {it};" for it in self.locals])
        self.index, self.locals = None, []
        return found

    def assignment(self):
        pick, kind = self.random, self.random.random()
        if self.index and self.locals and kind < 0.4:
            target = pick.choice(self.locals)
        elif not self.index and kind < 0.4 and set(self.uniforms) - set(self.loops):
            target = pick.choice([it for it in self.uniforms if it not in self.loops])
        elif self.singles and kind < 0.5:
            target = pick.choice(self.singles)
        else:
            target = self.element(1)
        return f"{target} := {self.expression(3)};"


def deep(random, word, tokens):
    """A word in some sixty levels, or in a long sum."""
    many = random.choice([1, 8, 9, 60, 62, 63, 64, 65])
    cells = [it.text for it in tokens if it.text[0] == "s" and it.kind == "name"] or [word]
    return {
        0: "(" * many + word + ")" * many,
        1: "- " * many + word,
        2: "(not " * (many // 2) + word + ")" * (many // 2),
        3: " + ".join([word] + [random.choice(cells)] * min(many, 9)),
        4: "if 1 then " * many + "x0 := 1; " + "end " * many,
    }[random.randrange(5)]


def changed_text(random, text, tokens):
    """A text with something else in it: a token of another, a token twice or not at all, another byte, or cut."""
    kind, at = random.random(), random.choice(tokens)
    if kind < 0.35:
        at = random.choice([it for it in tokens if it.kind != "key"])
    end = at.offset + len(at.text)
    if kind < 0.25:
        names = [it.text for it in tokens if it.kind == "name"] + ["y"]
        other = random.choice(["0", "16385", "9" * 7, "9" * 19]) if at.kind == "number" else random.choice(names)
        return text[:at.offset] + other.encode() + text[end:]
    if kind < 0.35:
        return text[:at.offset] + deep(random, at.text, tokens).encode() + text[end:]
    if kind < 0.6:
        other = random.choice([it.text for it in tokens] + ["end", "begin", "do", "y", "i", "[", "(", "not", "-", "pardo", "to", ";"])
        return text[:at.offset] + other.encode() + text[end if random.random() < 0.7 else at.offset:]
    if kind < 0.75:
        return text[:at.offset] + text[end:]
    if kind < 0.9:
        place = random.randrange(len(text))
        return text[:place] + bytes([random.choice(ODD)]) + text[place + random.randint(0, 1):]
    return text[:random.randrange(len(text))]


def changed_lines(random, text):
    """A listing with a line that is another, or none."""
    lines = text.splitlines(keepends=True)
    at, kind = random.randrange(len(lines)), random.random()
    if kind < 0.3:
        lines[at] = lines[at].replace(" ", random.choice(["  ", "", " 0", " -", " a "]), 1)
    elif kind < 0.5:
        del lines[at]
    elif kind < 0.7:
        lines.insert(at, random.choice(lines))
    elif kind < 0.85:
        lines[at] = lines[at][:random.randrange(len(lines[at]))]
    else:
        words = lines[at].split()
        words[random.randrange(len(words))] = random.choice(["0", "00", "-0", "65536", "9" * 19, "1" + "0" * 19, "x", "send", "4294967296"])
        lines[at] = " ".join(words) + "\n"
    return "".join(lines)


def changed_instructions(random, code):
    """The instructions of a code with one or two changes, in which jumps go where they went by number."""
    found = list(code.instructions)
    for _ in range(random.randint(1, 2)):
        at, kind = random.randrange(len(found)), random.random()
        if kind < 0.2:
            del found[at]
        elif kind < 0.4:
            found.insert(at, random.choice(found))
        elif kind < 0.55:
            other = random.randrange(len(found))
            found[at], found[other] = found[other], found[at]
        elif kind < 0.8 and len(found[at]) > 1:
            operands = list(found[at])
            operands[random.randrange(1, len(operands))] = random.choice([0, 1, 2, 3, at, max(0, at - 2), len(found), random.randrange(12)])
            found[at] = tuple(operands)
        else:
            word = random.choice(sorted(WORDS))
            found[at] = (word, *[random.choice([0, 1, 2, random.randrange(len(found))]) for _ in WORDS[word]])
        if not found:
            return [("halt",)]
    return found
