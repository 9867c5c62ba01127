"""Texts of the language: tokens, grammar and checks, as docs/LANGUAGE.md says them.

`read(text)` gives a program, or raises `Refused`. A program is a namespace of plain tuples:

    expression: ("number", n) ("uniform", k) ("index",) ("local", k) ("cell", entry) ("element", entry, e)
                ("not", e) ("negate", e) ("chain", e, [(operator, e), ..])
    statement:  ("assign", line, target, e) ("print", line, e) ("while", line, e, body) ("if", line, e, body, body)
                ("for", line, k, low, high, body) ("pardo", line, low, high, locals, body)
    target:     ("uniform", k) ("local", k) ("cell", entry) ("element", entry, e)
"""
import re
from types import SimpleNamespace

LONGEST = 1 << 20
DEEPEST = 64
KEYWORDS = set("rule procs begin end shared var print while do if then else for to pardo local or and not div mod".split())
RULES = ("erew", "crew", "common", "priority", "sum")
TOKEN = re.compile(rb"[ \t\n\r]+|#[^\n]*|(?P<number>[0-9]+)|(?P<word>[A-Za-z][A-Za-z0-9_]*)|(?P<mark>:=|\.\.|<=|<>|>=|[;\[\]()<>=+*-])")
LETTERS = set(b"ABCDEFGHIJKLMNOPQRSTUVWXYZabcdefghijklmnopqrstuvwxyz0123456789_")


class Refused(Exception):
    """With the number of the refusal, and the offset that is told, or None."""

    def __init__(self, number, offset=None, word=None):
        super().__init__(number, offset)
        self.number, self.offset, self.word = number, offset, word


class Token:
    def __init__(self, kind, text, offset, line):
        self.kind, self.text, self.offset, self.line = kind, text, offset, line


def tokens_of(text):
    """E2, E1 and E3, in this order."""
    if len(text) > LONGEST:
        raise Refused("E2")
    for at, byte in enumerate(text):
        if byte >= 128:
            raise Refused("E1", at)
    found, at, line = [], 0, 1
    while at < len(text):
        it = TOKEN.match(text, at)
        if not it:
            raise Refused("E3", at)
        number = it["number"]
        if number is not None and (int(number) >= 1 << 63 or text[it.end():it.end() + 1] and text[it.end()] in LETTERS):
            raise Refused("E3", at)
        if it.lastgroup:
            word = it[0].decode()
            kind = "name" if it.lastgroup == "word" and word not in KEYWORDS else it.lastgroup
            found.append(Token("key" if kind in ("word", "mark") else kind, word, at, line))
        line += it[0].count(b"\n")
        at = it.end()
    return found


class Parser:
    """E4 and E5: one token of lookahead, and no program goes on with the token at which it stops."""

    def __init__(self, tokens, end):
        self.tokens, self.at, self.end, self.blocks, self.levels = tokens, 0, end, 0, 0

    def fail(self):
        raise Refused("E4", self.tokens[self.at].offset if self.at < len(self.tokens) else self.end)

    def next_is(self, *words):
        return self.at < len(self.tokens) and self.tokens[self.at].kind == "key" and self.tokens[self.at].text in words

    def kind_is(self, kind):
        return self.at < len(self.tokens) and self.tokens[self.at].kind == kind

    def take(self):
        self.at += 1
        return self.tokens[self.at - 1]

    def key(self, word):
        return self.take() if self.next_is(word) else self.fail()

    def name(self):
        return self.take() if self.kind_is("name") else self.fail()

    def number(self):
        return self.take() if self.kind_is("number") else self.fail()

    def block(self, inner):
        """What stands in a block that the next token opens."""
        if self.blocks == DEEPEST:
            raise Refused("E5", self.tokens[self.at].offset)
        self.blocks += 1
        found = inner()
        self.blocks -= 1
        return found

    def level(self, inner):
        """What stands in a level of an expression that the next token opens."""
        if self.levels == DEEPEST:
            raise Refused("E5", self.tokens[self.at].offset)
        self.levels += 1
        self.take()
        found = inner()
        self.levels -= 1
        return found

    def program(self):
        self.key("rule")
        if not (self.kind_is("name") and self.tokens[self.at].text in RULES):
            self.fail()
        rule = self.take().text
        self.key(";")
        self.key("procs")
        procs = self.number()
        self.key(";")
        declared = []
        while self.next_is("shared", "var"):
            declared.append(self.declaration())
        self.key("begin")
        body = self.statements()
        self.key("end")
        if self.at < len(self.tokens):
            self.fail()
        return rule, procs, declared, body

    def declaration(self):
        kind, name, bounds = self.take().text, self.name(), None
        if kind == "shared" and self.next_is("["):
            self.take()
            low = self.number()
            self.key("..")
            bounds = (low, self.number())
            self.key("]")
        self.key(";")
        return kind, name, bounds

    def statements(self):
        found = []
        while self.kind_is("name") or self.next_is("print", "while", "if", "for"):
            found.append(self.statement())
        return found

    def statement(self):
        word = self.tokens[self.at]
        if word.kind == "name":
            return self.assignment()
        if word.text == "print":
            self.take()
            value = self.expression()
            self.key(";")
            return "print", word, value
        return self.block({"while": self.loop, "if": self.choice, "for": self.turns}[word.text])

    def assignment(self):
        name, subscript = self.take(), None
        if self.next_is("["):
            subscript = self.level(self.expression)
            self.key("]")
        self.key(":=")
        value = self.expression()
        self.key(";")
        return "assign", name, subscript, value

    def loop(self):
        word, test = self.take(), self.expression()
        self.key("do")
        body = self.statements()
        self.key("end")
        return "while", word, test, body

    def choice(self):
        word, test = self.take(), self.expression()
        self.key("then")
        parts = [self.statements(), []]
        if self.next_is("else"):
            self.take()
            parts[1] = self.statements()
        self.key("end")
        return "if", word, test, *parts

    def turns(self):
        word, begun = self.take(), self.at
        low = self.sum()
        if self.next_is(":=") and self.at == begun + 1 and low[0] == "name":
            self.take()
            first = self.expression()
            self.key("to")
            last = self.expression()
            self.key("do")
            body = self.statements()
            self.key("end")
            return "for", word, low[1], first, last, body
        self.key("<=")
        index = self.name()
        self.key("<=")
        high = self.sum()
        self.key("pardo")
        inner = []
        while self.next_is("local"):
            self.take()
            inner.append(self.name())
            self.key(";")
        body = self.statements()
        self.key("end")
        return "pardo", word, low, index, high, inner, body

    def chain(self, operand, *operators):
        first, links = operand(), []
        while self.next_is(*operators):
            word = self.take().text
            links.append((word, operand()))
        return ("chain", first, links) if links else first

    def expression(self):
        return self.chain(self.conjunction, "or")

    def conjunction(self):
        return self.chain(self.negation, "and")

    def negation(self):
        if self.next_is("not"):
            return "not", self.level(self.negation)
        first = self.sum()
        if self.next_is("=", "<>", "<", "<=", ">", ">="):
            word = self.take().text
            return "chain", first, [(word, self.sum())]
        return first

    def sum(self):
        return self.chain(self.term, "+", "-")

    def term(self):
        return self.chain(self.unary, "*", "div", "mod")

    def unary(self):
        return ("negate", self.level(self.unary)) if self.next_is("-") else self.atom()

    def atom(self):
        if self.kind_is("number"):
            return "number", int(self.take().text)
        if self.next_is("("):
            inner = self.level(self.expression)
            self.key(")")
            return inner
        name = self.name()
        if self.next_is("["):
            subscript = self.level(self.expression)
            self.key("]")
            return "subscript", name, subscript
        return "name", name


class Checker:
    """E6 to E10: the first place where anything is wrong, and there the lowest number."""

    def __init__(self):
        self.names, self.entries, self.cells, self.uniforms = {}, [], 0, 0
        self.loops, self.reads, self.inside = [], 0, False

    def program(self, tree, count):
        rule, procs, declared, body = tree
        procs = int(procs.text)
        if not 1 <= procs <= 16384:
            raise Refused("E10", word="procs")
        for it in declared:
            self.declare(*it)
        body = [self.statement(it) for it in body]
        if count > 16384:
            raise Refused("E10", word="tokens")
        return SimpleNamespace(rule=rule, procs=procs, entries=self.entries, cells=self.cells, uniforms=self.uniforms, body=body)

    def new(self, name, meaning):
        if name.text in self.names:
            raise Refused("E7", name.offset)
        self.names[name.text] = meaning

    def declare(self, kind, name, bounds):
        if kind == "var":
            self.new(name, ("uniform", self.uniforms))
            self.uniforms += 1
            return
        self.new(name, ("array" if bounds else "cell", len(self.entries)))
        low, high = (int(it.text) for it in bounds) if bounds else (0, 0)
        if low > high:
            raise Refused("E10", word="bounds")
        self.entries.append(SimpleNamespace(name=name.text, array=bool(bounds), low=low, high=high, first=self.cells))
        self.cells += high - low + 1
        if self.cells > 1 << 20:
            raise Refused("E10", word="cells")

    def meaning(self, name):
        if name.text not in self.names:
            raise Refused("E6", name.offset)
        return self.names[name.text]

    def read(self):
        self.reads += 1
        if self.reads > 8:
            raise Refused("E10", word="reads")

    def expression(self, tree):
        kind = tree[0]
        if kind == "number":
            return tree
        if kind in ("not", "negate"):
            return kind, self.expression(tree[1])
        if kind == "chain":
            return kind, self.expression(tree[1]), [(word, self.expression(it)) for word, it in tree[2]]
        meant = self.meaning(tree[1])
        if (meant[0] == "array") != (kind == "subscript"):
            raise Refused("E8", tree[1].offset)
        if meant[0] in ("array", "cell"):
            self.read()
        return ("element", meant[1], self.expression(tree[2])) if kind == "subscript" else meant

    def statement(self, tree):
        self.reads = 0
        kind, word = tree[:2]
        if self.inside and kind in ("print", "for", "pardo"):
            raise Refused("E8", word.offset)
        return getattr(self, f"check_{kind}")(word, *tree[2:])

    def check_assign(self, name, subscript, value):
        meant = self.meaning(name)
        if (meant[0] == "array") != (subscript is not None) or meant[0] == "uniform" and self.inside:
            raise Refused("E8", name.offset)
        if meant[0] == "index" or meant in self.loops:
            raise Refused("E9", name.offset)
        target = ("element", meant[1], self.expression(subscript)) if subscript is not None else meant
        return "assign", name.line, target, self.expression(value)

    def check_print(self, word, value):
        return "print", word.line, self.expression(value)

    def check_while(self, word, test, body):
        test = self.expression(test)
        return "while", word.line, test, [self.statement(it) for it in body]

    def check_if(self, word, test, then, other):
        test = self.expression(test)
        return "if", word.line, test, [self.statement(it) for it in then], [self.statement(it) for it in other]

    def check_for(self, word, name, low, high, body):
        meant = self.meaning(name)
        if meant[0] != "uniform":
            raise Refused("E8", name.offset)
        if meant in self.loops:
            raise Refused("E9", name.offset)
        low, high = self.expression(low), self.expression(high)
        self.loops.append(meant)
        body = [self.statement(it) for it in body]
        self.loops.pop()
        return "for", word.line, meant[1], low, high, body

    def check_pardo(self, word, low, index, high, inner, body):
        low = self.expression(low)
        if index.text in self.names:
            raise Refused("E7", index.offset)
        high = self.expression(high)
        outer = dict(self.names)
        self.new(index, ("index",))
        for number, it in enumerate(inner):
            self.new(it, ("local", number))
        self.inside = True
        body = [self.statement(it) for it in body]
        self.inside, self.names = False, outer
        return "pardo", word.line, low, high, len(inner), body


def read(text):
    """The program of a text, or `Refused`."""
    tokens = tokens_of(text)
    return Checker().program(Parser(tokens, len(text)).program(), len(tokens))


def values_of(text):
    """The values of an input, or `Refused`: E2, E1 and E3."""
    if len(text) > LONGEST:
        raise Refused("E2")
    for at, byte in enumerate(text):
        if byte >= 128:
            raise Refused("E1", at)
    found = []
    for it in re.finditer(rb"[^ \t\n\r]+", text):
        if not re.fullmatch(rb"-?[0-9]+", it[0]) or not -1 << 63 <= int(it[0]) < 1 << 63:
            raise Refused("E3", it.start())
        found.append(int(it[0]))
    return found
