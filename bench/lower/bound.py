#!/usr/bin/env python3
"""Adds to a table of examples, a line for each, the exchange bound of its run: by a plain reading of docs/LANGUAGE.md, "What a program
costs", that knows nothing of superstep code. The programs, at their own sizes, and their inputs stand in the folder that it is given."""
import math
import re
import sys

SIZE = re.compile(r"^# size (\w+) = (\d+)$", re.M)
CHAINS = [["or"], ["and"], ["=", "<>", "<", "<=", ">", ">="], ["+", "-"], ["*", "div", "mod"]]


class Fault(Exception):
    """A run that comes to no end."""


class Parser:
    def __init__(self, text):
        self.tokens = re.findall(r"[A-Za-z]\w*|\d+|:=|\.\.|<=|>=|<>|\S", text)

    def peek(self):
        return self.tokens[0] if self.tokens else None

    def take(self, *expected):
        token = self.tokens.pop(0)
        assert not expected or token in expected, (token, expected)
        return token

    def expression(self, level=0):
        if level == 2 and self.peek() == "not":
            self.take()
            return ("not", self.expression(2))
        if level == len(CHAINS):
            return self.unary()
        left = self.expression(level + 1)
        while self.peek() in CHAINS[level]:
            operator = self.take()
            left = (operator, left, self.expression(level + 1))
            if level == 2:
                break
        return left

    def unary(self):
        token = self.take()
        if token == "-":
            return ("-", self.unary())
        if token == "(":
            inner = self.expression()
            self.take(")")
            return inner
        if token.isdigit():
            return int(token)
        return ("[]", token, self.subscript()) if self.peek() == "[" else token

    def subscript(self):
        self.take("[")
        inner = self.expression()
        self.take("]")
        return inner

    def block(self):
        statements = []
        while self.peek() not in ("end", "else"):
            statements.append(self.statement())
        return statements

    def statement(self):
        first = self.take()
        if first == "print":
            statement = ("print", self.expression())
        elif first == "while":
            test = self.expression()
            self.take("do")
            statement = ("while", test, self.block())
            self.take("end")
            return statement
        elif first == "if":
            test = self.expression()
            self.take("then")
            parts = [self.block(), []]
            if self.take("else", "end") == "else":
                parts[1] = self.block()
                self.take("end")
            return ("if", test, *parts)
        elif first == "for":
            return self.loop()
        else:
            subscript = self.subscript() if self.peek() == "[" else None
            self.take(":=")
            statement = ("assign", first, subscript, self.expression())
        self.take(";")
        return statement

    def loop(self):
        if self.tokens[1] == ":=":
            name = self.take()
            self.take(":=")
            low = self.expression()
            self.take("to")
            statement = ("for", name, low, self.expression())
            self.take("do")
            statement += (self.block(),)
        else:
            low = self.expression(3)
            self.take("<=")
            name = self.take()
            self.take("<=")
            statement = ("pardo", name, low, self.expression(3))
            self.take("pardo")
            names = []
            while self.peek() == "local":
                self.take()
                names.append(self.take())
                self.take(";")
            statement += (names, self.block())
        self.take("end")
        return statement

    def program(self):
        self.take("rule")
        rule = self.take()
        self.take(";")
        self.take("procs")
        procs = int(self.take())
        self.take(";")
        arrays, cells = {}, 0
        while (word := self.take()) != "begin":
            name, low, high = self.take(), 0, 0
            if self.peek() == "[":
                self.take()
                low = int(self.take())
                self.take("..")
                high = int(self.take())
                self.take("]")
            self.take(";")
            if word == "shared":
                arrays[name] = (cells, low, high)
                cells += high - low + 1
        return rule, procs, arrays, cells, self.block()


def fitting(value):
    if not -(2**63) <= value < 2**63:
        raise Fault
    return value


def operate(operator, x, y):
    if operator in ("div", "mod"):
        if y == 0:
            raise Fault
        return fitting(x // y) if operator == "div" else x % y
    return {
        "or": lambda: int(x != 0 or y != 0),
        "and": lambda: int(x != 0 and y != 0),
        "=": lambda: int(x == y),
        "<>": lambda: int(x != y),
        "<": lambda: int(x < y),
        "<=": lambda: int(x <= y),
        ">": lambda: int(x > y),
        ">=": lambda: int(x >= y),
        "+": lambda: fitting(x + y),
        "-": lambda: fitting(x - y),
        "*": lambda: fitting(x * y),
    }[operator]()


class Run:
    """A run of a program, with its events: (levels, whether it writes), "cut" and "vote"."""

    def __init__(self, program, values):
        self.rule, self.procs, self.arrays, size, self.body = program
        self.cells = values + [0] * (size - len(values))
        self.variables = {}
        self.events = []

    def levels(self, e):
        if isinstance(e, int):
            return 0
        if isinstance(e, str):
            return int(e in self.arrays)
        if e[0] == "[]":
            return 1 + self.levels(e[2])
        return max(self.levels(part) for part in e[1:])

    def cell(self, name, subscript):
        first, low, high = self.arrays[name]
        if not low <= subscript <= high:
            raise Fault
        return first + subscript - low

    def value(self, e, own, trail):
        """The value for a processor with these names of its own; the trail gets what is read, position by position."""
        if isinstance(e, int):
            return e
        if isinstance(e, str) and e not in self.arrays:
            return own[e] if e in own else self.variables.get(e, 0)
        if isinstance(e, str) or e[0] == "[]":
            at = 0 if isinstance(e, str) else self.value(e[2], own, trail)
            cell = self.cell(e if isinstance(e, str) else e[1], at)
            trail.append(cell)
            return self.cells[cell]
        parts = [self.value(part, own, trail) for part in e[1:]]
        trail.append(None)
        if len(parts) == 2:
            return operate(e[0], *parts)
        return int(parts[0] == 0) if e[0] == "not" else fitting(-parts[0])

    def runs(self, *expressions, writes=False):
        self.events.append((max(self.levels(e) for e in expressions), writes))

    # ---- inside pardo

    def together(self, members, expression, target=None, subscript=None):
        """The values of all members, and the cells that they write to."""
        trails, results = [], []
        for own in members:
            trail = []
            at = self.value(subscript, own, trail) if subscript is not None else 0
            value = self.value(expression, own, trail)
            results.append((own, value, self.cell(target, at) if target in self.arrays else None))
            trails.append(trail)
        if self.rule == "erew":
            for column in range(max(map(len, trails), default=0)):
                read = [trail[column] for trail in trails if column < len(trail) and trail[column] is not None]
                if len(read) != len(set(read)):
                    raise Fault
        return results

    def write(self, index, results):
        writers = {}
        for own, value, cell in results:
            writers.setdefault(cell, []).append((own[index], value))
        for cell, all_of_it in writers.items():
            values = [value for _, value in all_of_it]
            if self.rule in ("erew", "crew") and len(values) > 1 or self.rule == "common" and len(set(values)) > 1:
                raise Fault
            self.cells[cell] = fitting(sum(values)) if self.rule == "sum" else min(all_of_it)[1]

    def step(self, s, index, members):
        if s[0] == "assign":
            _, name, subscript, e = s
            self.runs(e, subscript or 0, writes=name in self.arrays)
            results = self.together(members, e, name, subscript)
            if name in self.arrays:
                self.write(index, results)
            else:
                for own, value, _ in results:
                    own[name] = value
        elif s[0] == "if":
            self.runs(s[1])
            results = self.together(members, s[1])
            self.steps(s[2], index, [own for own, value, _ in results if value != 0])
            self.steps(s[3], index, [own for own, value, _ in results if value == 0])
        else:
            while True:
                self.events.append("cut")
                self.runs(s[1])
                self.events += ["cut", "vote"]
                members = [own for own, value, _ in self.together(members, s[1]) if value != 0]
                if not members:
                    return
                self.steps(s[2], index, members)

    def steps(self, statements, index, members):
        for s in statements:
            self.step(s, index, members)

    # ---- outside

    def test(self, e):
        self.runs(e)
        return self.value(e, {}, [])

    def perform(self, s):
        if s[0] == "assign":
            _, name, subscript, e = s
            self.runs(e, subscript or 0, writes=name in self.arrays)
            at = self.value(subscript, {}, []) if subscript is not None else 0
            value = self.value(e, {}, [])
            if name in self.arrays:
                self.cells[self.cell(name, at)] = value
            else:
                self.variables[name] = value
        elif s[0] == "print":
            self.test(s[1])
        elif s[0] == "if":
            part = s[2] if self.test(s[1]) != 0 else s[3]
            self.events.append("cut")
            self.block(part)
            self.events.append("cut")
        elif s[0] == "while":
            while True:
                self.events.append("cut")
                going = self.test(s[1])
                self.events.append("cut")
                if going == 0:
                    return
                self.block(s[2])
        else:
            self.runs(s[2], s[3])
            low, high = (self.value(e, {}, []) for e in s[2:4])
            if s[0] == "for":
                self.turns(s[1], low, high, s[4])
            else:
                if high - low + 1 > self.procs:
                    raise Fault
                members = [{s[1]: i, **{name: 0 for name in s[4]}} for i in range(low, high + 1)]
                self.steps(s[5], s[1], members)

    def turns(self, name, low, high, body):
        self.events.append("cut")
        for number in range(low, high + 1):
            self.runs(0)
            self.variables[name] = number
            self.block(body)
            self.events.append("cut")

    def block(self, statements):
        for s in statements:
            self.perform(s)


def goes_alone(events):
    """Whether a write before these does: by the next statement of its stretch that touches shared memory."""
    for event in events:
        if event == "cut":
            return True
        if event != "vote" and (event[0] > 0 or event[1]):
            return event[0] == 0
    return True


def bound(events):
    total = 1
    for k, event in enumerate(events):
        if event == "vote":
            total += 1
        elif event != "cut":
            total += 2 * event[0] + int(event[1] and goes_alone(events[k + 1 :]))
    return total


def expanded(text):
    """A text at its own sizes, without comments."""
    names = {"log": lambda n: n.bit_length() - 1, "root": math.isqrt, "pow": pow, **{name: int(n) for name, n in SIZE.findall(text)}}

    def number(found):
        return str(eval(re.sub(r"\bdiv\b", "//", re.sub(r"\bmod\b", "%", found[1])), names))

    return re.sub(r"\{(.*?)\}", number, re.sub(r"#[^\n]*", "", text))


def bound_of(folder, name):
    text, values = (open(f"{folder}/{name}.{it}").read() for it in ("pram", "in"))
    run = Run(Parser(expanded(text)).program(), [int(it) for it in values.split()])
    try:
        run.block(run.body)
    except Fault:
        return "faults"
    return bound(run.events)


def main():
    for line in sys.stdin:
        row = re.match(r"\| (\w+) \|", line)
        if row and row[1] == "Example":
            print(line.rstrip(), "Bound |")
        elif line.startswith("|---"):
            print(line.rstrip() + "---|")
        elif row:
            print(line.rstrip(), bound_of(sys.argv[1], row[1]), "|")
        else:
            print(line.rstrip())


main()
