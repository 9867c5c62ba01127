"""What a program means, as docs/LANGUAGE.md says it: `run(program, values, bound)` gives an outcome."""
from types import SimpleNamespace

from values import OPERATORS, Fault, checked



class Stopped(Exception):
    """A fault, with its place: None for `all`, ("processor", i) or ("cell", c)."""

    def __init__(self, kind, place, line):
        super().__init__(kind)
        self.kind, self.place, self.line = kind, place, line


class Bound(Exception):
    pass


class Attempt:
    """One processor at one statement: its positions are counted, what it reads is noted by position."""

    def __init__(self, run, index, own):
        self.run, self.index, self.own, self.position, self.reads = run, index, own, 0, []

    def value(self, e):
        kind = e[0]
        if kind == "number":
            return e[1]
        if kind == "uniform":
            return self.run.uniforms[e[1]]
        if kind == "index":
            return self.index
        if kind == "local":
            return self.own[e[1]]
        if kind == "cell":
            return self.read(e[1], 0)
        if kind == "element":
            return self.read(e[1], self.value(e[2]))
        if kind in ("not", "negate"):
            inner = self.value(e[1])
            self.position += 1
            return int(inner == 0) if kind == "not" else checked(-inner)
        value = self.value(e[1])
        for word, operand in e[2]:
            other = self.value(operand)
            self.position += 1
            value = OPERATORS[word](value, other)
        return value

    def cell(self, entry, subscript):
        """The cell of a subscript, tested at the next position."""
        self.position += 1
        it = self.run.program.entries[entry]
        low, high = (it.low, it.high) if it.array else (0, 0)
        if not low <= subscript <= high:
            raise Fault("out-of-range")
        return it.first + subscript - low

    def read(self, entry, subscript):
        cell = self.cell(entry, subscript)
        self.reads.append((self.position, cell))
        return self.run.cells[cell]

    def assignment(self, target, e):
        """The value, and the cell that it goes to, or None."""
        subscript = self.value(target[2]) if target[0] == "element" else 0
        value = self.value(e)
        return value, self.cell(target[1], subscript) if target[0] in ("cell", "element") else None


class Run:
    def __init__(self, program, values, bound):
        self.program, self.bound, self.count, self.output = program, bound, 0, []
        self.uniforms = [0] * program.uniforms
        self.cells = values + [0] * (program.cells - len(values))

    def begin(self):
        if self.count == self.bound:
            raise Bound
        self.count += 1

    # ---- outside pardo: one processor

    def alone(self, line, attempt):
        """What the one processor's attempt gives."""
        self.begin()
        try:
            return attempt(Attempt(self, 0, []))
        except Fault as it:
            raise Stopped(it.kind, None, line) from None

    def statements(self, body):
        for it in body:
            getattr(self, f"run_{it[0]}")(*it[1:])

    def run_assign(self, line, target, e):
        value, cell = self.alone(line, lambda it: it.assignment(target, e))
        if cell is None:
            self.uniforms[target[1]] = value
        else:
            self.cells[cell] = value

    def run_print(self, line, e):
        self.output.append(self.alone(line, lambda it: it.value(e)))

    def run_while(self, line, test, body):
        while self.alone(line, lambda it: it.value(test)):
            self.statements(body)

    def run_if(self, line, test, then, other):
        self.statements(then if self.alone(line, lambda it: it.value(test)) else other)

    def run_for(self, line, k, low, high, body):
        first, last = self.alone(line, lambda it: (it.value(low), it.value(high)))
        for number in range(first, last + 1):
            self.begin()
            self.uniforms[k] = number
            self.statements(body)

    def run_pardo(self, line, low, high, inner, body):
        def bounds(it):
            first, last = it.value(low), it.value(high)
            if last - first + 1 > self.program.procs:
                raise Fault("too-wide")
            return first, last

        first, last = self.alone(line, bounds)
        team = [SimpleNamespace(index=it, own=[0] * inner) for it in range(first, last + 1)]
        self.together(body, team)

    # ---- inside pardo: all that are active do each position together

    def together(self, body, active):
        for it in body:
            getattr(self, f"all_{it[0]}")(active, *it[1:])

    def attempt_all(self, active, line, attempt):
        """What each attempt gives, or the least fault of the statement."""
        self.begin()
        faults, given, reads, writes = [], [], {}, {}
        for member in active:
            it = Attempt(self, member.index, member.own)
            try:
                value, cell = attempt(it)
                given.append((member, value))
                if cell is not None:
                    writes.setdefault(cell, []).append((it.position, member.index, value))
            except Fault as fault:
                faults.append((it.position, 0, member.index, fault.kind))
            for read in it.reads:
                reads.setdefault(read, set()).add(member.index)
        if self.program.rule == "erew":
            faults += [(at, 1, cell, "read-conflict") for (at, cell), readers in reads.items() if len(readers) > 1]
        for cell, writers in writes.items():
            kind = conflict(self.program.rule, writers)
            faults += [(min(writers)[0], 1, cell, kind)] if kind else []
        if faults:
            _, conflicts, place, kind = min(faults)
            raise Stopped(kind, ("cell" if conflicts else "processor", place), line)
        return given, writes

    def all_assign(self, active, line, target, e):
        given, writes = self.attempt_all(active, line, lambda it: it.assignment(target, e))
        if target[0] == "local":
            for member, value in given:
                member.own[target[1]] = value
        for cell, writers in writes.items():
            self.cells[cell] = left_by(self.program.rule, writers)

    def test_all(self, active, line, test):
        given, _ = self.attempt_all(active, line, lambda it: (it.value(test), None))
        return [member for member, value in given if value], [member for member, value in given if not value]

    def all_if(self, active, line, test, then, other):
        chosen, others = self.test_all(active, line, test)
        self.together(then, chosen)
        self.together(other, others)

    def all_while(self, active, line, test, body):
        while True:
            active, _ = self.test_all(active, line, test)
            if not active:
                return
            self.together(body, active)


def conflict(rule, writers):
    """What a rule has against the writers of a cell."""
    if rule in ("erew", "crew"):
        return "write-conflict" if len(writers) > 1 else None
    if rule == "common":
        return "write-conflict" if len({value for _, _, value in writers}) > 1 else None
    if rule == "sum":
        return None if -1 << 63 <= sum(value for _, _, value in writers) < 1 << 63 else "overflow"
    return None


def left_by(rule, writers):
    return sum(value for _, _, value in writers) if rule == "sum" else min(writers, key=lambda it: it[1])[2]


def run(program, values, bound):
    it = Run(program, values, bound)
    try:
        it.statements(program.body)
        return SimpleNamespace(end="ended", output=it.output, cells=it.cells)
    except Stopped as fault:
        return SimpleNamespace(end="fault", output=it.output, fault=fault)
    except Bound:
        return SimpleNamespace(end="goes on", output=it.output)
