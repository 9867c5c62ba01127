"""What holds of programs on many inputs."""
from __future__ import annotations

from dataclasses import dataclass
from typing import Any, Dict, List, Mapping, Optional, Tuple, Union

from .outcomes import Fault, fault_of, numbers, optional_number
from .refusals import Refusal, refusal_of

Input = Tuple[int, ...]


@dataclass(frozen=True)
class Range:
    """The least and the greatest of some numbers."""

    least: int
    greatest: int


@dataclass(frozen=True)
class FoundFault:
    """A fault, and the first input on which it comes (with `shrink=True` a smaller one)."""

    fault: Fault
    input: Input


@dataclass(frozen=True)
class Exploration:
    """How many inputs there are, of a scope or drawn, and how the runs on them come out.

    `counting` is there with `where=`, `failed` with `ensure=`. `goes_on_at` and `fails_at` are the first such inputs. Where inputs are
    drawn `cells` is for how many cells."""

    inputs: int
    ended: int
    faulted: int
    go_on: int
    faults: Tuple[FoundFault, ...]
    counting: Optional[int]
    failed: Optional[int]
    goes_on_at: Optional[Input]
    fails_at: Optional[Input]
    time: Optional[Range]
    work: Optional[Range]
    cells: Optional[int]

    @property
    def is_right(self) -> bool:
        """Whether each run ends, and with `ensure=` none fails."""
        return self.ended == (self.inputs if self.counting is None else self.counting) and not self.failed


@dataclass(frozen=True)
class Difference:
    """An input on which two programs differ, and what differs: `outcome`, `output`, `cell`, `time` or `work`.

    `first` and `second` are the values there (nothing where the output is over), or how the runs come out: a fault or a word. `item` is
    the number of an item of the output; of `time` and `work` there are what was `taken` and the `limit`."""

    input: Input
    differs: str
    first: Union[int, str, Fault, None]
    second: Union[int, str, Fault, None]
    item: Optional[int]
    cell: Optional[str]
    taken: Optional[int]
    limit: Optional[int]


@dataclass(frozen=True)
class Comparison:
    """On how many inputs two programs come to the same, and those on which they differ, as far as the program tells them."""

    inputs: int
    same: int
    differences: Tuple[Difference, ...]
    counting: Optional[int]
    cells: Optional[int]

    @property
    def is_same(self) -> bool:
        return self.same == (self.inputs if self.counting is None else self.counting)


@dataclass(frozen=True)
class Marks:
    """How a program does that is graded: on how many of the inputs that count it is `correct`, faults, goes on, or is `above` a limit.

    `time` and `work` are the most that any of its runs took, `rule` is that of its text, `procs_at_most` is there with that limit, and
    `difference` where an input differs: the first one, with the first program's value as `first`."""

    counting: int
    correct: int
    faulted: int
    go_on: int
    above: int
    time: int
    work: int
    rule: str
    procs: int
    procs_at_most: Optional[int]
    difference: Optional[Difference]


@dataclass(frozen=True)
class Grade:
    """Whether a program passes that is graded: its marks, or where it is refused why."""

    passes: bool
    marks: Optional[Marks]
    refusal: Optional[Refusal]


@dataclass(frozen=True)
class Reason:
    """What is known where a fault may come: the operands of an `operator` (or its one `operand`), the `subscript` of an array, the indices
    of a pardo (`first` to `last`), that processors may share a cell, or that the one input of the scope comes to it (`single`)."""

    operator: Optional[str]
    left: Optional[Range]
    right: Optional[Range]
    operand: Optional[Range]
    subscript_of: Optional[str]
    subscript: Optional[Range]
    first: Optional[int]
    last: Optional[int]
    shared: bool
    single: bool


@dataclass(frozen=True)
class PossibleFault:
    """A fault that may come on some input, with its line."""

    kind: str
    line: int
    reason: Reason


@dataclass(frozen=True)
class Scope:
    """Inputs of so many values, each from `least` to `greatest`."""

    values: int
    least: int
    greatest: int


@dataclass(frozen=True)
class Cells:
    """Between which numbers the values of a shared declaration end."""

    name: str
    least: int
    greatest: int
    low: Optional[int]
    high: Optional[int]


@dataclass(frozen=True)
class Undecided:
    """Where too little is known, and why: `open-bounds` or `restless`."""

    line: int
    why: str


@dataclass(frozen=True)
class Always:
    """What holds of a program on every input of a scope. What isn't among it never comes; what is need not come.

    Where `undecided` is there nothing else is told. `memory` and `time` are there where a run may end."""

    scope: Scope
    faults: Tuple[PossibleFault, ...]
    each_faults: bool
    may_go_on: bool
    time: Optional[Range]
    memory: Dict[str, Cells]
    undecided: Optional[Undecided]

    @property
    def each_ends(self) -> bool:
        """Whether it is sure that each run ends."""
        return not (self.undecided or self.faults or self.may_go_on)


def range_of(said: Optional[Mapping[str, Any]]) -> Optional[Range]:
    return Range(int(said["least"]), int(said["greatest"])) if said else None


def input_of(said: Mapping[str, Any], name: str) -> Optional[Input]:
    return numbers(said[name]) if name in said else None


def exploration_of(said: Mapping[str, Any]) -> Exploration:
    faults = tuple(FoundFault(Fault(it["kind"], it["place"], it["line"]), numbers(it["input"])) for it in said["faults"])
    counts = [int(said[it]) for it in ("inputs", "ended", "faulted", "go_on")]
    more = [optional_number(said, it) for it in ("counting", "failed")]
    firsts = [input_of(said, it) for it in ("goes_on_at", "fails_at")]
    spans = [range_of(said.get(it)) for it in ("time", "work")]
    return Exploration(*counts, faults, *more, *firsts, *spans, optional_number(said, "cells"))


def side_of(said: Any) -> Union[int, str, Fault, None]:
    """What one of two programs came to: a value, how its run came out, or nothing."""
    if isinstance(said, dict):
        return fault_of(said) or str(said["outcome"])
    return None if said is None else int(said)


def difference_of(said: Mapping[str, Any]) -> Difference:
    sides = [side_of(said.get(it)) for it in ("first", "second")]
    limits = [optional_number(said, it) for it in ("taken", "limit")]
    return Difference(numbers(said["input"]), said["differs"], *sides, optional_number(said, "item"), said.get("cell"), *limits)


def comparison_of(lines: List[Mapping[str, Any]]) -> Comparison:
    *differences, end = lines
    more = [optional_number(end, it) for it in ("counting", "cells")]
    return Comparison(end["inputs"], end["same"], tuple(map(difference_of, differences)), *more)


def marks_of(said: Mapping[str, Any]) -> Marks:
    counts = [int(said[it]) for it in ("counting", "correct", "faulted", "go_on", "above", "time", "work")]
    difference = difference_of(said) if "differs" in said else None
    return Marks(*counts, said["rule"], int(said["procs"]), optional_number(said, "procs_at_most"), difference)


def grade_of(said: Mapping[str, Any]) -> Grade:
    refusal = said.get("refusal")
    if refusal is not None:
        return Grade(said["passes"], None, refusal_of(refusal, {}, {}))
    return Grade(said["passes"], marks_of(said), None)


def reason_of(said: Mapping[str, Any]) -> Reason:
    left, right, operand, subscript = (range_of(said.get(it)) for it in ("left", "right", "operand", "subscript"))
    first, last = (optional_number(said, it) for it in ("first", "last"))
    shared, single = (bool(said.get(it, False)) for it in ("shared", "single"))
    return Reason(said.get("operator"), left, right, operand, said.get("subscript_of"), subscript, first, last, shared, single)


def cells_of(said: Mapping[str, Any]) -> Cells:
    return Cells(said["name"], int(said["least"]), int(said["greatest"]), optional_number(said, "low"), optional_number(said, "high"))


def always_of(said: Mapping[str, Any]) -> Always:
    scope = Scope(int(said["scope"]["values"]), int(said["scope"]["least"]), int(said["scope"]["greatest"]))
    faults = tuple(PossibleFault(it["kind"], it["line"], reason_of(it["reason"])) for it in said.get("faults", ()))
    memory = {it["name"]: cells_of(it) for it in said.get("memory", ())}
    undecided = said.get("undecided")
    why = Undecided(undecided["line"], undecided["why"]) if undecided else None
    sure = bool(said.get("each_faults", False)), bool(said.get("may_go_on", undecided is not None))
    return Always(scope, faults, *sure, range_of(said.get("time")), memory, why)
