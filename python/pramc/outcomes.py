"""How runs come out."""
from __future__ import annotations

from dataclasses import dataclass
from typing import Any, Dict, Iterator, Mapping, Optional, Tuple

from .errors import Faulted, WentOn

ENDED, FAULT, GOES_ON = "ended", "fault", "goes on"


def numbers(said: Any) -> Tuple[int, ...]:
    return tuple(int(it) for it in said)


def optional_number(said: Mapping[str, Any], name: str) -> Optional[int]:
    """A number that an object may have: a string or a number there."""
    return int(said[name]) if said.get(name) is not None else None


@dataclass(frozen=True)
class Declaration:
    """What the cells of a shared declaration hold: one cell, or an array, whose cells have the program's subscripts, `low` to `high`."""

    name: str
    values: Tuple[int, ...]
    low: Optional[int] = None
    high: Optional[int] = None

    @property
    def is_array(self) -> bool:
        return self.low is not None

    def __getitem__(self, subscript: int) -> int:
        if self.low is None or self.high is None or not self.low <= subscript <= self.high:
            raise IndexError(f"{self.name} has no cell {subscript}")
        return self.values[subscript - self.low]

    def __iter__(self) -> Iterator[int]:
        return iter(self.values)

    def __len__(self) -> int:
        return len(self.values)

    def __int__(self) -> int:
        if self.is_array:
            raise TypeError(f"{self.name} is an array")
        return self.values[0]

    def __str__(self) -> str:
        bounds = f"[{self.low}..{self.high}]" if self.is_array else ""
        return f"{self.name}{bounds} = {' '.join(map(str, self.values))}"


Memory = Dict[str, Declaration]


@dataclass(frozen=True)
class Fault:
    """A fault: its kind as `read-conflict`, its line in the text, and its place: a cell, `all`, or `processor 3`."""

    kind: str
    place: str
    line: int

    def __str__(self) -> str:
        return f"fault {self.kind} {self.place} line {self.line}"


@dataclass(frozen=True)
class Outcome:
    """How a run came out: `how` is `ended`, `fault` or `goes on`, and `output` what it printed.

    `memory` has the shared declarations where it ended, else nothing. `ended_behind` is the statement behind which `seconds=` ended it."""

    how: str
    output: Tuple[int, ...]
    memory: Memory
    fault: Optional[Fault] = None
    ended_behind: Optional[int] = None

    @property
    def ended(self) -> bool:
        return self.how == ENDED

    @property
    def faulted(self) -> bool:
        return self.how == FAULT

    @property
    def went_on(self) -> bool:
        return self.how == GOES_ON

    def expect_ended(self) -> Outcome:
        """This outcome, if the run ended; else `Faulted` or `WentOn` is raised."""
        if self.faulted:
            raise Faulted(self)
        if self.went_on:
            raise WentOn(self)
        return self

    def __str__(self) -> str:
        end = str(self.fault) if self.fault else self.how
        return "\n".join([*map(str, self.output), end, *map(str, self.memory.values())])


def declaration_of(said: Mapping[str, Any]) -> Declaration:
    return Declaration(said["name"], numbers(said["values"]), optional_number(said, "low"), optional_number(said, "high"))


def memory_of(said: Any) -> Memory:
    return {it["name"]: declaration_of(it) for it in said}


def fault_of(said: Mapping[str, Any]) -> Optional[Fault]:
    """The fault that an object tells, if it tells one."""
    return Fault(said["kind"], said["place"], int(said["line"])) if "kind" in said else None


def outcome_of(said: Mapping[str, Any], ended_behind: Optional[int] = None) -> Outcome:
    return Outcome(said["outcome"], numbers(said["output"]), memory_of(said.get("memory", ())), fault_of(said), ended_behind)


@dataclass(frozen=True)
class Accepted:
    """An accepted program: how many shared cells it has, its most processors, and its rule of concurrent access."""

    cells: int
    procs: int
    rule: str


@dataclass(frozen=True)
class UnderRule:
    """How a run comes out under a rule. Where it ended, `same` says whether as under the first rule under which it does.

    `declared` says whether the rule is the program's own; that is told where the run ends under it."""

    rule: str
    how: str
    same: Optional[bool]
    declared: bool
    fault: Optional[Fault]


def under_rule_of(said: Mapping[str, Any]) -> UnderRule:
    same = said["end"] == "same" if "end" in said else None
    return UnderRule(said["rule"], said["outcome"], same, bool(said.get("declared", False)), fault_of(said))
