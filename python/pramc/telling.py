"""Runs statement by statement, and exchange by exchange."""
from __future__ import annotations

from dataclasses import dataclass
from typing import Any, List, Mapping, Optional, Tuple

from .outcomes import Fault, Memory, Outcome, fault_of, memory_of, numbers, optional_number, outcome_of


@dataclass(frozen=True)
class Read:
    """A cell that a processor read, at a position of the statement, and what it held."""

    cell: str
    position: int
    value: int


@dataclass(frozen=True)
class Act:
    """What a processor did in a statement: the cells that it read, in order, and the one that it wrote, if any, with what it wrote.

    `processor` is nothing for the one outside pardo."""

    processor: Optional[int]
    reads: Tuple[Read, ...]
    write: Optional[str]
    written: Optional[int]


@dataclass(frozen=True)
class Change:
    """A cell, a uniform variable, or a processor's local whose value differs behind a statement."""

    name: str
    before: int
    after: int
    processor: Optional[int] = None


@dataclass(frozen=True)
class LocalValue:
    """What a local of a processor held."""

    name: str
    processor: int
    value: int


@dataclass(frozen=True)
class Write:
    """What a processor would have written, where writes conflict."""

    processor: int
    value: int


@dataclass(frozen=True)
class Meeting:
    """Why a statement faulted: the processors that met at the cell, what locals held, and by its kind what was wrong.

    A subscript: `array`, `subscript`, `low` and `high`; an operation: `operator` and `operands`; a range: `low`, `high` and `procs`;
    writes: `writers`."""

    met: Tuple[int, ...]
    locals: Tuple[LocalValue, ...]
    array: Optional[str]
    subscript: Optional[int]
    low: Optional[int]
    high: Optional[int]
    procs: Optional[int]
    operator: Optional[str]
    operands: Tuple[int, ...]
    writers: Tuple[Write, ...]


@dataclass(frozen=True)
class Step:
    """A statement that ran: its number from 1, where it begins, who executed it, and what it changed and printed.

    The one that faulted changes nothing, and has `fault` and `meeting`."""

    number: int
    line: int
    column: int
    processors: int
    acts: Tuple[Act, ...]
    changes: Tuple[Change, ...] = ()
    variables: Tuple[Change, ...] = ()
    locals: Tuple[Change, ...] = ()
    printed: Tuple[int, ...] = ()
    fault: Optional[Fault] = None
    meeting: Optional[Meeting] = None


@dataclass(frozen=True)
class Steps:
    """A run statement by statement: what the cells hold before it, the statements that are told, and how it came out."""

    opening: Memory
    steps: Tuple[Step, ...]
    outcome: Outcome


@dataclass(frozen=True)
class Exchange:
    """An exchange of words: what it was for, how many words each worker sent and received, the greatest of these (`h`), and whose line."""

    number: int
    purpose: str
    sent: Tuple[int, ...]
    received: Tuple[int, ...]
    h: int
    line: int


@dataclass(frozen=True)
class Trace:
    """The exchanges of a run by workers, how it came out, and with `bsp=` what they cost."""

    exchanges: Tuple[Exchange, ...]
    outcome: Outcome
    cost: Optional[int]


def act_of(said: Mapping[str, Any]) -> Act:
    reads = zip(said["reads"], said["positions"], numbers(said["values"]))
    return Act(optional_number(said, "processor"), tuple(Read(*it) for it in reads), said["write"], optional_number(said, "written"))


def change_of(said: Mapping[str, Any], name: str) -> Change:
    return Change(said[name], int(said["before"]), int(said["after"]), optional_number(said, "processor"))


def meeting_of(said: Mapping[str, Any]) -> Meeting:
    held = tuple(LocalValue(it["local"], int(it["processor"]), int(it["value"])) for it in said["locals"])
    bounds = [optional_number(said, it) for it in ("subscript", "low", "high", "procs")]
    writers = tuple(Write(int(it["processor"]), int(it["value"])) for it in said.get("writers", ()))
    operands = numbers(said.get("operands", ()))
    return Meeting(numbers(said["met"]), held, said.get("array"), *bounds, said.get("operator"), operands, writers)


def step_of(said: Mapping[str, Any]) -> Step:
    acts = tuple(map(act_of, said["acts"]))
    where = said["step"], said["line"], said["column"]
    fault = fault_of(said)
    if fault:
        return Step(*where, len(acts), acts, fault=fault, meeting=meeting_of(said))
    changes = tuple(change_of(it, "cell") for it in said["changes"])
    variables = tuple(change_of(it, "name") for it in said["variables"])
    held = tuple(change_of(it, "local") for it in said["locals"])
    return Step(*where, said["processors"], acts, changes, variables, held, numbers(said["printed"]))


def steps_of(lines: List[Mapping[str, Any]], ended_behind: Optional[int]) -> Steps:
    opening, *steps, end = lines
    return Steps(memory_of(opening["opening"]), tuple(map(step_of, steps)), outcome_of(end, ended_behind))


def exchange_of(said: Mapping[str, Any]) -> Exchange:
    return Exchange(said["exchange"], said["for"], numbers(said["sent"]), numbers(said["received"]), said["h"], said["line"])


def trace_of(lines: List[Mapping[str, Any]]) -> Trace:
    *exchanges, end = lines
    return Trace(tuple(map(exchange_of, exchanges)), outcome_of(end), optional_number(end, "cost"))
