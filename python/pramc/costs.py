"""What runs cost, at one size and at several."""
from __future__ import annotations

import csv
import io
from dataclasses import dataclass
from typing import Any, List, Mapping, Optional, Tuple

from .outcomes import Outcome, optional_number, outcome_of


@dataclass(frozen=True)
class LineCost:
    """What the statements of a line cost: how many ran, their operations, and their accesses to shared memory."""

    line: int
    times: int
    work: int
    reads: int
    writes: int


@dataclass(frozen=True)
class Cost:
    """What a run costs: parallel steps (`time`), operations of all processors (`work`), the most of these at once, and accesses.

    `exchanges_at_most` is nothing where the run faults. The last five are there where they were asked for."""

    time: int
    work: int
    width: int
    reads: int
    writes: int
    exchanges_at_most: Optional[int]
    outcome: Outcome
    words_at_most: Optional[int] = None
    processors: Optional[int] = None
    rounds: Optional[int] = None
    rounds_at_most: Optional[int] = None
    lines: Tuple[LineCost, ...] = ()


@dataclass(frozen=True)
class SweepRow:
    """What a run costs at a size. `how` is `ended`, `goes on`, `fault` or `refused`; `why` is the line of a fault or a refusal."""

    size: str
    value: int
    how: str
    time: Optional[int]
    work: Optional[int]
    width: Optional[int]
    reads: Optional[int]
    writes: Optional[int]
    exchanges_at_most: Optional[int]
    words_at_most: Optional[int]
    why: Optional[str]


@dataclass(frozen=True)
class Sweep:
    """What runs cost at several sizes, and where formulas fit at these sizes those of time and work, as `4 log n + 3`."""

    rows: Tuple[SweepRow, ...]
    time: Optional[str]
    work: Optional[str]

    def to_csv(self) -> str:
        """The table that `cost --sweep --format csv` writes."""
        text = io.StringIO()
        table = csv.writer(text, lineterminator="\n")
        size = self.rows[0].size if self.rows else "n"
        table.writerow([size, "time", "work", "width", "reads", "writes", "exchanges", "words", "outcome"])
        for it in self.rows:
            counts = [it.time, it.work, it.width, it.reads, it.writes, it.exchanges_at_most, it.words_at_most]
            table.writerow([it.value, *("" if count is None else count for count in counts), it.why or it.how])
        return text.getvalue()


def line_cost_of(said: Mapping[str, Any]) -> LineCost:
    return LineCost(said["line"], *(int(said[it]) for it in ("times", "work", "reads", "writes")))


def cost_of(said: Mapping[str, Any], ended_behind: Optional[int]) -> Cost:
    counts = [int(said[it]) for it in ("time", "work", "width", "reads", "writes")]
    more = [optional_number(said, it) for it in ("words_at_most", "processors", "rounds", "rounds_at_most")]
    lines = tuple(line_cost_of(it) for it in said.get("lines", ()))
    return Cost(*counts, optional_number(said, "exchanges_at_most"), outcome_of(said, ended_behind), *more, lines)


def row_of(said: Mapping[str, Any]) -> SweepRow:
    names = ("time", "work", "width", "reads", "writes", "exchanges_at_most", "words_at_most")
    counts = [optional_number(said, it) for it in names]
    return SweepRow(said["size"], int(said["value"]), said["outcome"], *counts, said.get("fault", said.get("refusal")))


def sweep_of(lines: List[Mapping[str, Any]]) -> Sweep:
    formulas: Mapping[str, Any] = next((it for it in lines if "size" not in it), {})
    return Sweep(tuple(row_of(it) for it in lines if "size" in it), formulas.get("time"), formulas.get("work"))
