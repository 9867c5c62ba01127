"""Programs of a parallel random access machine: compiled, run, counted and told by the program pramc.

    import pramc
    outcome = pramc.run(text, input=[5, 2, 7, 1])
    outcome.output, outcome.memory["a"][1], outcome.fault

In a notebook `%load_ext pramc` gives the cells `%%pram run --input 3 1 4`.
"""
from __future__ import annotations

from typing import TYPE_CHECKING

from .commands import always, check, compare, cost, explore, grade, meaning, rules, run, steps, sweep, trace
from .costs import Cost, LineCost, Sweep, SweepRow
from .drawings import expand, explain, export, flow_figure, plan, steps_figure, steps_page, sweep_figure, trace_figure, version
from .errors import Faulted, NotAscii, NumberOutOfRange, PramcError, ProgramFailed, ProgramMissing, Refused, UsageError, WentOn
from .figures import Figure, Page
from .outcomes import Accepted, Declaration, Fault, Outcome, UnderRule
from .program import program
from .refusals import Note, Place, Refusal
from .scopes import (
    Always, Cells, Comparison, Difference, Exploration, FoundFault, Grade, Marks, PossibleFault, Range, Reason, Scope, Undecided)
from .telling import Act, Change, Exchange, LocalValue, Meeting, Read, Step, Steps, Trace, Write

if TYPE_CHECKING:
    from IPython.core.interactiveshell import InteractiveShell

__all__ = [
    "Accepted", "Act", "Always", "Cells", "Change", "Comparison", "Cost", "Declaration", "Difference", "Exchange", "Exploration", "Fault",
    "Faulted", "Figure", "FoundFault", "Grade", "LineCost", "LocalValue", "Marks", "Meeting", "NotAscii", "Note", "NumberOutOfRange",
    "Outcome", "Page", "Place", "PossibleFault", "PramcError", "ProgramFailed", "ProgramMissing", "Range", "Read", "Reason", "Refusal",
    "Refused", "Scope", "Step", "Steps", "Sweep", "SweepRow", "Trace", "Undecided", "UnderRule", "UsageError", "WentOn", "Write", "always",
    "check", "compare", "cost", "expand", "explain", "explore", "export", "flow_figure", "grade", "meaning", "plan", "program", "rules",
    "run", "steps", "steps_figure", "steps_page", "sweep", "sweep_figure", "trace", "trace_figure", "version"]


def load_ipython_extension(shell: InteractiveShell) -> None:
    """What `%load_ext pramc` calls."""
    from .magic import load

    load(shell)
