"""Pictures and pages of runs, and the texts that the program writes of itself."""
from __future__ import annotations

from typing import Mapping, Optional

from .commands import Bound, Names, Over, Sizes, by_workers, optional_names, swept
from .errors import UsageError
from .figures import Figure, Page
from .filling import filled, started
from .program import call
from .request import ByName, Interval, Request, Text, Values


def told_steps(
    text: Text, input: Optional[Values], memory: Optional[ByName], random: Optional[Interval], draw: Optional[str], seed: Optional[int],
    sizes: Sizes, bound: Bound, from_: Optional[int], to: Optional[int]
) -> Request:
    request = started("steps", text, sizes, bound)
    filled(request, input, memory, random, draw, seed)
    request.option("from", from_)
    request.option("to", to)
    return request


def steps_figure(
    text: Text, *, input: Optional[Values] = None, memory: Optional[ByName] = None, random: Optional[Interval] = None,
    draw: Optional[str] = None, seed: Optional[int] = None, sizes: Sizes = None, bound: Bound = None, from_: Optional[int] = None,
    to: Optional[int] = None
) -> Figure:
    """Draws a run's statements against its processors."""
    request = told_steps(text, input, memory, random, draw, seed, sizes, bound, from_, to)
    request.flag("svg", True)
    return Figure(request.drawn())


def flow_figure(
    text: Text, *, input: Optional[Values] = None, memory: Optional[ByName] = None, random: Optional[Interval] = None,
    draw: Optional[str] = None, seed: Optional[int] = None, sizes: Sizes = None, bound: Bound = None, from_: Optional[int] = None,
    to: Optional[int] = None, only: Names = None
) -> Figure:
    """Draws the flow of data between shared cells, of all or of those of the declarations `only`."""
    request = told_steps(text, input, memory, random, draw, seed, sizes, bound, from_, to)
    request.option("only", optional_names(only))
    request.flag("flow", True)
    return Figure(request.drawn())


def steps_page(
    text: Text, *, input: Optional[Values] = None, memory: Optional[ByName] = None, random: Optional[Interval] = None,
    draw: Optional[str] = None, seed: Optional[int] = None, sizes: Sizes = None, bound: Bound = None, from_: Optional[int] = None,
    to: Optional[int] = None
) -> Page:
    """A page that steps through a run."""
    request = told_steps(text, input, memory, random, draw, seed, sizes, bound, from_, to)
    request.flag("html", True)
    return Page(request.drawn())


def trace_figure(
    text: Text, *, input: Optional[Values] = None, memory: Optional[ByName] = None, random: Optional[Interval] = None,
    draw: Optional[str] = None, seed: Optional[int] = None, sizes: Sizes = None, bound: Bound = None,
    workers: Optional[int] = None, map: Optional[str] = None, reserve: Optional[Interval] = None
) -> Figure:
    """Draws the exchanges of a run by workers."""
    request = started("trace", text, sizes, bound)
    filled(request, input, memory, random, draw, seed)
    by_workers(request, workers, map, reserve)
    request.flag("svg", True)
    return Figure(request.drawn())


def sweep_figure(
    text: Text, over: Over, *, inputs: Optional[Mapping[int, Values]] = None, random: Optional[Interval] = None,
    draw: Optional[str] = None, seed: Optional[int] = None, sizes: Sizes = None, bound: Bound = None
) -> Figure:
    """Draws time and work against the size."""
    request = swept(text, over, inputs, random, draw, seed, sizes, bound)
    request.flag("svg", True)
    return Figure(request.drawn())


def expand(text: Text, *, sizes: Sizes = None) -> str:
    """The text that is read where a program has sizes."""
    return started("expand", text, sizes, None).drawn()


def plan(text: Text, *, sizes: Sizes = None) -> str:
    """The listing of the superstep code that a program is compiled to."""
    return started("plan", text, sizes, None).drawn()


def export(text: Text, *, to: Optional[str] = None, sizes: Sizes = None) -> str:
    """That code as a program in C: `to` is mpi, which it is where it's left out, or c, for one memory."""
    request = started("export", text, sizes, None)
    request.option("to", to)
    return request.drawn()


def explain(word: str = "") -> str:
    """What a refusal, a fault, a command, `options` or `language` is; without a word, which words there are."""
    answer = call(["explain", "--", word] if word else ["explain"])
    if answer.status:
        raise UsageError(answer.err.decode("utf-8", "replace").strip())
    return answer.out.decode()


def version() -> str:
    """The version of the program, as `1.10.0`."""
    return call(["--version"]).out.decode().split()[1]
