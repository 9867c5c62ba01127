"""The ways to say what the cells hold before a run."""
from __future__ import annotations

from typing import Mapping, Optional

from .errors import UsageError
from .request import ByName, Interval, Request, Text, Values, items, number


def filled(
    request: Request, input: Optional[Values], memory: Optional[ByName], random: Optional[Interval], draw: Optional[str],
    seed: Optional[int]
) -> None:
    """What the cells hold before the run; which of these go together the program says."""
    request.input(input)
    request.memory(memory)
    request.interval("random", random)
    request.option("draw", draw)
    request.option("seed", seed)


def started(command: str, text: Text, sizes: Optional[Mapping[str, int]], bound: Optional[int]) -> Request:
    """A call over a program with the sizes that are given, and with a bound on its statements."""
    request = Request(command, text)
    request.sizes(sizes)
    request.option("bound", bound)
    return request


def inputs_by_size(request: Request, inputs: Optional[Mapping[int, Values]], over: str) -> None:
    """An input for each size, as files that have the size in their names."""
    if inputs is None:
        return
    if not inputs:
        raise UsageError("inputs: there is none")
    size = over.partition("=")[0]
    for value, values in items(inputs, "inputs"):
        request.values_file(f"input_{number(value, 'inputs')}", values)
    request.option("input", f"input_{{{size}}}")
