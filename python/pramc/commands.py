"""The commands over a program, each one call of pramc.

Each takes the text of a program (or a path of a file that has it), and the options of the command as keywords. What the cells hold
before a run is said in one of four ways: `input=[3, 1]`, the first cells; `memory={"a": [3, 1]}`, by names; `random=(1, 9)`, drawn by
`seed=`; or `draw="list"`, an input of a kind.
"""
from __future__ import annotations

from typing import Dict, Iterable, Mapping, Optional, Sequence, Union

from .costs import Cost, Sweep, cost_of, sweep_of
from .errors import UsageError
from .filling import filled, inputs_by_size, started
from .outcomes import Accepted, Outcome, UnderRule, outcome_of, under_rule_of
from .request import ByName, Interval, Request, Text, Values, items, name, names_text, number, only
from .scopes import Always, Comparison, Exploration, Grade, always_of, comparison_of, exploration_of, grade_of
from .telling import Steps, Trace, steps_of, trace_of

Sizes = Optional[Mapping[str, int]]
Names = Union[str, Iterable[str], None]
Bound = Optional[int]
Limit = Union[int, str, None]  # a number, or an expression of the sizes
Over = Union[str, Mapping[str, Iterable[int]]]  # the sizes of a sweep: "n=4..64*2", or {"n": [4, 8, 16]}


def check(text: Text, *, sizes: Sizes = None) -> Accepted:
    """Says whether a program is accepted; else `Refused` is raised."""
    said = started("check", text, sizes, None).object()
    return Accepted(said["cells"], said["procs"], said["rule"])


def meaning(
    text: Text, *, input: Optional[Values] = None, memory: Optional[ByName] = None, random: Optional[Interval] = None,
    draw: Optional[str] = None, seed: Optional[int] = None, sizes: Sizes = None, bound: Bound = None, seconds: Optional[int] = None,
    show: Names = None, quiet: bool = False
) -> Outcome:
    """Runs a program by the definition of the language."""
    request = started("meaning", text, sizes, bound)
    filled(request, input, memory, random, draw, seed)
    request.option("seconds", seconds)
    shown(request, show, quiet)
    found, ended_behind = request.objects()
    return outcome_of(only(found), ended_behind)


def run(
    text: Text, *, input: Optional[Values] = None, memory: Optional[ByName] = None, random: Optional[Interval] = None,
    draw: Optional[str] = None, seed: Optional[int] = None, sizes: Sizes = None, bound: Bound = None, show: Names = None,
    quiet: bool = False, workers: Optional[int] = None, map: Optional[str] = None, reserve: Optional[Interval] = None
) -> Outcome:
    """Compiles a program and runs it by workers. `reserve` is a pair: printed numbers, and exchanges."""
    request = started("run", text, sizes, bound)
    filled(request, input, memory, random, draw, seed)
    shown(request, show, quiet)
    by_workers(request, workers, map, reserve)
    return outcome_of(request.object())


def trace(
    text: Text, *, input: Optional[Values] = None, memory: Optional[ByName] = None, random: Optional[Interval] = None,
    draw: Optional[str] = None, seed: Optional[int] = None, sizes: Sizes = None, bound: Bound = None,
    workers: Optional[int] = None, map: Optional[str] = None, reserve: Optional[Interval] = None, bsp: Optional[Interval] = None
) -> Trace:
    """Tells the exchanges of a run by workers. `bsp` is a pair: each exchange costs the first times its h, and the second."""
    request = started("trace", text, sizes, bound)
    filled(request, input, memory, random, draw, seed)
    by_workers(request, workers, map, reserve)
    request.option("bsp", pair_text(bsp, "bsp"))
    request.flag("outcome", True)
    return trace_of(request.objects()[0])


def cost(
    text: Text, *, input: Optional[Values] = None, memory: Optional[ByName] = None, random: Optional[Interval] = None,
    draw: Optional[str] = None, seed: Optional[int] = None, sizes: Sizes = None, bound: Bound = None, seconds: Optional[int] = None,
    workers: Optional[int] = None, schedule: Optional[int] = None, lines: bool = False
) -> Cost:
    """Counts time, work, accesses and exchanges of a run, with `lines=True` of each line too."""
    request = started("cost", text, sizes, bound)
    filled(request, input, memory, random, draw, seed)
    for word, value in (("seconds", seconds), ("workers", workers), ("schedule", schedule)):
        request.option(word, value)
    request.flag("lines", lines)
    found, ended_behind = request.objects()
    return cost_of(only(found), ended_behind)


def sweep(
    text: Text, over: Over, *, inputs: Optional[Mapping[int, Values]] = None, random: Optional[Interval] = None,
    draw: Optional[str] = None, seed: Optional[int] = None, sizes: Sizes = None, bound: Bound = None, workers: Optional[int] = None
) -> Sweep:
    """Counts at each of several sizes: `sweep(text, {"n": [4, 8, 16]})` or `sweep(text, "n=4..64*2")`. `inputs` has one for each size."""
    request = swept(text, over, inputs, random, draw, seed, sizes, bound)
    request.option("workers", workers)
    return sweep_of(request.objects()[0])


def steps(
    text: Text, *, input: Optional[Values] = None, memory: Optional[ByName] = None, random: Optional[Interval] = None,
    draw: Optional[str] = None, seed: Optional[int] = None, sizes: Sizes = None, bound: Bound = None, seconds: Optional[int] = None,
    from_: Optional[int] = None, to: Optional[int] = None
) -> Steps:
    """Tells a run statement by statement, from the statement `from_` to the statement `to`."""
    request = started("steps", text, sizes, bound)
    filled(request, input, memory, random, draw, seed)
    for word, value in (("seconds", seconds), ("from", from_), ("to", to)):
        request.option(word, value)
    return steps_of(*request.objects())


def rules(
    text: Text, *, input: Optional[Values] = None, memory: Optional[ByName] = None, random: Optional[Interval] = None,
    draw: Optional[str] = None, seed: Optional[int] = None, sizes: Sizes = None, bound: Bound = None
) -> Dict[str, UnderRule]:
    """Runs a program under each of the five rules, by their names: how it comes out there, and whether the same."""
    request = started("rules", text, sizes, bound)
    filled(request, input, memory, random, draw, seed)
    return {it["rule"]: under_rule_of(it) for it in request.object()["rules"]}


def explore(
    text: Text, *, cells: Optional[int] = None, values: Optional[Interval] = None, permutations: Optional[int] = None,
    count: Optional[int] = None, random: Optional[Interval] = None, draw: Optional[str] = None, seed: Optional[int] = None,
    where: Optional[Text] = None, ensure: Optional[Text] = None, shrink: bool = False, witness: Optional[str] = None,
    under: Optional[str] = None, sizes: Sizes = None, bound: Bound = None, workers: Optional[int] = None
) -> Exploration:
    """Runs a program on every input of `cells` values of the interval `values`, on all orders of 1 to `permutations`, or on `count` drawn
    ones.

    `where` and `ensure` are programs: which inputs count, and which results are right. The first input on which something goes wrong is
    written into the file of the name `witness`."""
    request = started("explore", text, sizes, bound)
    scope(request, cells, values, permutations)
    tried(request, None, count, random, draw, seed, where)
    request.text_option("ensure", ensure)
    request.flag("shrink", shrink)
    request.option("witness", witness)
    request.option("under", under)
    request.option("workers", workers)
    return exploration_of(request.object())


def always(
    text: Text, *, cells: Optional[int] = None, values: Optional[Interval] = None, under: Optional[str] = None,
    sizes: Sizes = None, bound: Bound = None
) -> Always:
    """Says what holds of a program on every input of a scope, by one run for all of them."""
    request = started("always", text, sizes, bound)
    scope(request, cells, values, None)
    request.option("under", under)
    return always_of(request.object())


def compare(
    text: Text, other: Text, *, cells: Optional[int] = None, values: Optional[Interval] = None, permutations: Optional[int] = None,
    inputs: Optional[Sequence[Values]] = None, count: Optional[int] = None, random: Optional[Interval] = None,
    draw: Optional[str] = None, seed: Optional[int] = None, where: Optional[Text] = None, only: Names = None,
    time_at_most: Limit = None, work_at_most: Limit = None, sizes: Sizes = None, bound: Bound = None
) -> Comparison:
    """Runs two programs on the same inputs: of a scope, those of `inputs`, or `count` drawn ones. Limits are of the second program."""
    request = started("compare", text, sizes, bound)
    request.words.insert(2, request.file("other", other))
    scope(request, cells, values, permutations)
    tried(request, inputs, count, random, draw, seed, where)
    compared(request, only, time_at_most, work_at_most)
    return comparison_of(request.objects()[0])


def grade(
    text: Text, others: Mapping[str, Text], *, cells: Optional[int] = None, values: Optional[Interval] = None,
    permutations: Optional[int] = None, inputs: Optional[Sequence[Values]] = None, count: Optional[int] = None,
    random: Optional[Interval] = None, draw: Optional[str] = None, seed: Optional[int] = None, where: Optional[Text] = None,
    only: Names = None, under: Optional[str] = None, time_at_most: Limit = None, work_at_most: Limit = None,
    procs_at_most: Limit = None, sizes: Sizes = None, bound: Bound = None
) -> Dict[str, Grade]:
    """Grades programs by a first one on the same inputs, each under a name of yours: `grade(text, {"ada": .., "ben": ..}, cells=4)`.

    `under` is a rule under which each of the others is run."""
    request = started("grade", text, sizes, bound)
    request.by_file()
    names = {request.numbered_file("graded", it): word for word, it in items(others, "others")}
    request.words[2:2] = names
    scope(request, cells, values, permutations)
    tried(request, inputs, count, random, draw, seed, where)
    compared(request, only, time_at_most, work_at_most)
    request.option("procs-at-most", procs_at_most)
    request.option("under", under)
    found = {names[it["file"]]: grade_of(it) for it in request.objects()[0] if "file" in it}
    return {word: found[word] for word in names.values()}


# ---- what several have


def shown(request: Request, show: Names, quiet: bool) -> None:
    """Which declarations the outcome has."""
    request.option("show", optional_names(show))
    request.flag("quiet", quiet)


def tried(
    request: Request, inputs: Optional[Sequence[Values]], count: Optional[int], random: Optional[Interval], draw: Optional[str],
    seed: Optional[int], where: Optional[Text]
) -> None:
    """The inputs on which programs are compared, beside those of a scope."""
    for at, it in enumerate(several(inputs)):
        request.option("input", request.values_file(f"input_{at}", it))
    request.interval("random", random)
    request.text_option("where", where)
    for word, value in (("count", count), ("draw", draw), ("seed", seed)):
        request.option(word, value)


def compared(request: Request, only: Names, time_at_most: Limit, work_at_most: Limit) -> None:
    """What of programs is compared, and their limits."""
    for word, value in (("only", optional_names(only)), ("time-at-most", time_at_most), ("work-at-most", work_at_most)):
        request.option(word, value)


def several(inputs: Optional[Sequence[Values]]) -> Sequence[Values]:
    """The inputs of a comparison, none where there are none."""
    try:
        return [] if inputs is None else list(inputs)
    except TypeError:
        raise UsageError(f"inputs: {inputs!r} is no list of inputs") from None


def optional_names(names: Names) -> Optional[str]:
    return None if names is None else names_text(names)


def by_workers(request: Request, workers: Optional[int], map: Optional[str], reserve: Optional[Interval]) -> None:
    request.option("workers", workers)
    request.option("map", map)
    request.option("reserve", pair_text(reserve, "reserve"))


def pair_text(pair: Optional[Interval], what: str) -> Optional[str]:
    """Two numbers with a comma between them."""
    if pair is None:
        return None
    try:
        first, second = pair
    except (TypeError, ValueError):
        raise UsageError(f"{what}: {pair!r} is no pair of integers") from None
    return f"{number(first, what)},{number(second, what)}"


def scope(request: Request, cells: Optional[int], values: Optional[Interval], permutations: Optional[int]) -> None:
    request.option("cells", cells)
    request.interval("values", values)
    request.option("permutations", permutations)


def over_text(over: Over) -> str:
    """The sizes of a sweep as a word."""
    if isinstance(over, str):
        return over
    try:
        [(size, values)] = over.items()
    except (AttributeError, ValueError):
        raise UsageError(f"a sweep is over one size, as {{'n': [4, 8]}}, and not {over!r}") from None
    return f"{name(size, 'sweep')}={','.join(str(number(it, 'sweep')) for it in values)}"


def swept(
    text: Text, over: Over, inputs: Optional[Mapping[int, Values]], random: Optional[Interval], draw: Optional[str],
    seed: Optional[int], sizes: Sizes, bound: Bound
) -> Request:
    """The call of a sweep, for its table and for its picture."""
    request = started("cost", text, sizes, bound)
    request.by_file()
    word = over_text(over)
    request.option("sweep", word)
    inputs_by_size(request, inputs, word)
    filled(request, None, None, random, draw, seed)
    return request
