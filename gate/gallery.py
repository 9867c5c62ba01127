#!/usr/bin/env python3
"""The gallery of examples/, whose programs say at their end what they are.

gallery.py           compares the tables of examples/README.md with the programs, their T and W with what the analysis comes to, and their
                     sizes with those of the text and with the inputs that are there
gallery.py --write   writes the tables
"""
import re
import sys
from math import log2
from pathlib import Path

EXAMPLES = Path(__file__).resolve().parent.parent / "examples"
INPUTS = EXAMPLES / "inputs"
PAGE = EXAMPLES / "README.md"
FIELDS = ["Algorithm", "Chapter", "Source", "Rule", "Sizes", "T", "W", "Conflict", "Always"]
FOOT = re.compile("".join(rf"# {it}: (?P<{it}>.+)\n" for it in FIELDS) + r"\Z")
COSTS = re.compile(r"(at most )?(.+?)( (?:for|of) .+)?: (\d+), (\d+), (\d+)")
CHANGE = re.compile(r"(.+?) becomes (.+); (fault .+)")
SCOPE = re.compile(r"^# Always: (\d+) values?(?: from (-?\d+) to (-?\d+))?: (?:(no fault|faults .+)|(may fault|undecided): .+)$", re.M)
SIZE = re.compile(r"^# size (\w+) = (\d+)$", re.M)
TABLES = re.compile(r"(<!-- by gate/gallery.py -->\n).*?(<!-- end -->\n)", re.S)
HEAD = f"| Program | Algorithm | Source | Rule, and why | Sizes | T | W | A conflict | On every input of |\n|{'---|' * 9}"


def files():
    return sorted(EXAMPLES.glob("*.pram"))


def programs():
    """The name and the text of each example."""
    return [(it.stem, it.read_text()) for it in files()]


def foot(text):
    """What an example says of itself, if it is of the gallery."""
    found = FOOT.search(text)
    return found and found.groupdict()


def code(text):
    """An example of the gallery without what it says of itself."""
    return text[: FOOT.search(text).start()]


def sizes(text):
    """What each letter stands for at the three sizes, and under `here` the n of the example itself."""
    *letters, here = foot(text)["Sizes"].split("; ")
    found = {letter: [int(it) for it in values.split(", ")] for letter, values in (it.split(" = ") for it in letters)}
    return {**found, "here": int(here.removeprefix("here "))}


def cases(name, text):
    """For each of the three sizes: the numbers of the sizes that the text declares, and the input."""
    found = sizes(text)
    for at, n in enumerate(found["n"]):
        yield {letter: found[letter][at] for letter, _ in SIZE.findall(text)}, INPUTS / f"{name}_{n}.in"


def costs(text, what):
    """The T or the W of an example at its three sizes."""
    return [int(it) for it in COSTS.fullmatch(foot(text)[what]).groups()[-3:]]


def formula(text):
    """A formula of the analysis as one of Python, or nothing where it is an order alone."""
    if text.startswith("O("):
        return None
    for old, new in ((r"log log (\w)", r"log2(log2(\1))"), (r"log (\w)", r"log2(\1)"), (r"\^", "**")):
        text = re.sub(old, new, text)
    return re.sub(r"(?<=[\w)]) (?=[\w(])", " * ", text)


def unlike_the_analysis(name, text, what):
    """Where the costs of an example aren't those of the analysis."""
    bound, said, _, *_ = COSTS.fullmatch(foot(text)[what]).groups()
    wanted = formula(said)
    *letters, _ = sizes(text)
    for at, cost in enumerate(costs(text, what)):
        given = wanted and eval(wanted, {"log2": log2}, {it: sizes(text)[it][at] for it in letters})
        if wanted and not (cost <= given if bound else cost == given):
            yield f"examples/{name}.pram: {what} is {cost}, and {said} is {given:g}"


def wrong_sizes(name, text):
    """Where the three sizes of an example are not those of its text and of its inputs."""
    found = list(cases(name, text))
    own = {letter: int(number) for letter, number in SIZE.findall(text)}
    if sizes(text)["here"] != own.get("n"):
        yield f"examples/{name}.pram: its size n is not the one that stands behind `here`"
    yield from (f"{values} is not there" for _, values in found if not values.exists())
    same = (EXAMPLES / f"{name}.in").read_text()
    if not any(given == own and values.exists() and values.read_text() == same for given, values in found):
        yield f"examples/{name}.in is not the input of its own size"


def strays():
    """Inputs of no size of an example."""
    wanted = {values for name, text in programs() if foot(text) for _, values in cases(name, text)}
    return [f"{it} is of no size of an example" for it in sorted(INPUTS.iterdir()) if it not in wanted]


def scope(text):
    """The words of a call of `always` with the scope that an example names, and what is told of it."""
    cells, least, greatest, decided, left = SCOPE.search(text).groups()
    return ["--cells", cells, *(["--values", f"{least}..{greatest}"] if least else [])], decided or left


def change(text):
    """The text with its conflict, the two pieces in which they differ, and the fault that it comes to."""
    old, new, fault = CHANGE.fullmatch(foot(text)["Conflict"]).groups()
    if code(text).count(old) != 1:
        sys.exit(f"examples: this stands {code(text).count(old)} times: {old}")
    return code(text).replace(old, new), old, new, fault


def row(name, text):
    """The row of an example in the table of its chapter."""
    said = {key: value.replace("JaJa", "JáJá") for key, value in foot(text).items()}
    _, old, new, fault = change(text)
    facts = [said[it] for it in ("Algorithm", "Source", "Rule", "Sizes", "T", "W")]
    cells = [f"[`{name}`]({name}.pram)", *facts, f"`{old}` as `{new}`: `{fault}`", said["Always"]]
    return "| " + " | ".join(cells) + " |"


def unlike_the_page(page, name, text):
    """Where the row of an example outside the gallery doesn't end with what holds of it on every input."""
    said = SCOPE.search(text)[0].removeprefix("# Always: ")
    if not re.search(rf"^\| \[`{name}`\].*\| {re.escape(said)} \|$", page, re.M):
        yield f"examples/README.md: the row of {name} doesn't end with: {said}"


def tables():
    """The tables of all chapters."""
    chapters = {}
    for name, text in programs():
        if foot(text):
            chapters.setdefault(foot(text)["Chapter"], []).append(row(name, text))
    return "\n".join("\n".join([f"### {it}", "", HEAD, *chapters[it], ""]) for it in sorted(chapters))


def main():
    page = PAGE.read_text()
    wanted = TABLES.sub(lambda found: f"{found[1]}\n{tables()}\n{found[2]}", page)
    if sys.argv[1:] == ["--write"]:
        PAGE.write_text(wanted)
    else:
        wrong = [it for name, text in programs() if not foot(text) for it in unlike_the_page(page, name, text)]
        wrong += [it for name, text in programs() if foot(text) for what in "TW" for it in unlike_the_analysis(name, text, what)]
        wrong += [it for name, text in programs() if foot(text) for it in wrong_sizes(name, text)] + strays()
        missing = [name for name, _ in programs() if f"]({name}.pram)" not in page]
        if missing or page != wanted:
            wrong.append(f"examples/README.md: run {sys.argv[0]} --write; not there: {' '.join(missing)}")
        sys.exit("\n".join(wrong) or 0)


if __name__ == "__main__":
    main()
