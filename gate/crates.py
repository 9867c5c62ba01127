#!/usr/bin/env python3
"""The sections of crates.txt, as a page and as a diagram.

crates.py           compares docs/CRATES.md and the diagram of docs/ARCHITECTURE.md with crates.txt and the crates
crates.py --write   writes them

A section begins with a comment line, NAME: what it is for. A crate stands behind those that it uses. The page has the first sentence of
each crate's own description. The diagram has an arrow from a section to each that its crates use, where no other arrow says so already.
"""
import difflib
import re
import sys
from pathlib import Path

TOP = Path(__file__).resolve().parent.parent
PAGE, ARCHITECTURE = TOP / "docs/CRATES.md", TOP / "docs/ARCHITECTURE.md"
DIAGRAM = re.compile(r"```mermaid\ngraph TD\n(.*?)```\n", re.S)
SECTION = re.compile(r"# (\w+): (.+)")
CRATE = re.compile(r"(\w+)[^:]*:(.*)")
# Where a stranger enters: each section's first crates to read.
FRONT_DOORS = """write_rules pram_syntax pram_check pram_meaning address_map superstep_code bsp_verify lowering fusing combining bsp_machine
    exchange_arena turnstile workers tracer pramc""".split()
HEAD = """# Crates

What each crate is, in its own words, in the order in which a program goes through them. Names in **bold** are front doors, to be read
first. Written by `gate/crates.py`.
"""


def sections():
    """The sections by name, each with what it is for and its crates, and of each crate the crates that it uses."""
    found, uses = {}, {}
    for line in (TOP / "crates.txt").read_text().splitlines():
        if begin := SECTION.fullmatch(line):
            found[begin[1]] = (begin[2], [])
        elif crate := CRATE.fullmatch(line.split("#")[0]):
            list(found.values())[-1][1].append(crate[1])
            uses[crate[1]] = crate[2].split()
    return found, {name: [it for it in below if it in uses] for name, below in uses.items()}


def misplaced(found, uses):
    """What stands before a crate that it uses, or is no more where it is looked for."""
    order = list(uses)
    if sum(len(crates) for _, crates in found.values()) < len(order):
        yield "crates.txt: a section stands there twice"
    yield from (f"crates.txt names no {it}" for it in FRONT_DOORS if it not in uses)
    for name, below in uses.items():
        for it in below:
            if order.index(it) > order.index(name):
                yield f"crates.txt: {name} stands before {it}, which it uses"


def first_sentence(name):
    """The first sentence of what a crate says of itself."""
    source = next(it for it in (TOP / "crates" / name / "src" / it for it in ("lib.rt", "main.rt")) if it.exists())
    said = re.findall(r"^//! ?(.*)$", source.read_text(), re.M)
    text = " ".join(said[: said.index("")] if "" in said else said)
    return re.match(r".*?\.(?= [A-Z]|$)", text)[0]


def page(found):
    """The page of the crates."""
    lines = [HEAD]
    for name, (purpose, crates) in found.items():
        lines.append(f"## {name}\n\n{purpose[0].upper()}{purpose[1:]}.\n")
        for it in sorted(crates, key=lambda it: it not in FRONT_DOORS):
            shown = f"**`{it}`**" if it in FRONT_DOORS else f"`{it}`"
            lines.append(f"- {shown}: {first_sentence(it)}")
        lines.append("")
    return "\n".join(lines)


def diagram(found, uses):
    """The arrows between sections."""
    at = {it: name for name, (_, crates) in found.items() for it in crates}
    below = {name: {at[it] for crate in crates for it in uses[crate]} - {name} for name, (_, crates) in found.items()}
    reached = {}
    for name in found:
        reached[name] = below[name].union(*(reached[it] for it in below[name]))
    arrows = ((name, it) for name in found for it in found if it in below[name])
    return "".join(f"  {name} --> {it}\n" for name, it in arrows if not any(it in reached[other] for other in below[name]))


def unlike(path, wanted):
    """The first difference between a page and what belongs there."""
    there = path.read_text().splitlines() if path.exists() else []
    changes = [it for it in difflib.unified_diff(there, wanted.splitlines(), lineterm="", n=0) if not it.startswith(("---", "+++", "@@"))]
    return f"{path.relative_to(TOP)}: run {sys.argv[0]} --write; the first difference is {changes[0]}" if changes else None


def main():
    found, uses = sections()
    architecture = ARCHITECTURE.read_text()
    drawn = DIAGRAM.sub(lambda _: f"```mermaid\ngraph TD\n{diagram(found, uses)}```\n", architecture)
    wanted = {PAGE: page(found), ARCHITECTURE: drawn}
    wrong = list(misplaced(found, uses))
    if not DIAGRAM.search(architecture):
        wrong.append("docs/ARCHITECTURE.md has no diagram")
    if sys.argv[1:] == ["--write"]:
        for path, text in wanted.items():
            path.write_text(text)
    else:
        wrong += filter(None, (unlike(path, text) for path, text in wanted.items()))
    sys.exit("\n".join(wrong) or 0)


if __name__ == "__main__":
    main()
