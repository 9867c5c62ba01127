#!/usr/bin/env python3
"""Draws the flow of data of each example, and compares the picture, read as XML, with the statements that are told as JSON. Those of
examples/flows stand in the gallery, and are compared as they are.

flow_pictures.py PROGRAM: each statement that touches shared memory or faults has its number and its line; each cell that it wrote has its
new value in its row; the lines are just those from a cell that a processor read to the one that it wrote; and of a fault who met is said.
flow_pictures.py PROGRAM --write: writes those of examples/flows.
"""
import json
import re
import subprocess
import sys
import xml.etree.ElementTree as tree
from concurrent.futures import ThreadPoolExecutor
from pathlib import Path

from gallery import EXAMPLES, files
from jobs import JOBS

PROGRAM = Path(sys.argv[1]).resolve()
SVG = "{http://www.w3.org/2000/svg}"
SHOWN = ["tree_sum", "prefix_sums", "bitonic_sort", "pointer_jumping", "conflict_erew"]
MOST = 64
# where rows and columns stand, and how far before its column a line begins
LEFT, WIDE, TOP, TALL, BACK, BASE = 168, 100, 310, 24, 60, 4
ENTRY = re.compile(r"(?:cell (\w+)|array (\w+) (\d+) (\d+))")
BLACK = "#000000"
LINE = re.compile(r"M(\d+) (\d+)L(\d+) (\d+)")


def written(words):
    done = subprocess.run([PROGRAM, *words], capture_output=True, text=True, timeout=60)
    if done.returncode not in (0, 1, 3) or done.stderr:
        sys.exit(f"pramc {' '.join(map(str, words))}: {done.returncode} {done.stderr}")
    return done.stdout


def numbers(file):
    """The number of a program's cell by its name."""
    first, count = {}, 0
    for cell, array, low, high in ENTRY.findall(written(["plan", file]).split("\nuniform ")[0]):
        first[cell or array] = count - int(low or 0)
        count += int(high) - int(low) + 1 if array else 1
    return lambda name: first[name.split("[")[0]] + int(name.rstrip("]").split("[")[1] if "[" in name else 0)


def touches(entry):
    return "kind" in entry or any(it["reads"] or it["write"] is not None for it in entry["acts"])


def cells(entry):
    """The cells that a statement touches."""
    found = {cell for act in entry["acts"] for cell in [*act["reads"], *([act["write"]] if act["write"] else [])]}
    return found | ({entry["place"]} if entry.get("met") else set())


def expected(entries, number, values):
    """The names of the rows, and of each drawn statement what its column shows: cells with values, and pairs of cells."""
    drawn = [it for it in entries if touches(it)][:MOST]
    touched = sorted({cell for it in drawn for cell in cells(it)}, key=number)
    # the cell of a fault has the last row, if none of the first is its own
    behind = [it["place"] for it in drawn if it.get("met") and it["place"] not in touched[:MOST]]
    names = touched[:MOST - 1] + behind if behind else touched[:MOST]
    held = {cell: values[number(cell)] if number(cell) < len(values) else "0" for cell in names}
    columns = []
    for entry in entries:
        held.update({it["cell"]: it["after"] for it in entry.get("changes", [])})
        if entry in drawn:
            acts = entry["acts"]
            nodes = {(it["write"], held[it["write"]]) for it in acts if it["write"] in names}
            arrows = {(cell, it["write"]) for it in acts if it["write"] in names for cell in it["reads"] if cell in names}
            columns.append(((str(entry["step"]), f"line {entry['line']}"), nodes, arrows))
    return names, columns


def shown(root, names):
    """The same of a picture."""
    columns = {}

    def column(x):
        return columns.setdefault((int(x) - LEFT) / WIDE, ([], set(), set()))

    def cell(y):
        row = (int(y) - TOP) / TALL
        return names[int(row)] if row == int(row) and row < len(names) else None

    for it in root.iter(f"{SVG}text"):
        x, y = it.get("x"), it.get("y")
        if x is not None and int(y) < TOP and it.get("text-anchor") == "middle":
            column(x)[0].append(it.text)
        elif x is not None and it.get("text-anchor") == "middle":
            column(x)[1].add((cell(int(y) - BASE), it.text))
    for it in root.iter(f"{SVG}path"):
        back, start, x, end = map(int, LINE.fullmatch(it.get("d")).groups())
        # others are of the key, and along rows
        if start >= TOP and it.get("stroke") == BLACK:
            column(x)[2].add((cell(start) if back == x - BACK else None, cell(end)))
    return [(tuple(head), nodes, arrows) for _, (head, nodes, arrows) in sorted(columns.items())]


def labels(root, count):
    """The names of so many rows, downwards."""
    rows = [str(TOP + TALL * row + BASE) for row in range(count)]
    return [it.text for it in root.iter(f"{SVG}text") if it.get("x") == "12" and it.get("y") in rows]


def wrong(file, *more):
    """What is wrong with the picture of a program's run on the input beside it, if anything is."""
    values = file.with_suffix(".in")
    words = ["steps", file, "--input", values, *more]
    entries = [it for it in map(json.loads, written([*words, "--format", "json"]).splitlines()) if "step" in it]
    names, columns = expected(entries, numbers(file), values.read_text().split())
    text = written([*words, "--flow"])
    root = tree.fromstring(text)
    texts = [it.text for it in root.iter(f"{SVG}text")]
    met = [f"processors {' '.join(it['met'][:12])} " for it in entries if it.get("met")]
    kinds = {it.tag.removeprefix(SVG) for it in root.iter()}
    checks = [labels(root, len(names)) == names, shown(root, names) == columns, all(any(it.startswith(one) for it in texts) for one in met)]
    checks += [kinds <= {"svg", "title", "defs", "pattern", "rect", "text", "path", "circle"}, root.get("version") == "1.1"]
    checks += [root.get("viewBox") == f"0 0 {root.get('width')} {root.get('height')}", root[0].tag == f"{SVG}title"]
    if file.parent == EXAMPLES and file.stem in SHOWN:
        checks.append((EXAMPLES / "flows" / f"{file.stem}.svg").read_text() == text)
    other = [pair for pair in zip(columns, shown(root, names)) if pair[0] != pair[1]][:1]
    return [] if all(checks) else [f"{file.name}: {checks} {other}"]


def main():
    if "--write" in sys.argv:
        (EXAMPLES / "flows").mkdir(exist_ok=True)
        for name in SHOWN:
            words = ["steps", EXAMPLES / f"{name}.pram", "--input", EXAMPLES / f"{name}.in", "--flow"]
            (EXAMPLES / "flows" / f"{name}.svg").write_text(written(words))
    with ThreadPoolExecutor(JOBS) as pool:
        found = list(pool.map(wrong, files()))
    for it in sum(found, []):
        print(it)
    print(f"flows: {found.count([])} of {len(found)} runs are drawn as they are told")
    sys.exit(1 if any(found) else 0)


if __name__ == "__main__":
    main()
