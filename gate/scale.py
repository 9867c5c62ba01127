#!/usr/bin/env python3
"""What three programs cost on many ranks, by the sum of their h and the number of their exchanges.

scale.py            compares the tables of docs/SCALE.md with what the formulas come to
scale.py --write    writes them
scale.py PROGRAM    compares the formulas with `pramc trace --bsp` where sizes and ranks are within the limits of pramc

The formulas hold for n and p that are powers of 2, p at most n, and the map `identity`.
"""
import re
import subprocess
import sys
import tempfile
from math import log2
from pathlib import Path

TOP = Path(__file__).resolve().parent.parent
PAGE = TOP / "docs" / "SCALE.md"
CELLS, RANKS = [20, 24, 28], [4, 64, 1024]
# A word's and an exchange's price in operations on floating-point numbers: examples of a size that has been published for machines of these
# classes. Nothing of it was measured.
MACHINES = {"torus": (78, 1825), "switch": (187, 148212)}


def log(n):
    return int(log2(n))


def chain(n):
    """Each node points to the one before it, and the first to itself."""
    return [max(it - 1, 1) for it in range(1, n + 1)]


# A program by its file: its cells for n, what its array begins with, the sum of its h, and the number of its exchanges.
PROGRAMS = {
    "tree_sum": (lambda n: 2 * n, None, lambda n, p: 12 * n // p + 7 * log(p) + 2 * p - 7, lambda n: 3 * log(n) + 6),
    "prefix_sums": (lambda n: n, None, lambda n, p: 7 * (n // p * (log(n) - 1) + 1), lambda n: 3 * log(n) + 1),
    "pointer_jumping": (lambda n: n, chain, lambda n, p: n // p * (7 * log(n) - 2) + 2 + 2 * (p - 1) * (log(n) - log(p) + 1),
                        lambda n: 5 * log(n) + 1),
}


def grouped(number):
    return f"{number:,}"


def words():
    """The words of the busiest rank, over all exchanges, and the exchanges."""
    yield "| Program | Cells | n | Exchanges | " + " | ".join(f"{p:,} ranks" for p in RANKS) + " |"
    yield "|---|---|---|---|" + "---|" * len(RANKS)
    for name, (cells, _, total, exchanges) in PROGRAMS.items():
        for power in CELLS:
            n = 2**power // cells(1)
            yield f"| `{name}` | 2^{power} | 2^{log(n)} | {exchanges(n)} | " + " | ".join(grouped(total(n, p)) for p in RANKS) + " |"


def costs():
    """G * h + L over all exchanges, in millions of operations, and of that what the exchanges cost alone."""
    yield "| Program | Cells | Machine | " + " | ".join(f"{p:,} ranks" for p in RANKS) + " | of that L |"
    yield "|---|---|---|" + "---|" * len(RANKS) + "---|"
    for name, (cells, _, total, exchanges) in PROGRAMS.items():
        for power in CELLS:
            n = 2**power // cells(1)
            for machine, (g, l) in MACHINES.items():
                shown = " | ".join(grouped(round((g * total(n, p) + l * exchanges(n)) / 1e6)) for p in RANKS)
                yield f"| `{name}` | 2^{power} | {machine} | {shown} | {l * exchanges(n) / 1e6:.1f} |"


def page(text):
    for name, table in (("words", words), ("costs", costs)):
        rows = "\n".join(table())
        text = re.sub(rf"(<!-- {name}, by gate/scale.py -->\n\n).*?(\n\n<!-- end -->)", rf"\g<1>{rows}\g<2>", text, flags=re.S)
    return text


def traced(program, name, n, p, rates, values):
    call = [program, "trace", TOP / "examples" / f"{name}.pram", "--size", f"n={n}", "--workers", str(p), "--bsp", rates]
    with tempfile.NamedTemporaryFile("w", suffix=".in") as file:
        file.write(" ".join(map(str, values or [])))
        file.flush()
        done = subprocess.run([*call, "--input", file.name], capture_output=True, text=True)
    return int(done.stdout.splitlines()[-1].removeprefix("cost "))


def compare(program):
    wrong, right = [], 0
    for name, (_, begins, total, exchanges) in PROGRAMS.items():
        for n in (64, 512, 2048):
            for p in (1, 2, 8, 32):
                values = begins and begins(n)
                found = traced(program, name, n, p, "1,0", values), traced(program, name, n, p, "0,1", values)
                if found != (total(n, p), exchanges(n)):
                    wrong.append(f"{name} n {n} p {p}: {found}, by the formulas {total(n, p), exchanges(n)}")
                right += 1
    print(*wrong or [f"scale: {right} traces are as the formulas say"], sep="\n")
    return 1 if wrong else 0


def main():
    if sys.argv[1:] == ["--write"]:
        PAGE.write_text(page(PAGE.read_text()))
        return 0
    if len(sys.argv) == 2:
        return compare(sys.argv[1])
    same = page(PAGE.read_text()) == PAGE.read_text()
    print("scale: the tables of docs/SCALE.md are what the formulas come to" if same else "docs/SCALE.md: python3 gate/scale.py --write")
    return 0 if same else 1


sys.exit(main())
