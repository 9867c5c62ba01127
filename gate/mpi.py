#!/usr/bin/env python3
"""The C runtime of exported plans, as constants of crates/mpi_export.

mpi.py           compares the constants with the files of crates/mpi_export/runtime, and counts the lines of these
mpi.py --write   writes them, in the layout of rt fmt

HEAD stands before a plan, and all others behind it, in this order; so do those of `alone`, of programs for one memory.
"""
import re
import sys
from pathlib import Path

CRATE = Path(__file__).resolve().parent.parent / "crates" / "mpi_export"
MOST_LINES = 1580
ALONE = ["head", "state", "values", "puts", "options", "opening", "outcome", "words", "start"]
FILES = {
    "state_text": ("what a rank has", ["head", "state", "faults", "values"]),
    "exchange_text": ("what ranks exchange", ["exchange", "joins", "held", "sending", "module"]),
    "opening_text": ("the command line, and what the cells begin with", ["options", "input", "memory", "opening"]),
    "run_text": ("the outcome and the run", ["outcome", "run", "start"]),
    "alone_text": ("a program of one memory", [f"alone/{it}" for it in ALONE]),
}
SAYS = {
    "head": "What stands before the plan.",
    "state": "What a rank has, the map, and memory.",
    "faults": "Faults, and the least key.",
    "values": "Values, the range and its masks.",
    "exchange": "Headers, messages, and the trace.",
    "joins": "Cells that are met again, and the write rules.",
    "held": "The reads and writes that are held.",
    "sending": "A send and a reply, from the side of the processors.",
    "module": "A send, from the side of the module.",
    "options": "The command line.",
    "input": "Texts of values.",
    "memory": "Texts of a memory, by names.",
    "opening": "What the cells begin with, judged and spread.",
    "outcome": "The outcome, and the close.",
    "run": "The run, instruction by instruction.",
    "start": "The memory of a rank, and where it begins.",
    "alone/head": "What stands before a plan for one memory.",
    "alone/state": "The state of a run on one memory, and its faults.",
    "alone/values": "Values, the range and its masks.",
    "alone/puts": "Writes of a statement, and reads that have to be alone.",
    "alone/options": "The command line.",
    "alone/opening": "What the cells begin with, and memory.",
    "alone/outcome": "The outcome.",
    "alone/words": "The words of instructions, as they stand in the plan.",
    "alone/start": "Where the program begins.",
}


def source(name):
    return (CRATE / "runtime" / f"{name}.c").read_text()


def constant(name):
    """The constant of a file, as rt fmt lays it out."""
    text = source(name)
    assert text.isascii() and "\\\n" not in text.replace(" \\\n", ""), name
    literal = text.replace("\\", "\\\\").replace('"', '\\"')
    word = name.replace("/", "_").upper()
    front = f"pub(crate) const {word}: [u8; {len(text)}] = *b\""
    if len(front) + len(literal.split("\n")[0]) > 100:
        front = front.replace(" = *b", " =\n    *b")
    return f"/// {SAYS[name]}\n{front}{literal}\";\n"


def module(says, names):
    return f"//! The text of the runtime: {says}. Written by `gate/mpi.py` from the files of `runtime/`.\n\n" + "\n".join(map(constant, names))


def main():
    wrong = []
    for file, (says, names) in FILES.items():
        path, text = CRATE / "src" / f"{file}.rt", module(says, names)
        if sys.argv[1:] == ["--write"]:
            path.write_text(text)
        elif not path.exists() or path.read_text() != text:
            wrong.append(f"{path.relative_to(CRATE.parent.parent)} isn't what the runtime says: python3 gate/mpi.py --write")
    lines = sum(source(name).count("\n") for _, names in FILES.values() for name in names)
    if lines > MOST_LINES:
        wrong.append(f"the runtime has {lines} lines, more than {MOST_LINES}")
    there = [str(it.relative_to(CRATE / "runtime").with_suffix("")) for it in (CRATE / "runtime").rglob("*.c")]
    missing = sorted(it for it in there if it not in SAYS)
    wrong += [f"runtime/{it}.c stands in no constant" for it in missing]
    print(*wrong or [f"mpi: the runtime's {lines} lines are the crate's constants"], sep="\n")
    return 1 if wrong else 0


sys.exit(main())
