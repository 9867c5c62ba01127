#!/usr/bin/env python3
"""Has the program read the texts and the inputs of gate/rows/syntax.md, and compares which it refuses, and at which byte.

syntax.py PROGRAM: by `check` for the rows of texts and for the fronts of a program, by `meaning` for those of inputs, of which it says with
as many cells as numbers what they are, and with one cell less that there are too many.
"""
import re
import subprocess
import sys
import tempfile
from pathlib import Path

PROGRAM = Path(sys.argv[1]).resolve()
PAGE = Path(__file__).resolve().parent / "rows" / "syntax.md"
BLOCK = re.compile(r"^```(?P<kind>\w+) (?P<name>\w+)\n(?P<text>.*?)^```$", re.M | re.S)
KINDS = {"bytes": "texts", "whole": "texts", "inside": "texts", "fronts": "pram", "refused": "inputs", "read": "numbers"}
BEFORE = {"inside": b"rule crew;procs 1;begin "}
NAMES = {1: b"NotAscii", 3: b"BadToken", 4: b"Syntax"}
ACCEPTED = re.compile(rb"accepted cells \d+ procs \d+ rule [a-z]+\n")
JUDGED = re.compile(rb"refused E((6 UnknownName|7 DoubleName|8 WrongKind|9 AssignedLoopVariable) at \d+|10 Limit [a-z]+)\n")
TOO_LONG = (2, b"", b"refused E11 InputTooLong\n")


def called(words, given):
    """The exit status of a call, and what it writes to both streams."""
    done = subprocess.run([PROGRAM, *words], input=given, capture_output=True, timeout=60)
    return done.returncode, done.stdout, done.stderr


def unescaped(row):
    return row.encode().decode("unicode_escape").encode("latin-1")


def is_read(answer):
    """Whether `check` has nothing to say of how a text is written."""
    status, output, errors = answer
    return (status == 0 and ACCEPTED.fullmatch(output) and not errors) or (status == 2 and not output and JUDGED.fullmatch(errors))


def refusal(number, at):
    return 2, b"", b"refused E%d %s at %d\n" % (number, NAMES[number], at)


def marked(row, before=b""):
    """The number of a row, its text, and where its mark stands."""
    number, _, text = row.partition(" ")
    front, mark, rest = (before + unescaped(text)).partition(b"^")
    if bool(mark) == (number == "0"):
        sys.exit(f"syntax.md: a mark too much, or none: {row}")
    return int(number), front + rest, len(front)


def text_is_told(row, before=b""):
    number, text, at = marked(row, before)
    answer = called(["check", "-"], text)
    return answer == refusal(number, at) if number else is_read(answer)


def front_is_refused(text):
    status, output, errors = called(["check", "-"], text)
    return (status, output) == (2, b"") and re.fullmatch(rb"refused E(3 BadToken|4 Syntax) at \d+\n", errors)


def run_on(cells, given, folder):
    """The run of a program with so many cells, on an input."""
    program = Path(folder, "program")
    program.write_text("rule crew; procs 1;" + f" shared a[1..{cells}];" * (cells > 0) + " begin end")
    return called(["meaning", program, "--input", "-"], given)


def input_is_told(row, folder):
    number, given, at = marked(row)
    return run_on(len(given), given, folder) == refusal(number, at)


def numbers_are_told(row, folder):
    values, _, given = row.partition(":")
    given, count = unescaped(given.removeprefix(" ")), len(values.split())
    cells = f"a[1..{count}] = {values}\n" if count else ""
    told = run_on(count, given, folder) == (0, f"ended\n{cells}".encode(), b"")
    return told and (count == 0 or run_on(count - 1, given, folder) == TOO_LONG)


def rows_of(name, text, folder):
    """Each row of a block, and whether the program says the same of it."""
    lines = text.splitlines()
    if name == "fronts":
        whole = text.strip().encode()
        yield text, is_read(called(["check", "-"], whole))
        yield from ((whole[:end], front_is_refused(whole[:end])) for end in range(len(whole)))
    elif name == "refused":
        yield from ((it, input_is_told(it, folder)) for it in lines)
    elif name == "read":
        yield from ((it, numbers_are_told(it, folder)) for it in lines)
    else:
        yield from ((it, text_is_told(it, BEFORE.get(name, b""))) for it in lines)


def main():
    blocks = list(BLOCK.finditer(PAGE.read_text()))
    if {it["name"]: it["kind"] for it in blocks} != KINDS or len(blocks) != len(KINDS):
        sys.exit(f"syntax.md: these blocks are wanted: {KINDS}")
    with tempfile.TemporaryDirectory() as folder:
        found = [list(rows_of(it["name"], it["text"], folder)) for it in blocks]
    rows = sum(found, [])
    for row, right in rows:
        if not right:
            print(f"told otherwise: {row}")
    if not all(found):
        print("syntax.md: a block has no rows")
    right = sum(bool(it) for _, it in rows)
    print(f"syntax: {right} of {len(rows)} texts and inputs are read, or refused at their byte")
    sys.exit(right != len(rows) or not all(found))


if __name__ == "__main__":
    main()
