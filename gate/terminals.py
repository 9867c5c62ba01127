#!/usr/bin/env python3
"""Has the program write to terminals, and compares what comes out there, and on the other stream, with rows worked out by hand.

terminals.py PROGRAM: a terminal is a pair of Python's `pty` that changes no byte; a stream that is none is a pipe. Each row has a program,
its input, words, the streams that are terminals, what the environment says of colours, and what both streams get, with the exit status.
"""
import os
import pty
import subprocess
import sys
import tempfile
import threading
import tty
from pathlib import Path

PROGRAM = Path(sys.argv[1]).resolve()
STREAMS = ("output", "errors")
NEITHER, OUTPUT, ERRORS, BOTH = (), ("output",), ("errors",), STREAMS
COLOURED, PLAIN, EMPTY, DUMB = {}, {"NO_COLOR": "1"}, {"NO_COLOR": ""}, {"TERM": "dumb"}

# The bounds, which change nothing, and two products, of which one keeps its value.
PRODUCTS = b"rule crew; procs 2;\nshared a[1..2];\nbegin\n  for 1 <= i <= 2 pardo\n    a[i] := a[i] * i;\n  end\nend\n"
ENDED = b"ended\na[1..2] = 3 14\n"
BARE = b"1 line 4 processors 1\n2 line 5 processors 2 a[2] 7 -> 14\n" + ENDED
BESIDE = (
    b"1 line 4 processors 1  |   for 1 <= i <= 2 pardo\n"
    b"2 line 5 processors 2 a[2] 7 -> 14  |     a[i] := a[i] * i;\n" + ENDED
)
IN_COLOURS = BESIDE.replace(b" a[2] 7 -> 14", b"\x1b[36m a[2] 7 -> 14\x1b[0m")
PRODUCTS_RUN = (PRODUCTS, b"3 7", "steps program --input input")

# Two processors add two cells each, and then one adds what they left.
SUM = (
    b"rule erew; procs 4; shared a[1..4]; shared s; var m;\nbegin\n  m := 2;\n  for 1 <= i <= m pardo\n"
    b"    a[i] := a[i] + a[i + 2];\n  end\n  s := a[1] + a[2];\n  print s;\nend\n"
)
SUMMED = b"10\nended\na[1..4] = 4 6 3 4\ns = 10\n"
FIRST = (
    b"2 line 4 processors 1  |   for 1 <= i <= m pardo\n"
    b"3 line 5 processors 2 a[1] 1 -> 4 a[2] 2 -> 6  |     a[i] := a[i] + a[i + 2];\n"
)
LAST = b"4 line 7 processors 1\x1b[36m s 0 -> 10\x1b[0m  |   s := a[1] + a[2];\n5 line 8 processors 1  |   print s;\n"

# A tab stays; a byte that steers a terminal, and the carriage return at the end of a line, don't come out.
STEERED = b"rule crew; procs 2; shared s; begin #\x1b[2J\r\n\ts := 1 div 0;\r\nend"
FAULT = b"fault divide-by-zero all line 2\n"
STEERING = b"rule crew; procs 2; shared s; begin s := 1; # \x1b[2J\nend"
WRITTEN = b"1 line 1 processors 1\x1b[36m s 0 -> 1\x1b[0m  | rule crew; procs 2; shared s; begin s := 1; # ?[2J\n"

# What is said of a refusal: where standard error is a terminal more than the line.
NOBODY = (b"rule crew;\nprocs 0;\nbegin\nend\n", b"", "check program")
LINE = b"refused E10 Limit procs\n"
MORE = LINE + b"program:2:7\nprocs 0;\n      ^\nprocs is a number from 1 to 16384\n"

ROWS = [
    (*PRODUCTS_RUN, NEITHER, COLOURED, BARE, b"", 0),
    (*PRODUCTS_RUN, NEITHER, PLAIN, BARE, b"", 0),
    (*PRODUCTS_RUN, ERRORS, COLOURED, BARE, b"", 0),
    (*PRODUCTS_RUN, OUTPUT, PLAIN, BESIDE, b"", 0),
    (*PRODUCTS_RUN, OUTPUT, COLOURED, IN_COLOURS, b"", 0),
    (*PRODUCTS_RUN, OUTPUT, EMPTY, IN_COLOURS, b"", 0),
    (*PRODUCTS_RUN, OUTPUT, DUMB, IN_COLOURS, b"", 0),
    (*PRODUCTS_RUN, BOTH, COLOURED, IN_COLOURS, b"", 0),
    (*PRODUCTS_RUN, BOTH, PLAIN, BESIDE, b"", 0),
    (SUM, b"1 2 3 4", "steps program --input input --from 2 --to 3", OUTPUT, PLAIN, FIRST + SUMMED, b"", 0),
    (SUM, b"1 2 3 4", "steps program --input input --from 4 --to 5", OUTPUT, COLOURED, LAST + SUMMED, b"", 0),
    (STEERED, b"", "steps program", OUTPUT, PLAIN, b"1 fault divide-by-zero all line 2  | \ts := 1 div 0;\n" + FAULT, b"", 1),
    (STEERING, b"", "steps program", OUTPUT, COLOURED, WRITTEN + b"ended\ns = 1\n", b"", 0),
    (*NOBODY, NEITHER, COLOURED, b"", LINE, 2),
    (*NOBODY, OUTPUT, COLOURED, b"", LINE, 2),
    (*NOBODY, ERRORS, COLOURED, b"", MORE, 2),
    (*NOBODY, ERRORS, PLAIN, b"", MORE, 2),
    (*NOBODY, BOTH, COLOURED, b"", MORE, 2),
]


def opened(is_terminal):
    """What to read from, and what to write to: of a terminal that passes on each byte as it is, or of a pipe."""
    if not is_terminal:
        return os.pipe()
    ours, theirs = pty.openpty()
    tty.setraw(theirs)
    return ours, theirs


def read(stream):
    """All that was written; of a terminal that nobody holds any more the end is an error."""
    parts = []
    while True:
        try:
            part = os.read(stream, 65536)
        except OSError:
            part = b""
        if not part:
            os.close(stream)
            return b"".join(parts)
        parts.append(part)


def said(words, terminals, env, folder):
    """What a call writes to both streams, and its exit status."""
    pairs = [opened(it in terminals) for it in STREAMS]
    streams = {"stdin": subprocess.DEVNULL, "stdout": pairs[0][1], "stderr": pairs[1][1]}
    going = subprocess.Popen([PROGRAM, *words.split()], cwd=folder, env=env, **streams)
    for _, theirs in pairs:
        os.close(theirs)
    late = threading.Timer(60, going.kill)
    late.start()
    output, errors = (read(ours) for ours, _ in pairs)
    late.cancel()
    return output, errors, going.wait()


def main():
    wrong = 0
    for program, values, words, terminals, env, *expected in ROWS:
        with tempfile.TemporaryDirectory() as folder:
            Path(folder, "program").write_bytes(program)
            Path(folder, "input").write_bytes(values)
            found = said(words, terminals, env, folder)
        if found != tuple(expected):
            wrong += 1
            print(f"pramc {words}, terminals {terminals}, {env}: {found}")
    print(f"terminals: {len(ROWS) - wrong} of {len(ROWS)} calls write there what they should")
    sys.exit(bool(wrong) or not ROWS)


if __name__ == "__main__":
    main()
