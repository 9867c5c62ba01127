#!/usr/bin/env python3
"""Has runs told that never end, and looks at what comes while they go on, at what stands in a file when one is killed, and at its seconds.

as_it_runs.py PROGRAM: a line has to come through a pipe, or to a terminal of Python's `pty`, a good while before a run is over, also where
no other line follows. A file that a killed run leaves ends with a whole line. With `--seconds 1` a run is told for a second and no longer,
in each form, and what is told is what it is within the bound that is named. Where the machine is busy, a row is tried
up to three times, and has as much more time as some calls take that do nothing. The texts are worked out by hand.
"""
import json
import os
import pty
import select
import signal
import subprocess
import sys
import tempfile
import time
import tty
from pathlib import Path

PROGRAM = Path(sys.argv[1]).resolve()
SOON = 1.0  # a line comes within a tenth of a second
TRIES = 3
LONGEST = 30  # seconds of one call, far more than it takes
WHILE = 0.6  # for so long a run goes on before it is killed
SHORT = 1.5  # a call of one second
LEAST = 0.9  # and so long it takes
ENDLESS = " --bound 4294967295"

# One cell is set, and then a variable counts; and 3,000 processors count in a cell each, of which a line has more than 40,000 bytes.
ONCE = b"rule crew; procs 1; shared s; var m;\nbegin\n  s := 5;\n  while 1 do m := m + 1; end\nend\n"
WIDE = b"rule crew; procs 3000; shared a[1..3000];\nbegin\n  while 1 do for 1 <= i <= 3000 pardo a[i] := a[i] + 1; end end\nend\n"

BARE = b"1 line 3 processors 1 s 0 -> 5\n"
BESIDE = b"1 line 3 processors 1 s 0 -> 5  |   s := 5;\n"
OPENED = b'{"opening":[{"name":"s","values":["0"]}]}\n'

# Words, whether standard output is a terminal, and what comes at once and is all.
COMING = [
    ("steps once --only s", False, BARE),
    ("steps once --only s", True, BESIDE),
    ("steps once --to 1", False, BARE),
    ("steps once --to 0 --format json", False, OPENED),
    ("steps once --to 0 --format json", True, OPENED),
]
TIMED = [
    "once", "once --only s", "once --format json", "once --html", "once --html --to 9", "once --svg", "once --svg --to 9", "once --flow",
    "wide", "wide --svg", "wide --html",
]


def slack():
    """How long five calls take here that do nothing."""
    begun = time.monotonic()
    for _ in range(5):
        subprocess.run([PROGRAM, "--version"], capture_output=True, timeout=60)
    return time.monotonic() - begun


def tried(row, *words):
    """What is wrong with a row each time that it is tried."""
    for _ in range(TRIES):
        if not (wrong := list(row(*words))):
            break
    return wrong


def started(words, folder, output):
    env = {**os.environ, "NO_COLOR": "1"}
    none = subprocess.DEVNULL
    return subprocess.Popen([PROGRAM, *words.split()], cwd=folder, env=env, stdin=none, stdout=output, stderr=none)


def first_bytes(ours, most):
    """What comes within some seconds, up to so many bytes."""
    got, until = b"", time.monotonic() + SOON + slack()
    while len(got) < most and (left := until - time.monotonic()) > 0:
        if select.select([ours], [], [], left)[0]:
            got += os.read(ours, 65536)
    return got


def coming(words, is_terminal, expected, folder):
    """What is wrong with what comes while a run goes on."""
    ours, theirs = pty.openpty() if is_terminal else os.pipe()
    if is_terminal:
        tty.setraw(theirs)
    going = started(words + ENDLESS, folder, theirs)
    os.close(theirs)
    got = first_bytes(ours, len(expected))
    over = going.poll() is not None
    going.kill()
    going.wait()
    os.close(ours)
    if got != expected or over:
        yield f"pramc {words}, terminal {is_terminal}: {got}, over: {over}"


def numbers(text, as_json):
    """The numbers of the statements that are told there."""
    lines = text.splitlines()
    return [json.loads(it)["step"] for it in lines[1:]] if as_json else [int(it.split()[0]) for it in lines]


def killed(words, as_json, folder):
    """What is wrong with the file that a killed run leaves; it is stopped first, so that no write of the system's is cut off."""
    file = Path(folder, "killed")
    with file.open("wb") as output:
        going = started(words + ENDLESS, folder, output)
        time.sleep(WHILE + slack())
        going.send_signal(signal.SIGSTOP)
        going.kill()
        going.wait()
    text = file.read_bytes()
    if not text.endswith(b"\n"):
        yield f"pramc {words}: killed, it ends with {text[-40:]}"
    elif (found := numbers(text, as_json)) != [*range(1, len(found) + 1)] or not found:
        yield f"pramc {words}: killed, it has {len(found)} lines, and not of the first statements"


def timed(words, folder):
    """The shortest of some calls: its seconds, status, and what it says on both streams."""
    best = LONGEST, None, b"", b""
    for _ in range(TRIES):
        begun = time.monotonic()
        try:
            done = subprocess.run([PROGRAM, *words.split()], cwd=folder, capture_output=True, timeout=LONGEST)
        except subprocess.TimeoutExpired:
            continue
        took = time.monotonic() - begun
        if took < best[0]:
            best = took, done.returncode, done.stdout, done.stderr
        if took <= SHORT + slack():
            break
    return best


def in_time(words, folder):
    """What is wrong with a call that has one second."""
    took, status, output, errors = timed(words + " --seconds 1" + ENDLESS, folder)
    if not LEAST <= took <= SHORT + slack() or status != 3:
        yield f"pramc {words} --seconds 1: {took:.2f} s, status {status}"
        return
    said = errors.decode().split()
    bound = json.loads(errors)["bound"] if "json" in words else int(said[-1])
    within = subprocess.run([PROGRAM, *words.split(), "--bound", str(bound)], cwd=folder, capture_output=True, timeout=600)
    if within.stdout != output:
        yield f"pramc {words} --seconds 1: it isn't what is told within {bound} statements"


def main():
    with tempfile.TemporaryDirectory() as folder:
        Path(folder, "once").write_bytes(ONCE)
        Path(folder, "wide").write_bytes(WIDE)
        wrong = [tried(coming, *row, folder) for row in COMING]
        wrong += [tried(killed, f"steps {it}{form}", bool(form), folder) for it in ("once", "wide") for form in ("", " --format json")]
        wrong += [list(in_time(f"steps {it}", folder)) for it in TIMED]
    for it in wrong:
        print(*it, sep="\n", end="\n" * bool(it))
    right = sum(not it for it in wrong)
    print(f"as it runs: {right} of {len(wrong)} runs are told while they go on, and for as long as they may")
    sys.exit(right != len(wrong))


if __name__ == "__main__":
    main()
