#!/usr/bin/env python3
"""Proves a program and the crates that it stands on, side by side, and builds it.

build.py PROGRAM TO: has `rt ci` prove a copy of their sources, which has no tests and no wrong bodies, and puts the program in the file TO,
without the names that no run needs. So a crate is proved as in the gate: over the statements of those below it, first those with the
longest chain of others behind them, and as many at a time as processors and memory allow. What passes is kept beside the toolchain by the
checksums of all that was read, so that it is proved once on a machine, by a build or by the gate, also where one is stopped. A crate that
isn't proved stops the build, and is shown.
build.py --strip BUILT TO: puts a program that was built into the file TO so.
"""
import os
import queue
import re
import shutil
import signal
import subprocess
import sys
import tempfile
import threading
import time
from pathlib import Path

from figures import owner, processes
from uses import CRATES, PARTS, TOP, chain, listed, with_those_below

# What `rt` reads of a crate's folder: its text, and what a program is run on.
READ = (*PARTS, "args", "data", "status", "stdin", "stdout")
ENDED = re.compile(r"rt: (\w+) (is kept: .*|proved|NOT PROVED.*)")


def files_read(crate, is_program):
    """The files that `rt` reads of a crate's folder."""
    for it in [CRATES / crate / part for part in READ if part in PARTS or is_program]:
        yield from (file for file in [it, *it.rglob("*")] if file.is_file())


def copy(program, uses, to):
    """Copies what `rt` reads of these crates."""
    for crate in uses:
        for it in files_read(crate, crate == program):
            there = to / it.relative_to(TOP)
            there.parent.mkdir(parents=True, exist_ok=True)
            shutil.copyfile(it, there)
    lines = listed()
    (to / "crates.txt").write_text("".join(f"{lines[it]}\n" for it in uses))
    shutil.copyfile(TOP / "HANDLES", to / "HANDLES")
    # so that `rt` takes it for the top of a repository
    (to / ".git").mkdir()


def said(rt):
    """The lines that `rt` writes, and None where it has written nothing for half a second."""
    lines = queue.Queue()

    def read():
        for it in rt.stdout:
            lines.put(it.rstrip("\n"))
        lines.put(None)

    reader = threading.Thread(target=read, daemon=True)
    reader.start()
    while True:
        try:
            line = lines.get(timeout=0.5)
        except queue.Empty:
            yield None
            continue
        if line is None:
            return
        yield line


def note_begun(rt, begun):
    """Notes when each crate that is being proved was first seen so."""
    for pid in processes(str(rt.pid)):
        try:
            begun.setdefault(owner(pid)[0], time.monotonic())
        except OSError:
            pass


def shown(block):
    """Shows the end of what was said of a crate."""
    print("\n".join(block[-40:]))


def prove(rt, uses):
    """Prints a line for each crate as it is proved, and returns the seconds of each, or nothing where one isn't, of which all is shown."""
    left, begun, seconds, block = {*uses}, {}, {}, []
    for line in said(rt):
        if line is None:
            note_begun(rt, begun)
            continue
        block = [line] if line.startswith("== ") else [*block, line]
        if line.startswith("rt: note: "):
            print(line, flush=True)
        if ended := ENDED.fullmatch(line):
            crate, how = ended.groups()
            if how.startswith("NOT"):
                return shown(block)
            left.discard(crate)
            if how == "proved":
                now = time.monotonic()
                seconds[crate] = now - begun.get(crate, now)
                print(f"{seconds[crate]:6.0f} s  {crate}, {len(left)} left", flush=True)
    return seconds if rt.wait() == 0 else shown(block)


def told(crates, seconds):
    return ", ".join(f"{it} {seconds[it]:.0f}" for it in crates)


def tell(seconds, uses, begun):
    """Where the time went."""
    print(f"{len(seconds)} crates proved in {time.monotonic() - begun:.0f} s, {sum(seconds.values()):.0f} s of proofs side by side")
    if seconds:
        print(f"the dearest: {told(sorted(seconds, key=seconds.get, reverse=True)[:10], seconds)}")
        longest = chain(uses, seconds)
        print(f"the longest chain, {sum(map(seconds.get, longest)):.0f} s: {told(longest, seconds)}")


def strip(built, to):
    """Puts a program into a file without names and remarks of the linker, by the toolchain, which makes the same bytes everywhere."""
    tool = Path(shutil.which("rt")).resolve().parent.parent / "toolchain/bin/clang"
    to.parent.mkdir(exist_ok=True)
    made = to.with_name(f"{to.name}.new")
    subprocess.run(["llvm-strip", "--strip-all", "-o", made, built], executable=tool, check=True)
    os.replace(made, to)


def build(program, to, room):
    """Whether the program is proved, and is in the file."""
    uses, begun = with_those_below([program]), time.monotonic()
    copy(program, uses, room)
    print(f"{len(uses)} crates; the longest chain has {len(chain(uses, dict.fromkeys(uses, 1)))}", flush=True)
    streams = {"stdin": subprocess.DEVNULL, "stdout": subprocess.PIPE, "stderr": subprocess.STDOUT, "text": True, "errors": "replace"}
    rt = subprocess.Popen(["rt", "ci"], cwd=room, **streams)
    try:
        seconds = prove(rt, uses)
    finally:
        # with `rt` all end that it began
        rt.terminate()
        rt.wait()
    if seconds is None:
        return False
    tell(seconds, uses, begun)
    strip(room / "crates" / program / "out" / program, to)
    return True


def main():
    if sys.argv[1] == "--strip":
        return strip(Path(sys.argv[2]), Path(sys.argv[3]))
    program, to = sys.argv[1:]
    if not shutil.which("rt"):
        sys.exit("the toolchain's command rt is not on the path")
    for it in (signal.SIGINT, signal.SIGTERM, signal.SIGHUP):
        signal.signal(it, lambda *_: sys.exit(1))
    with tempfile.TemporaryDirectory(prefix=f"{program}-") as room:
        return 0 if build(program, Path(to).resolve(), Path(room)) else 1


if __name__ == "__main__":
    sys.exit(main())
