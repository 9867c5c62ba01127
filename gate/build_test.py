#!/usr/bin/env python3
"""Tries gate/build.py over crates of a temporary folder, with a stand-in for `rt` that proves nothing."""
import os
import re
import shutil
import signal
import subprocess
import sys
import tempfile
import time
from pathlib import Path

TOP = Path(__file__).resolve().parent.parent
# The stand-in: it takes the crates as they stand in crates.txt, each for the seconds of its text. One of 0 is kept, and one whose text goes on
# behind its seconds is not proved.
RT = """#!/usr/bin/env python3
import pathlib, subprocess, sys
assert sys.argv[1:] == ["ci"] and pathlib.Path(".git").is_dir() and pathlib.Path("HANDLES").exists()
crates = [it.partition(":")[0] for it in pathlib.Path("crates.txt").read_text().splitlines()]
assert sorted(crates) == sorted(it.name for it in pathlib.Path("crates").iterdir()), crates
say = lambda line: print(line, flush=True)
for it in crates:
    here = pathlib.Path("crates") / it
    assert not [*here.glob("must-fail")], "wrong bodies"
    seconds, *wrong = (here / "src/lib.rt").read_text().split()
    if seconds == "0":
        say(f"rt: {it} is kept: an earlier run proved it")
        continue
    open("NOTES", "a").write(f"{it}\\n")
    subprocess.run([sys.executable, "-c", f"import time; time.sleep({seconds})", "--crate-name", it])
    say(f"== {it}\\nfn {it}::f: {' '.join(wrong) or 'proved'}")
    say(f"rt: {it} {'NOT PROVED' if wrong else 'proved'}")
say("rt: note: the disk is nearly full")
say((here / "args").read_text().strip())
(here / "out").mkdir()
(here / "out" / it).write_text("the program")
ran = (here / "status").read_text() == "0\\n"
say(f"== run\\nrt: {it} ran")
say(f"{len(crates) if ran else 0} passed, {0 if ran else 1} failed")
sys.exit(not ran)
"""
USES = {"above": "low", "apart": "", "low": "", "program": "above low"}


class Tree:
    """Crates in a folder, and what the stand-in was asked."""

    def __init__(self, folder):
        self.top, self.notes, self.rooms = folder / "tree", folder / "notes", folder / "rooms"
        (self.top / "gate").mkdir(parents=True)
        self.rooms.mkdir()
        for it in ("build.py", "figures.py", "uses.py"):
            shutil.copy(TOP / "gate" / it, self.top / "gate")
        (self.top / "crates.txt").write_text("# some crates\n" + "".join(f"{it}: {uses}\n" for it, uses in USES.items()))
        (self.top / "HANDLES").write_text("")
        for it in USES:
            for part in ("src", "must-fail"):
                (self.top / "crates" / it / part).mkdir(parents=True)
            self.write(it, "1.2")
        for file, text in {"args": "one\n", "status": "0\n"}.items():
            (self.top / "crates/program" / file).write_text(text)
        (folder / "tools").mkdir()
        (folder / "tools/rt").write_text(RT.replace("NOTES", str(self.notes)))
        (folder / "toolchain/bin").mkdir(parents=True)
        (folder / "toolchain/bin/clang").write_text('#!/bin/sh\n[ "$1 $2" = "--strip-all -o" ] && cp "$4" "$3"\n')
        for it in ("tools/rt", "toolchain/bin/clang"):
            (folder / it).chmod(0o755)
        self.env = {**os.environ, "PATH": f"{folder}/tools:{os.environ['PATH']}", "TMPDIR": str(self.rooms)}

    def write(self, crate, text):
        (self.top / "crates" / crate / "src/lib.rt").write_text(f"{text}\n")

    def begin(self):
        self.notes.write_text("")
        words = [sys.executable, self.top / "gate/build.py", "program", self.top / "bin/made"]
        return subprocess.Popen(words, env=self.env, stdout=subprocess.PIPE, stderr=subprocess.STDOUT, text=True)

    def build(self):
        """The status of a build, and what it wrote."""
        build = self.begin()
        said, _ = build.communicate(timeout=50)
        return build.returncode, said

    def proved(self):
        return self.notes.read_text().split()

    def made(self):
        """What was built since this was asked last."""
        file = self.top / "bin/made"
        text = file.read_text() if file.exists() else None
        file.unlink(missing_ok=True)
        return text


def a_line_tells_each_crate(tree):
    status, said = tree.build()
    assert status == 0 and tree.made() == "the program", said
    assert tree.proved() == ["low", "above", "program"], tree.proved()
    told = r"3 crates; the longest chain has 3\n +\d+ s  low, 2 left\n +\d+ s  above, 1 left\n +\d+ s  program, 0 left\n"
    assert re.match(told, said), said
    assert re.search(r"^3 crates proved in \d+ s, \d+ s of proofs side by side$", said, re.M), said
    assert re.search(r"^the longest chain, \d+ s: low \d+, above \d+, program \d+$", said, re.M), said
    assert "the disk is nearly full" in said and "fn low" not in said, said


def what_is_kept_is_not_told(tree):
    for it in ("above", "low"):
        tree.write(it, "0")
    status, said = tree.build()
    assert status == 0 and tree.made() == "the program" and tree.proved() == ["program"], said
    assert " s  program, 0 left\n" in said and "above," not in said, said


def a_crate_that_is_not_proved_stops_it(tree):
    tree.write("low", "0.1 this is wrong")
    tree.write("above", "60")
    status, said = tree.build()
    assert status == 1 and said.endswith("== low\nfn low::f: this is wrong\nrt: low NOT PROVED\n"), said
    assert "program" not in tree.proved() and tree.made() is None, said


def a_program_that_does_otherwise_is_not_built(tree):
    for it in ("above", "low"):
        tree.write(it, "0")
    status_file = tree.top / "crates/program/status"
    status_file.write_text("1\n")
    status, said = tree.build()
    status_file.write_text("0\n")
    assert status == 1 and said.endswith("== run\nrt: program ran\n0 passed, 1 failed\n") and tree.made() is None, said


def one_that_is_stopped_leaves_nothing(tree):
    tree.write("low", "60")
    for sent in (signal.SIGINT, signal.SIGTERM, signal.SIGHUP):
        build = tree.begin()
        while "low" not in tree.proved():
            time.sleep(0.05)
        build.send_signal(sent)
        said, _ = build.communicate(timeout=10)
        assert build.returncode == 1 and tree.made() is None, said


def without_the_toolchain_it_says_so(tree):
    tree.env["PATH"] = ""
    assert tree.build() == (1, "the toolchain's command rt is not on the path\n")


TESTS = [
    a_line_tells_each_crate,
    what_is_kept_is_not_told,
    a_crate_that_is_not_proved_stops_it,
    a_program_that_does_otherwise_is_not_built,
    one_that_is_stopped_leaves_nothing,
    without_the_toolchain_it_says_so,
]


def main():
    with tempfile.TemporaryDirectory() as folder:
        tree = Tree(Path(folder))
        for it in TESTS:
            it(tree)
            assert not [*tree.rooms.iterdir()], "the copy is still there"


main()
