#!/usr/bin/env python3
"""Tries gate/program.sh in a folder with a small release, where the tools are those alone that it may need."""
import hashlib
import os
import random
import shutil
import subprocess
import tempfile
from pathlib import Path

GATE = Path(__file__).resolve().parent
NAME = "pramc-1.10.0-x86_64-linux"
NEEDED = ("sh", "tar", "xz", "sha256sum", "cat", "chmod", "cut", "dirname", "find", "grep", "mkdir", "mktemp", "mv", "rm", "sed", "sort",
          "uniq", "xargs")
FILES = {"HANDLES": "none\n", "crates.txt": "low:\nprogram: low\n", "crates/low/src/lib.rt": "low\n", "crates/low/specs/Low.antt": "l\n",
         "crates/program/src/main.rt": "main\n", "crates/program/data/sum.pram": "begin end\n"}
PROVES = "import sys\nprint('proves', *sys.argv[1:])\n"


def sum_of(content):
    return hashlib.sha256(content).hexdigest()


class Tree:
    def __init__(self, folder):
        self.top, self.tools = folder / "tree", folder / "tools"
        self.tools.mkdir()
        for it in NEEDED:
            (self.tools / it).symlink_to(shutil.which(it))
        for name, text in FILES.items():
            self.write(name, text)
        self.write("crates/low/must-fail/other.edit", "not read\n")
        self.write("gate/build.py", PROVES)
        shutil.copy(GATE / "program.sh", self.top / "gate")
        self.program = random.Random(1).randbytes(20_000)
        self.archive, self.list = self.top / "release" / f"{NAME}.tar.xz", self.top / "release/SOURCES"
        self.archive.parent.mkdir()
        self.pack(self.program)
        lines = ["# kit", f"{sum_of(self.program)}  {NAME}/bin/pramc", *(f"{sum_of(FILES[it].encode())}  {it}" for it in sorted(FILES))]
        self.list.write_text("".join(f"{it}\n" for it in lines))

    def write(self, name, text):
        file = self.top / name
        file.parent.mkdir(parents=True, exist_ok=True)
        file.write_text(text)

    def pack(self, program):
        with tempfile.TemporaryDirectory() as folder:
            for it, content in {"bin/pramc": program, "README.md": b"read me\n" * 99}.items():
                file = Path(folder, NAME, it)
                file.parent.mkdir(parents=True, exist_ok=True)
                file.write_bytes(content)
            subprocess.run(["tar", "-C", folder, "-cJf", self.archive, NAME], check=True)

    def made(self):
        """What stands in bin/, which is emptied."""
        folder = self.top / "bin"
        found = {it.name: it.read_bytes() for it in folder.glob("*")} if folder.exists() else {}
        shutil.rmtree(folder, ignore_errors=True)
        return found

    def make(self):
        how = {"env": {"PATH": str(self.tools)}, "capture_output": True, "text": True, "timeout": 60}
        done = subprocess.run([shutil.which("sh"), self.top / "gate/program.sh"], **how)
        return done.returncode, done.stdout, done.stderr


def these_sources_are_unpacked(tree):
    status, said, wrong = tree.make()
    told = "bin/pramc is the program that these sources were proved and built to"
    assert (status, wrong) == (0, "") and said.startswith(told), (said, wrong)
    assert os.access(tree.top / "bin/pramc", os.X_OK) and tree.made() == {"pramc": tree.program}


def each_difference_is_told(tree):
    for name, text in FILES.items():
        file = tree.top / name
        file.write_text("other\n")
        is_told(tree, f"{name} differs")
        file.unlink()
        is_told(tree, f"{name} is missing")
        file.write_text(text)
    for name in ("crates/low/proofs/new/Answers.antt", "crates/low/src/b.rt"):
        tree.write(name, "")
        is_told(tree, f"{name} is new")
        (tree.top / name).unlink()
    # those are told that come first
    tree.write("crates/low/src/lib.rt", "other\n")
    tree.write("crates/program/src/main.rt", "other\n")
    is_told(tree, "crates/low/src/lib.rt differs")
    for it in ("crates/low/src/lib.rt", "crates/program/src/main.rt"):
        tree.write(it, FILES[it])


def is_told(tree, difference):
    status, said, wrong = tree.make()
    told = f"{difference}, so the program of release/ isn't that of these sources"
    assert (status, said) == (1, "") and wrong.startswith(told), (difference, said, wrong)
    mended = f"rm {difference.removesuffix(' is new')}" if difference.endswith(" is new") else "git checkout HEAD --"
    assert "rt has to be on the path" in wrong and f"again: {mended}" in wrong and not tree.made(), wrong


def a_damaged_archive_is_refused(tree):
    whole = tree.archive.read_bytes()
    pick = random.Random(2)
    for at in [*range(12), *range(len(whole) - 24, len(whole)), *(pick.randrange(len(whole)) for _ in range(40))]:
        turned = bytearray(whole)
        turned[at] ^= 1 << pick.randrange(8)
        tree.archive.write_bytes(turned)
        is_damaged(tree, at)
    for end in (0, 1, len(whole) // 2, len(whole) - 1):
        tree.archive.write_bytes(whole[:end])
        is_damaged(tree, end)
    tree.pack(b"another program")
    is_damaged(tree, "another program")
    tree.archive.unlink()
    is_damaged(tree, "no archive")
    tree.archive.write_bytes(whole)


def is_damaged(tree, how):
    status, said, wrong = tree.make()
    assert status == 1 and said == "" and wrong.startswith(f"release/{NAME}.tar.xz is damaged"), (how, said, wrong)
    assert not tree.made(), how


def without_a_list_it_stops(tree):
    text = tree.list.read_text()
    tree.list.unlink()
    is_told(tree, "release/SOURCES is missing")
    tree.list.write_text(text)


def without_a_tool_it_says_which(tree):
    for it in ("tar", "xz", "sha256sum"):
        (tree.tools / it).unlink()
        status, said, wrong = tree.make()
        assert (status, said) == (1, "") and wrong.startswith(f"{it} is missing") and not tree.made(), wrong
        (tree.tools / it).symlink_to(shutil.which(it))


def other_sources_are_proved_by_the_toolchain(tree):
    (tree.tools / "rt").symlink_to(shutil.which("true"))
    (tree.tools / "python3").symlink_to(shutil.which("python3"))
    these_sources_are_unpacked(tree)
    tree.write("crates/low/src/lib.rt", "other\n")
    status, said, wrong = tree.make()
    assert (status, wrong) == (0, "") and said.startswith("crates/low/src/lib.rt differs, so "), (said, wrong)
    assert said.endswith("proves command_main bin/pramc\n"), said


TESTS = [
    these_sources_are_unpacked,
    each_difference_is_told,
    a_damaged_archive_is_refused,
    without_a_list_it_stops,
    without_a_tool_it_says_which,
    other_sources_are_proved_by_the_toolchain,
]


def main():
    with tempfile.TemporaryDirectory() as folder:
        tree = Tree(Path(folder))
        for it in TESTS:
            it(tree)
    print(f"program.sh: {len(TESTS)} of {len(TESTS)} tests of an unpacked release come to what they should")


main()
