#!/usr/bin/env python3
"""Runs the C text of plans for one memory, and compares what it writes with pramc: the outcome and the exit status.

plain_c_test.py PROGRAM [--jobs N] [--drawn COUNT] [--seed S] [--only NAME] [--all]: each example under each rule, on its input, with some
bounds and on a memory, and COUNT drawn programs. Each example under its own rule is compiled once more, in turn with the sanitizers, for
threads, and by clang where that is installed; with --all in all of these ways, and what is drawn with the sanitizers. Words and inputs that
are refused. No compiler has a warning.
"""
import argparse
import os
import random
import re
import shutil
import subprocess
import sys
import tempfile
from concurrent.futures import ThreadPoolExecutor
from pathlib import Path

TOP = Path(__file__).resolve().parent.parent
sys.path.insert(0, str(TOP / "gate" / "oracle"))
import draw
from jobs import JOBS

RULES = ["erew", "crew", "common", "priority", "sum"]
RULE = re.compile(r"^rule (\w+);", re.M)
DECLARED = re.compile(r"^(?:cell (\w+)|array (\w+) (\d+) (\d+))$", re.M)
WARNINGS = ["-std=c11", "-Wall", "-Wextra", "-Wconversion", "-pedantic", "-Werror"]
PLAIN = ["gcc", *WARNINGS, "-O0"]
SANITIZED = ["gcc", *WARNINGS, "-O1", "-fsanitize=address,undefined", "-fno-sanitize-recover=undefined"]
THREADED = ["gcc", *WARNINGS, "-O2", "-fopenmp"]
CLANG = ["clang", *WARNINGS, "-O2"]
ENVIRONMENT = {**os.environ, "ASAN_OPTIONS": "detect_leaks=0", "OMP_NUM_THREADS": "3"}


class Test:
    def __init__(self, program, folder, is_whole):
        self.program, self.folder, self.is_whole, self.wrong = program, folder, is_whole, []
        self.ends, self.compilers = {0: 0, 1: 0, 2: 0, 3: 0}, [SANITIZED, THREADED, *([CLANG] if shutil.which("clang") else [])]

    def call(self, words, text=True):
        return subprocess.run([self.program, *words], capture_output=True, text=text, timeout=300)

    def source(self, name, text):
        """The C text of a program, or None where it is refused."""
        file = self.folder / f"{name}.pram"
        file.write_text(text)
        done = self.call(["export", file, "--to", "c"])
        if done.returncode:
            return None
        file.with_suffix(".c").write_text(done.stdout)
        return file.with_suffix(".c")

    def compiled(self, source, compiler, suffix):
        target = source.with_suffix(suffix)
        done = subprocess.run([*compiler, source, "-o", target], capture_output=True, text=True)
        if done.returncode or done.stderr:
            self.wrong.append(f"{compiler[0]} {source.stem}: {done.stderr}")
        return target if target.exists() else None

    def judge(self, name, target, words):
        """Both write the same, and end so; of a text that isn't compiled that is told."""
        if target is None:
            return
        run = self.call(["run", self.folder / f"{name}.pram", "--workers", "1", *words])
        done = subprocess.run([target, *words], capture_output=True, text=True, timeout=300, env=ENVIRONMENT)
        self.ends[run.returncode] += 1
        wanted = f"{run.stdout}{refusal(run.stderr)}status {run.returncode}\n"
        found = f"{done.stdout}{refusal(done.stderr)}status {done.returncode}\n"
        if wanted != found:
            self.wrong.append(f"{target} {' '.join(map(str, words))}\nwanted\n{wanted}found\n{found}{done.stderr}")

    def memory(self, name, pick):
        """A memory text: a line for each declaration, of an array for some of its cells, in any order."""
        lines = []
        for cell, array, low, high in DECLARED.findall(self.call(["plan", self.folder / f"{name}.pram"]).stdout):
            first = 0 if cell else pick.randint(int(low), int(high))
            last = first if cell else pick.randint(first, int(high))
            values = " ".join(str(pick.randint(-1, 9)) for _ in range(min(last - first + 1, pick.randint(1, 40))))
            lines.append(f"{cell} = {values}" if cell else f"{array}[{first}..{last}] = {values}  # {array}")
        pick.shuffle(lines)
        file = self.folder / f"{name}.memory"
        file.write_text("".join(f"{it}\n" for it in lines))
        return file


def refusal(text):
    """The line of a refusal, without what stands behind its number where the words differ."""
    return "".join(f"{it}\n" for it in text.splitlines() if it.startswith("refused") or "ERROR" in it or "runtime error" in it)


def example(test, file, rule, turn):
    """One under one rule; its own one by threads and by the other compiler too."""
    text = file.read_text()
    name = f"{file.stem}.{rule}"
    source = test.source(name, RULE.sub(f"rule {rule};", text, count=1))
    given = ["--input", file.with_suffix(".in")]
    target = test.compiled(source, PLAIN, ".run")
    test.judge(name, target, given)
    for bound in [0, 1 + turn % 3, 5 + turn % 7, 17]:
        test.judge(name, target, [*given, "--bound", str(bound)])
    test.judge(name, target, ["--memory", test.memory(name, random.Random(name)), "--bound", "200"])
    test.judge(name, target, [*given, "--quiet"])
    if rule == RULE.search(text)[1]:
        for number, compiler in enumerate(test.compilers):
            if test.is_whole or turn % len(test.compilers) == number:
                test.judge(name, test.compiled(source, compiler, f".by{number}"), given)


def drawn(test, number, seed):
    """A program that the generator of gate/oracle draws, if it is accepted; whether it is."""
    drawer = draw.Drawer(random.Random(f"{seed} {number}"))
    name = f"drawn_{number}"
    source = test.source(name, drawer.text())
    if not source:
        return False
    target = test.compiled(source, SANITIZED if test.is_whole else PLAIN, ".run")
    values = test.folder / f"{name}.in"
    values.write_text(" ".join(map(str, drawer.input())) + "\n")
    test.judge(name, target, ["--input", values, "--bound", "300"])
    test.judge(name, target, ["--input", values, "--bound", str(number % 30)])
    test.judge(name, target, ["--memory", test.memory(name, random.Random(number)), "--bound", "300"])
    return True


INPUTS = [b"1 2 x", b"1 -  2", b"9223372036854775808", b"-9223372036854775809", b"1 \x80", b"--1", b"-", b"1\f2", b"7 " * 17,
          b"1 " * 524288 + b"2", b"1\x002", b"#", b"", b" ", b"-9223372036854775808 9223372036854775807", b"007 -0 -1", b"\t1\r\n2 \n"]
WORDS = [["--bound", "x"], ["--bound", "4294967296"], ["--bound", ""], ["--bound", "0042"], ["--input", "/nonexistent"], ["--show", "zz"],
         ["--show", "a"], ["--show", "b,a"], ["--show", "a,zz"], ["--show", "a", "--bound", "3"], ["--memory", "/nonexistent"]]


def refused(test):
    """Inputs and words, most of which are refused, of one program."""
    name = "refused"
    target = test.compiled(test.source(name, (TOP / "examples" / "tree_sum.pram").read_text()), SANITIZED, ".run")
    for number, data in enumerate(INPUTS):
        file = test.folder / f"refused_{number}.in"
        file.write_bytes(data)
        test.judge(name, target, ["--input", file])
    for words in WORDS:
        test.judge(name, target, words)


def main():
    options = argparse.ArgumentParser()
    options.add_argument("program", type=Path)
    options.add_argument("--jobs", type=int, default=JOBS)
    options.add_argument("--drawn", type=int, default=40)
    options.add_argument("--seed", type=int, default=1)
    options.add_argument("--only", default="")
    options.add_argument("--all", action="store_true")
    given = options.parse_args()
    files = [it for it in sorted((TOP / "examples").glob("*.pram")) if given.only in ("", it.stem)]
    with tempfile.TemporaryDirectory() as folder, ThreadPoolExecutor(given.jobs) as pool:
        test = Test(given.program.resolve(), Path(folder), given.all)
        calls = [pool.submit(example, test, file, rule, turn) for turn, file in enumerate(files) for rule in RULES]
        calls.append(pool.submit(refused, test))
        more = [pool.submit(drawn, test, number, given.seed) for number in range(given.drawn)]
        for it in calls:
            it.result()
        accepted = sum(it.result() for it in more)
    print(*test.wrong, sep="\n", end="\n" if test.wrong else "")
    ends = ", ".join(f"{many} {how}" for how, many in zip(["ended", "faulted", "refused", "at the bound"], test.ends.values()))
    print(f"plain C: {len(files) * len(RULES)} plans of examples, {accepted} drawn; {sum(test.ends.values())} runs ({ends}), "
          f"{len(test.wrong)} otherwise than pramc")
    return 1 if test.wrong else 0


sys.exit(main())
