#!/usr/bin/env python3
"""Runs what stands in the documents, and compares what it writes, to both streams, with what stands there.

documents.py PROGRAM: a block of a page with a name is a file of that name; in a block `console` a line that begins with `$` is a command,
and the lines behind it are what it writes. Those of a page run one after the other in a temporary folder, where `pramc` is the program and
`examples` the examples.
"""
import os
import re
import subprocess
import sys
import tempfile
from concurrent.futures import ThreadPoolExecutor
from pathlib import Path

from jobs import JOBS

TOP = Path(__file__).resolve().parent.parent
NAMES = ("runs", "programs", "checks", "limits", "exchanges", "commands", "tellings", "pictures", "mistakes", "json")
ROWS = [f"gate/rows/{it}.md" for it in NAMES]
PAGES = ["README.md", "docs/TUTORIAL.md", "docs/EVERY_INPUT.md", "docs/LANGUAGE.md", *ROWS]
BLOCK = re.compile(r"^```(?P<kind>\S+)(?: (?P<name>\S+))?\n(?P<text>.*?)^```$", re.M | re.S)
COMMAND = re.compile(r"^\$ (?P<words>.*)\n(?P<output>(?:(?!\$ ).*\n)*)", re.M)


def run(words, status, folder):
    """What a command writes, and its exit status; it finds that of the one before it."""
    env = {**os.environ, "PATH": f"{folder}/bin:{os.environ['PATH']}"}
    script = f"(exit {status})\n{words}"
    streams = {"stdout": subprocess.PIPE, "stderr": subprocess.STDOUT, "text": True}
    done = subprocess.run(["bash", "-c", script], cwd=folder, env=env, timeout=60, **streams)
    return done.stdout, done.returncode


def tried(page, program):
    """How many commands a page has, and those that write something else."""
    commands = status = 0
    wrong = []
    with tempfile.TemporaryDirectory() as folder:
        os.mkdir(f"{folder}/bin")
        os.symlink(program, f"{folder}/bin/pramc")
        os.symlink(TOP / "examples", f"{folder}/examples")
        for block in BLOCK.finditer((TOP / page).read_text()):
            if block["name"]:
                Path(folder, block["name"]).write_text(block["text"])
            for command in COMMAND.finditer(block["text"]) if block["kind"] == "console" else []:
                output, status = run(command["words"], status, folder)
                commands += 1
                if output != command["output"]:
                    wrong.append(f"$ {command['words']}\n{output}")
    return commands, wrong


def main():
    program = Path(sys.argv[1]).resolve()
    with ThreadPoolExecutor(JOBS) as pool:
        found = list(pool.map(lambda it: tried(it, program), PAGES))
    for page, (commands, wrong) in zip(PAGES, found):
        for it in wrong:
            print(it)
        print(f"{page}: {commands - len(wrong)} of {commands} commands write what it says")
    sys.exit(any(wrong or not commands for commands, wrong in found))


if __name__ == "__main__":
    main()
