#!/usr/bin/env python3
"""Lays texts out: the examples are laid out already, and drawn programs keep their tokens, their comments and what they come to.

layouts.py PROGRAM [--seed S] [--count N]: each drawn program gets white space of any kind between its tokens, and comments, and is laid out
by standard input and in a file. Its tokens and comments are then the same in their order, it is its own layout, and its run by the definition
comes to the same, but for the numbers of lines.
"""
import argparse
import random
import re
import subprocess
import sys
import tempfile
from concurrent.futures import ThreadPoolExecutor
from pathlib import Path

sys.path.insert(0, str(Path(__file__).resolve().parent / "oracle"))

import draw
from jobs import JOBS

TOP = Path(__file__).resolve().parent.parent
PROGRAM = Path(sys.argv[1]).resolve()
PIECE = re.compile(r"#[^\n]*|\{[^}\n]*\}|\w+|:=|\.\.|<>|<=|>=|\S")
SPACES = [" ", "  ", "\t", "\r\n", "\n", "\n\n", " \n \n\n", "\n\t\n"]
COMMENTS = ["#", "# a comment; end {n} do", "#begin\t", "#  two  spaces  ", "# size of nothing\r"]


def pieces(text):
    """The tokens, braces and comments of a text, without the white space at their ends."""
    return [it.rstrip() for it in PIECE.findall(text)]


def loosened(text, pick):
    """The text with other white space between its tokens, and with comments."""
    found = []
    for piece in PIECE.findall(text):
        if piece.startswith("#"):
            found.append(f"{piece}\n")
        elif pick.random() < 0.06:
            found.append(f"{piece}{pick.choice(['', ' ', chr(10)])}{pick.choice(COMMENTS)}\n")
        elif pick.random() < 0.5 or re.match(r"[\w{:.<>=]", piece):
            found.append(piece + pick.choice(SPACES))
        else:
            found.append(piece)
    return "".join(found)


def called(words, text=b""):
    done = subprocess.run([PROGRAM, *map(str, words)], input=text, capture_output=True, timeout=60)
    return done.returncode, done.stdout.decode(), done.stderr.decode()


def outcome(text, given, bound):
    """What a text comes to, with no numbers of lines."""
    status, out, err = called(["meaning", "-", "--input", given, "--bound", bound], text.encode())
    return status, re.sub(r"line \d+", "line", out), re.sub(r"at \d+", "at", err)


def wrong_layout(name, text, given):
    """What is wrong with how a text is laid out, if anything is."""
    status, once, err = called(["fmt", "-"], text.encode())
    if status or err:
        return [f"{name}: status {status}: {err}"]
    if pieces(once) != pieces(text):
        return [f"{name}: it has other tokens or comments"]
    if re.search(r"\n\n\n|[ \t\r]\n|\A\n|\n\n\Z|[^\n]\Z", once):
        return [f"{name}: it isn't laid out"]
    again = called(["fmt", "--stdout", "-"], once.encode())
    if again != (0, once, ""):
        return [f"{name}: laid out again it is {again}"]
    if called(["fmt", "--check", "-"], once.encode()) != (0, "", ""):
        return [f"{name}: laid out it would change"]
    return [] if outcome(text, given, 300) == outcome(once, given, 300) else [f"{name}: it comes to something else"]


def wrong_file(file, text):
    """What is wrong with how the text of a file is written, if anything is."""
    file.write_bytes(text.encode())
    file.chmod(0o640)
    once = called(["fmt", "--stdout", file])[1]
    changes = once != text
    found = [called(["fmt", "--check", file]) != (int(changes), f"{file}\n" * changes, ""), called(["fmt", file]) != (0, "", "")]
    found += [file.read_bytes() != once.encode(), file.stat().st_mode & 0o777 != 0o640]
    return [f"{file}: its file isn't written as it is shown: {found}"] if any(found) else []


def tried(folder, seed):
    """What is wrong with a drawn program."""
    pick = random.Random(seed)
    drawer = draw.Drawer(pick)
    text = loosened(drawer.text(), pick)
    file = folder / f"drawn_{seed}.pram"
    given = file.with_suffix(".in")
    given.write_text(" ".join(map(str, drawer.input())))
    return wrong_layout(file.name, text, given) + wrong_file(file, text)


def example(folder, file):
    """What is wrong with an example: as it stands, and loosened."""
    text, given = file.read_text(), file.with_suffix(".in")
    loose = loosened(text, random.Random(file.name))
    if called(["fmt", "--stdout", file]) != (0, text, ""):
        return [f"{file.name}: it isn't laid out"]
    return wrong_layout(file.name, loose, given) + wrong_file(folder / file.name, loose)


def main():
    words = argparse.ArgumentParser()
    words.add_argument("program")
    words.add_argument("--seed", type=int, default=1)
    words.add_argument("--count", type=int, default=200)
    given = words.parse_args()
    examples = sorted((TOP / "examples").glob("*.pram"))
    status, out, err = called(["fmt", "--check", *examples])
    found = [] if (status, out, err) == (0, "", "") else [f"fmt --check examples/*.pram: {status}: {out}{err}"]
    with tempfile.TemporaryDirectory() as folder, ThreadPoolExecutor(JOBS) as pool:
        room = Path(folder)
        found += sum(pool.map(lambda it: example(room, it), examples), [])
        found += sum(pool.map(lambda it: tried(room, it), range(given.seed, given.seed + given.count)), [])
    print("\n".join(found) or f"{len(examples)} examples and {given.count} drawn programs are laid out")
    sys.exit(bool(found))


main()
