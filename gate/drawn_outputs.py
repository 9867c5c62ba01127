#!/usr/bin/env python3
"""Draws programs, and compares all that is said of a run of each: in words, as JSON, in three pictures and as a page.

drawn_outputs.py PROGRAM [--seed S] [--count N]: what the scripts of examples ask of theirs is asked of drawn programs: JSON says what the
words say, its changes give the memory, the pictures have the statements, the exchanges and the flow that are told, and the facts in the
page are those of JSON. One that fails is kept in bin/differs. With `--from FOLDER` so are the programs NAME.pram of that folder and of
those in it that are accepted, on the input NAME.in, or on none, with their sizes put in.
"""
import argparse
import json
import random
import shutil
import subprocess
import sys
import tempfile
from concurrent.futures import ThreadPoolExecutor
from pathlib import Path

sys.path.insert(0, str(Path(__file__).resolve().parent / "oracle"))

import draw
import flow_pictures
import json_texts
import pictures
import step_pictures
from jobs import JOBS

TOP = Path(__file__).resolve().parent.parent
PROGRAM = Path(sys.argv[1]).resolve()
BOUND = "60"


def called(*words):
    done = subprocess.run([PROGRAM, *map(str, words)], capture_output=True, text=True, timeout=60)
    return done.returncode, done.stdout


def wrong_page(words):
    """What is wrong with the page of a run, if anything is: its facts are those of JSON between an opening and how many it leaves out."""
    status, page = called(*words, "--html")
    code, told = called(*words, "--format", "json")
    facts = page.split("<script type='application/json' id='facts'>\n", 1)[-1].split("</script>", 1)[0]
    shown, said = json.loads(facts), json_texts.read(told)
    same = status == code and shown[1:-1] == said[1:] and shown[-1]["left_out"] == 0
    return [] if same else [f"pramc {' '.join(map(str, words))}: {shown}\n{said}"]


def drawn(folder, seed):
    """A drawn program and its input."""
    drawer = draw.Drawer(random.Random(seed))
    text, values = drawer.text(), drawer.input()
    file = folder / f"drawn_{seed}.pram"
    file.write_text(text)
    file.with_suffix(".in").write_text(" ".join(map(str, values)) + "\n")
    return file


def wrong(file):
    """What is wrong with what is said of a program, if anything is."""
    given = ["--input", file.with_suffix(".in"), "--bound", BOUND]
    steps = ["steps", file, *given]
    calls = [(["meaning", file, *given], json_texts.meaning), (["run", file, *given, "--workers", "3"], json_texts.meaning)]
    calls += [(["cost", file, *given, "--lines"], json_texts.costs), (["rules", file, *given], json_texts.rules)]
    calls += [(steps, json_texts.steps), (["trace", file, *given, "--workers", "2"], json_texts.exchanges)]
    found = sum((json_texts.wrong(*it) for it in calls), [])
    found += json_texts.wrong_locals(steps) + json_texts.wrong_columns(steps) + json_texts.wrong_values(steps)
    found += step_pictures.wrong(file, "--bound", BOUND) + flow_pictures.wrong(file, "--bound", BOUND)
    return found + pictures.wrong(file, "--bound", BOUND) + wrong_page(steps)


def given(folder, path):
    """A program of somebody else, with its sizes put in, and its input."""
    file = folder / path.name
    status, text = called("expand", path)
    file.write_text(text if status == 0 else path.read_text(errors="replace"))
    beside = path.with_suffix(".in")
    file.with_suffix(".in").write_text(beside.read_text() if beside.exists() else "")
    return file


def judged(file):
    """Whether a program is accepted, and what is wrong with what is said of it."""
    if called("check", file)[0] != 0:
        return False, []
    found = wrong(file)
    if found:
        kept = TOP / "bin/differs"
        kept.mkdir(parents=True, exist_ok=True)
        for it in (file, file.with_suffix(".in")):
            shutil.copy(it, kept)
    return True, found


def files_of(words, folder):
    """The programs, each in a folder of its own."""
    seeds = range(words.seed * 1000003, words.seed * 1000003 + words.count)
    if words.folder is None:
        return [drawn(folder, it) for it in seeds]
    paths = sorted(words.folder.rglob("*.pram"))
    places = [folder / str(at) for at in range(len(paths))]
    for it in places:
        it.mkdir()
    return [given(*it) for it in zip(places, paths)]


def main():
    words = argparse.ArgumentParser(description=__doc__.splitlines()[0])
    words.add_argument("program")
    words.add_argument("--seed", type=int, default=1)
    words.add_argument("--count", type=int, default=60)
    words.add_argument("--from", dest="folder", type=Path)
    words = words.parse_args()
    with tempfile.TemporaryDirectory() as folder, ThreadPoolExecutor(JOBS) as pool:
        found = list(pool.map(judged, files_of(words, Path(folder))))
    found = [it for accepted, it in found if accepted]
    for it in sum(found, []):
        print(it)
    kind = "drawn" if words.folder is None else "given"
    print(f"outputs: of {found.count([])} of {len(found)} {kind} programs all that is said of a run agrees")
    sys.exit(1 if any(found) or not found else 0)


main()
