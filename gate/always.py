#!/usr/bin/env python3
"""Draws programs and scopes, and holds what one run for all inputs tells to what runs on each of them find.

always.py PROGRAM [--seed S] [--count N]: `always` and `explore` are asked of each drawn program and scope of at most 1,000 inputs, and
`meaning` of three of these. Each fault that is found is told, by kind and line; a run that goes on is told; times and values lie in what is
told; and where each input is to fault so, each does. How often more is told than found is a figure, and so is how often too little is known.
"""
import argparse
import json
import random
import subprocess
import sys
import tempfile
from concurrent.futures import ThreadPoolExecutor
from pathlib import Path

sys.path.insert(0, str(Path(__file__).resolve().parent / "oracle"))

import draw
from jobs import JOBS

PROGRAM = Path(sys.argv[1]).resolve()
BOUND = ["--bound", "60"]
MOST = 1000


def said(*words):
    done = subprocess.run([PROGRAM, *map(str, words), "--format", "json"], capture_output=True, text=True, timeout=120)
    return done.returncode, json.loads(done.stdout) if done.stdout else {"refused": done.stderr}


def scope_of(pick, most):
    """How many values, and their interval, for at most so many inputs."""
    values = pick.randint(1, most)
    width = pick.choice([it for it in (2, 3, 4, 6, 9, 30) if it**values <= MOST])
    low = pick.choice([*4 * draw.SMALL, *draw.LARGE])
    high = min(low + width - 1, 2**63 - 1)
    return values, low, high


def places(told):
    return {(it["kind"], it["line"]) for it in told["faults"]}


def outside(span, within):
    return span["least"] < within["least"] or within["greatest"] < span["greatest"]


def wrong_end(told, memory):
    """Whether a run that ended so isn't told."""
    if "memory" not in told:
        return True
    spans = [(int(it["least"]), int(it["greatest"])) for it in told["memory"]]
    return any(not low <= int(value) <= high for (low, high), entry in zip(spans, memory) for value in entry["values"])


def wrong(told, found, runs):
    """What is found and not told, if anything is."""
    if places(found) - places(told):
        yield f"faults {places(found) - places(told)}"
    if found["go_on"] and not told["may_go_on"]:
        yield "goes on"
    if found["ended"] and ("time" not in told or outside(found["time"], told["time"])):
        yield "time"
    if told["each_faults"] and (found["faulted"] != found["inputs"] or places(found) != places(told)):
        yield "not each faults"
    if any(it["outcome"] == "ended" and wrong_end(told, it["memory"]) for it in runs):
        yield "memory"


def judged(folder, seed):
    """What is wrong with what is told of a drawn program, and how it is told: undecided, as found, or more."""
    pick = random.Random(seed)
    drawer = draw.Drawer(pick)
    file = folder / f"drawn_{seed}.pram"
    file.write_text(drawer.text())
    values, low, high = scope_of(pick, drawer.size)
    scope = ["--cells", values, "--values", f"{low}..{high}", *BOUND]
    status, told = said("always", file, *scope)
    found = said("explore", file, *scope)[1]
    if "refused" in told or "undecided" in told:
        return ([], "refused") if status == 2 and "refused" in found else ([], "undecided") if "undecided" in told else ([f"{seed}: {told}"], "")
    runs = []
    for _ in range(3):
        given = file.with_suffix(".in")
        given.write_text(" ".join(str(pick.randint(low, high)) for _ in range(values)) + "\n")
        runs.append(said("meaning", file, "--input", given, *BOUND)[1])
    bad = [f"seed {seed}, {' '.join(map(str, scope))}: {it}: {told} {found}" for it in wrong(told, found, runs)]
    if status != (1 if told["faults"] else 3 if told["may_go_on"] else 0):
        bad.append(f"seed {seed}: status {status}")
    return bad, "as found" if places(told) == places(found) and told["may_go_on"] == (found["go_on"] > 0) else "more"


def main():
    words = argparse.ArgumentParser(description=__doc__.splitlines()[0])
    words.add_argument("program")
    words.add_argument("--seed", type=int, default=1)
    words.add_argument("--count", type=int, default=500)
    words = words.parse_args()
    seeds = range(words.seed * 1000003, words.seed * 1000003 + words.count)
    with tempfile.TemporaryDirectory() as folder, ThreadPoolExecutor(JOBS) as pool:
        found = list(pool.map(lambda it: judged(Path(folder), it), seeds))
    bad = sum((it for it, _ in found), [])
    for it in bad:
        print(it)
    kinds = [how for _, how in found]
    told = kinds.count("as found") + kinds.count("more")
    print(f"always: of {told} drawn programs nothing that is found is missing; of {kinds.count('as found')} just that is told; "
          f"of {kinds.count('undecided')} others too little is known, and {kinds.count('refused')} are refused")
    sys.exit(1 if bad or told < len(found) // 4 else 0)


if __name__ == "__main__":
    main()
