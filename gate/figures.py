#!/usr/bin/env python3
"""The processor time of a run of the gate, by crate: for its proof, its tests and its wrong bodies.

figures.py watch PID SEEN     notes until it is killed, twice a second, the processor time of all processes below PID in the file SEEN
figures.py tell PID SEEN LOG  prints what they come to, by what `rt ci` said in the file LOG, and writes it to bin/gate-times.txt

A process is of the crate that its command line or its folder names. What it takes behind its last note is lost, half a second at most; the
count that PID has of all that it waited for has that too. A figure is of this run where all of its kind was done in it, else the one of
bench/gate-times.txt, beside which the others are told.
"""
import json
import os
import re
import sys
import time
from pathlib import Path

from uses import TOP, chain, listed, with_those_below

FIGURES = TOP / "bench/gate-times.txt"
MADE = TOP / "bin/gate-times.txt"
KINDS = ("proof", "tests", "wrong bodies")
HEAD = "# Processor seconds of the gate: a crate, its proof, its tests, its wrong bodies. gate/figures.py writes it.\n"
TICKS = os.sysconf("SC_CLK_TCK")


def stat(pid):
    """The fields of a process's stat behind its name: 1 the parent, 11 to 14 the ticks of it and of those it waited for, 19 its start."""
    return Path(f"/proc/{pid}/stat").read_text().rpartition(")")[2].split()


def processes(top):
    """The processes below this one, each with its fields."""
    found, below = {}, {top}
    for pid in filter(str.isdigit, os.listdir("/proc")):
        try:
            found[pid] = stat(pid)
        except (OSError, IndexError):
            pass
    while more := {pid for pid, it in found.items() if it[1] in below} - below:
        below |= more
    return {pid: found[pid] for pid in below - {top} if pid in found}


def owner(pid):
    """The crate that a process works for, and the kind of its work."""
    words = Path(f"/proc/{pid}/cmdline").read_text(errors="replace").split("\0")
    folder = os.readlink(f"/proc/{pid}/cwd")
    ran = next((it for it in words if "/rt-run-" in it), None)
    if ran:
        return os.path.basename(ran).removesuffix(".by-rattle").removesuffix("_tests"), "tests"
    if "--crate-name" not in words:
        return os.path.basename(folder) if "/crates/" in folder else "", "proof"
    kind = "wrong bodies" if "/rt-edit" in folder else "tests" if "--test" in words else "proof"
    return words[words.index("--crate-name") + 1], kind


def watch(top, file):
    seen = {}
    while True:
        for pid, it in processes(top).items():
            try:
                whose = owner(pid)
            except OSError:
                whose = seen.get(f"{pid} {it[19]}", [("", "proof")])[0]
            seen[f"{pid} {it[19]}"] = whose, (int(it[11]) + int(it[12])) / TICKS
        Path(f"{file}.new").write_text(json.dumps([*seen.values()]))
        os.replace(f"{file}.new", file)
        time.sleep(0.5)


def spent(file):
    """The seconds of each crate by kind; those of no crate stand under ''."""
    found = {}
    for (crate, kind), seconds in json.loads(Path(file).read_text()):
        of = found.setdefault(crate, dict.fromkeys(KINDS, 0))
        of[kind] += seconds
    return found


def done(log):
    """What was done whole in this run, as pairs of a crate and a kind."""
    found = {(it, "proof") for it in re.findall(r"^rt: (\w+) proved$", log, re.M)}
    found |= {(it, "tests") for it in re.findall(r"^rt: (\w+): its tests are proved$", log, re.M)}
    for crate, tried in re.findall(r"^rt: (\w+): trying its must-fail edits \((\d+)\)$", log, re.M):
        if int(tried) == len([*(TOP / "crates" / crate / "must-fail").glob("*.edit")]):
            found.add((crate, "wrong bodies"))
    return found


def kept(file):
    lines = [it.split() for it in file.read_text().splitlines()] if file.exists() else []
    rows = {it[0]: dict(zip(KINDS, it[1:])) for it in lines if it and it[0] != "#"}
    return {(crate, kind): float(it) for crate, row in rows.items() for kind, it in row.items() if it != "-"}


def minutes(seconds):
    return f"{seconds / 60:.1f}"


def by_crate(figures):
    """The sum of each crate's figures."""
    found = {}
    for (crate, _), it in figures.items():
        found[crate] = found.get(crate, 0) + it
    return found


def grown(now, before):
    """By how much each crate grew, of whose figures some are of this run, in words."""
    old, new = (by_crate({it: figures[it] for it in now.keys() & before.keys()}) for figures in (before, now))
    for crate in sorted(new, key=lambda it: old[it] - new[it]):
        if new[crate] >= old[crate] + 3:
            yield f"{crate} {minutes(new[crate] - old[crate])} to {minutes(new[crate])}"
    new = [now[it] for it in now.keys() - before.keys()]
    if new:
        yield f"{minutes(sum(new))} of {len(new)} figures that are not in bench/gate-times.txt"


def tell(top, file, log):
    seconds, before = spent(file), kept(FIGURES)
    now = {(crate, kind): seconds[crate][kind] for crate, kind in done(Path(log).read_text()) if crate in seconds and seconds[crate][kind]}
    crates = with_those_below(listed())
    after = {it: value for it, value in (before | now).items() if it[0] in crates}
    rows = {crate: [f"{after[crate, it]:.0f}" if (crate, it) in after else "-" for it in KINDS] for crate in crates}
    MADE.parent.mkdir(exist_ok=True)
    MADE.write_text(HEAD + "".join(f"{crate} {' '.join(row)}\n" for crate, row in rows.items() if {*row} != {"-"}))
    in_all = (int(stat(top)[13]) + int(stat(top)[14])) / TICKS
    kinds = ", ".join(f"{kind} {minutes(sum(it[kind] for crate, it in seconds.items() if crate))}" for kind in KINDS)
    print(f"processor minutes of this run: {kinds}; with all else {minutes(in_all)}")
    sums, proofs = by_crate(after), {crate: after.get((crate, "proof"), 0) for crate in crates}
    print(f"the dearest: {', '.join(f'{it} {minutes(sums[it])}' for it in sorted(sums, key=sums.get, reverse=True)[:10])}")
    longest = chain(crates, proofs)
    print(f"the longest chain of proofs, {minutes(sum(map(proofs.get, longest)))}: {', '.join(longest)}")
    print(f"grown by minutes: {'; '.join(grown(now, before)) or 'none'}")


def main():
    if sys.argv[1] == "watch":
        watch(*sys.argv[2:])
    else:
        tell(*sys.argv[2:])


if __name__ == "__main__":
    main()
