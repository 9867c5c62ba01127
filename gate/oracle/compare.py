#!/usr/bin/env python3
"""Compares pramc with an interpreter that was written from docs/LANGUAGE.md and docs/MACHINE.md alone.

compare.py PROGRAM [--seed S] [--count N] [--keep FOLDER]: N drawn programs by their meaning, by workers and by their code, and 3/5 as many
changed texts and changed listings. What differs is kept in a folder with what was wanted, and the last line tells what all came to.

compare.py PROGRAM --from FOLDER [--bound B] [--keep FOLDER]: so each NAME.pram of a folder and of those in it, on the input NAME.in where
that stands beside it, for at most B statements. Of a text with sizes what `pramc expand` makes of it is compared, and nothing where that
refuses them.
"""
import argparse
import collections
import random
import subprocess
import sys
import tempfile
from concurrent.futures import ThreadPoolExecutor
from pathlib import Path

sys.path[:0] = [str(it) for it in Path(__file__).resolve().parents[:2]]
import draw
import listing
import machine
import meaning
from jobs import JOBS
from language import Refused, read, tokens_of

TOP = Path(__file__).resolve().parents[2]
BOUND = 150
EXIT = {"ended": 0, "fault": 1, "goes on": 3}


def cell_name(entries, cell):
    it = max((it for it in entries if it.first <= cell and it.high >= it.low), key=lambda it: it.first)
    return f"{it.name}[{it.low + cell - it.first}]" if it.array else it.name


def place_name(entries, place):
    if place is None:
        return "all"
    return f"processor {place[1]}" if place[0] == "processor" else cell_name(entries, place[1])


def told(entries, outcome):
    """What pramc writes of an outcome, with its exit status."""
    lines = [str(it) for it in outcome.output]
    if outcome.end == "fault":
        fault = outcome.fault
        lines.append(f"fault {fault.kind} {place_name(entries, fault.place)} line {fault.line}")
    else:
        lines.append(outcome.end)
    if outcome.end == "ended":
        for it in entries:
            values = " ".join(map(str, outcome.cells[it.first:it.first + it.high - it.low + 1]))
            lines.append(f"{it.name}[{it.low}..{it.high}] = {values}" if it.array else f"{it.name} = {values}")
    return "".join(f"{it}\n" for it in lines), EXIT[outcome.end]


NAMES = {"E1": "NotAscii", "E2": "TextTooLong", "E3": "BadToken", "E4": "Syntax", "E5": "TooDeep", "E6": "UnknownName", "E7": "DoubleName",
         "E8": "WrongKind", "E9": "AssignedLoopVariable", "E10": "Limit", "E14": "NotVerified", "E15": "BadListing"}


def told_refusal(it):
    behind = (f" at {it.offset}" if it.offset is not None else "") + (f" {it.word}" if it.word else "")
    return f"refused {it.number} {NAMES[it.number]}{behind}\n", 2


def kind_of(wanted):
    """How a command comes out: an end, the kind of a fault, or the number of a refusal, of E14 with its reason."""
    last = next(it for it in wanted[0].splitlines() if it.split()[0] in ("ended", "fault", "goes", "refused", "accepted")).split()
    return {"fault": last[1], "refused": " ".join(last[1:2] + last[5:])}.get(last[0], last[0]) if len(last) > 1 else last[0]


class Comparison:
    def __init__(self, program, keep, bound):
        self.program, self.keep, self.bound, self.wrong = program, keep, bound, 0
        self.met = collections.Counter()

    def called(self, *words):
        it = subprocess.run([self.program, *map(str, words)], capture_output=True, text=True, timeout=60)
        return it.stdout + it.stderr, it.returncode

    def expect(self, name, files, wanted, *words):
        """Whether a command writes what is wanted; if not, its files are kept."""
        self.met[kind_of(wanted)] += 1
        found = self.called(*words)
        if found == wanted:
            return True
        self.wrong += 1
        folder = self.keep / name
        folder.mkdir(parents=True, exist_ok=True)
        for it in files:
            (folder / it.name).write_bytes(it.read_bytes())
        (folder / "wanted").write_text(wanted[0])
        (folder / "found").write_text(found[0])
        (folder / "words").write_text(" ".join(map(str, words)) + "\n")
        print(f"{name}: {' '.join(map(str, words))} differs, kept in {folder}", flush=True)
        return False


def program_of(text):
    """A program, or what is told of its refusal."""
    try:
        return read(text), None
    except Refused as it:
        return None, told_refusal(it)


def compared(comparison, name, folder, text, values, pick, bound):
    """A program by its meaning, by workers, and its code by workers."""
    source, numbers, plan = folder / "program.pram", folder / "input", folder / "plan"
    source.write_bytes(text)
    numbers.write_text(" ".join(map(str, values)) + "\n")
    program, refusal = program_of(text)
    if program is None:
        return comparison.expect(name, [source], refusal, "check", source)
    wanted = told(program.entries, meaning.run(program, values, bound))
    given = ["--input", numbers, "--bound", bound]
    workers = ["--workers", pick.choice([1, 2, 3, 4, 7]), "--map", pick.choice(["identity", "affine:5,3", "affine:1,1"])]
    files = [source, numbers]
    good = comparison.expect(name, files, wanted, "meaning", source, *given)
    good &= comparison.expect(name, files, wanted, "run", source, *given, *workers)
    found, _ = comparison.called("plan", source)
    plan.write_text(found)
    code = listing.read_listing(found.encode())
    if listing.first_wrong(code) or told(code.entries, machine.run(code, values, bound)) != wanted:
        comparison.wrong += 1
        print(f"{name}: its plan means something else by docs/MACHINE.md", flush=True)
        return False
    return good


def drawn_program(comparison, folder, seed):
    pick = random.Random(seed)
    drawer = draw.Drawer(pick)
    return compared(comparison, f"program-{seed}", folder, drawer.text().encode(), drawer.input(), pick, comparison.bound)


def given_program(comparison, folder, file):
    """A program of a folder, with its sizes put in, on the input beside it."""
    text, beside = file.read_bytes(), file.with_suffix(".in")
    expanded, status = comparison.called("expand", file)
    if expanded.startswith(("refused E19", "refused P1")):
        comparison.met["sizes refused"] += 1
        return True
    values = [int(it) for it in beside.read_text().split()] if beside.exists() else []
    text = text if status else expanded.encode()
    return compared(comparison, file.stem, folder, text, values, random.Random(file.name), comparison.bound)


def changed_program(comparison, folder, seed):
    pick = random.Random(seed)
    text = draw.Drawer(pick).text().encode()
    for _ in range(pick.choice([1, 1, 1, 2])):
        try:
            tokens = tokens_of(text)
        except Refused:
            break
        text = draw.changed_text(pick, text, tokens) if tokens else text
    source = folder / "changed.pram"
    source.write_bytes(text)
    program, refusal = program_of(text)
    wanted = refusal or (f"accepted cells {program.cells} procs {program.procs} rule {program.rule}\n", 0)
    return comparison.expect(f"text-{seed}", [source], wanted, "check", source)


def spelled(code, instructions):
    lines = ["bsp 1", f"rule {code.rule}", f"procs {code.procs}"]
    lines += [f"array {it.name} {it.low} {it.high}" if it.array else f"cell {it.name}" for it in code.entries]
    lines += [f"uniform {code.uniform}", f"private {code.private}", f"code {len(instructions)}"]
    return "".join(f"{it}\n" for it in lines + [f"{at} {' '.join(map(str, it))}" for at, it in enumerate(instructions)])


def changed_listing(comparison, folder, seed):
    """The code of a drawn program with another instruction: refused, or run by workers."""
    pick = random.Random(seed)
    drawer = draw.Drawer(pick)
    source, plan, numbers = folder / "program.pram", folder / "changed.bsp", folder / "input"
    source.write_text(drawer.text())
    values = drawer.input()
    found, status = comparison.called("plan", source)
    if status:
        return True
    code = listing.read_listing(found.encode())
    text = spelled(code, draw.changed_instructions(pick, code)) if pick.random() < 0.8 else draw.changed_lines(pick, found)
    plan.write_text(text)
    numbers.write_text(" ".join(map(str, values)) + "\n")
    try:
        code = listing.read_listing(text.encode())
        wrong = listing.first_wrong(code)
        wanted = told_refusal(Refused("E14", *wrong)) if wrong else told(code.entries, machine.run(code, values, BOUND))
    except Refused as it:
        wanted = told_refusal(it)
    words = ["exec", plan, "--input", numbers, "--bound", BOUND, "--workers", pick.choice([1, 2, 4])]
    return comparison.expect(f"listing-{seed}", [plan, numbers], wanted, *words)


def drawn_jobs(seed, count):
    fewer = count * 3 // 5
    kinds = ((drawn_program, count), (changed_program, fewer), (changed_listing, fewer))
    return [(kind, seed * 1000003 + it) for kind, many in kinds for it in range(many)]


def given_jobs(folder):
    files = sorted(folder.rglob("*.pram"))
    if not files:
        sys.exit(f"{folder}: no file NAME.pram stands there")
    return [(given_program, it) for it in files]


def main():
    words = argparse.ArgumentParser(description=__doc__.splitlines()[0])
    words.add_argument("program")
    words.add_argument("--seed", type=int, default=1)
    words.add_argument("--count", type=int, default=500)
    words.add_argument("--from", dest="folder", type=Path)
    words.add_argument("--bound", type=int, default=BOUND)
    words.add_argument("--keep", default=TOP / "bin/differs")
    words = words.parse_args()
    comparison = Comparison(str(Path(words.program).resolve()), Path(words.keep), words.bound)
    jobs = drawn_jobs(words.seed, words.count) if words.folder is None else given_jobs(words.folder)

    def done(job):
        with tempfile.TemporaryDirectory() as folder:
            return job[0].__name__, job[0](comparison, Path(folder), job[1])

    with ThreadPoolExecutor(JOBS) as pool:
        results = list(pool.map(done, jobs))
    for kind in dict.fromkeys(name for name, _ in results):
        good = [it for name, it in results if name == kind]
        print(f"{kind}: {sum(good)} of {len(good)}")
    print(", ".join(f"{kind} {many}" for kind, many in sorted(comparison.met.items())))
    sys.exit(bool(comparison.wrong))


if __name__ == "__main__":
    main()
