#!/usr/bin/env python3
"""How much memory commands take, at most, on six programs that strain it.

memory_table.py PROGRAM            compares the peaks with the table of bench/README.md: none is above 1.2 times what stands there
memory_table.py PROGRAM --write    writes the table

A peak is the largest resident set of a call, as GNU time tells it, in MB. What a call writes goes nowhere.
"""
import re
import subprocess
import sys
import tempfile
from concurrent.futures import ThreadPoolExecutor
from pathlib import Path

from jobs import JOBS

TOP = Path(__file__).resolve().parent.parent
PAGE = TOP / "bench" / "README.md"
TIME = "/usr/bin/time"
TABLE = re.compile(r"(<!-- memory, by gate/memory_table.py -->\n\n).*?(\n\n<!-- end -->)", re.S)
COMMANDS = {
    "check": ["check"],
    "plan": ["plan"],
    "meaning": ["meaning"],
    "explained": ["meaning", "--explain"],
    "cost": ["cost"],
    "rules": ["rules"],
    "steps": ["steps"],
    "of them 3": ["steps", "--from", "1", "--to", "3"],
    "page": ["steps", "--html"],
    "flow": ["steps", "--flow"],
    "run by 1": ["run", "--workers", "1"],
    "by 4": ["run", "--workers", "4"],
    "by 32": ["run", "--workers", "32"],
    "trace": ["trace", "--workers", "4"],
}
UNBOUNDED = {"check", "plan"}


def nested(kind, depth, inner):
    return f"{kind} " * depth + inner + " end" * depth


def deepest():
    """As many blocks in each other as there may be, in the innermost a subscript in as many as there may be, and parentheses."""
    subscript = "a[" * 8 + "x" + "]" * 8
    return f"rule crew; procs 2; shared a[0..3]; var x;\nbegin\n{nested('if 1 then', 63, f'x := {subscript};')}\nend\n"


# Programs by what they are, each with the bound of its runs.
PROGRAMS = {
    "a loop that never ends": (4000, """rule crew; procs 1000;
shared a[1..1000]; var m;
begin
  m := 1000;
  while m > 1 do
    for 1 <= i <= m pardo a[i] := a[i] + 1; end
  end
end
"""),
    "a late conflict": (1000000, """rule crew; procs 1000;
shared a[1..1000]; shared s; var k;
begin
  for k := 1 to 1500 do
    for 1 <= i <= 1000 pardo a[i] := a[i] + 1; end
  end
  for 1 <= i <= 2 pardo s := i; end
end
"""),
    "many exchanges": (20000, """rule crew; procs 2;
shared s[0..1];
begin
  while 1 do s[0] := s[s[s[s[s[s[s[s[0]]]]]]]]; end
end
"""),
    "16,384 processors of 64 locals": (1000000, "rule crew; procs 16384;\nshared a[1..16384];\nbegin\n  for 1 <= i <= 16384 pardo\n    "
                                       + " ".join(f"local x{it};" for it in range(64)) + "\n    "
                                       + " ".join(f"x{it} := i;" for it in range(64)) + "\n    a[i] := x63;\n  end\nend\n"),
    "1,048,576 cells": (1000000, """rule crew; procs 16384;
shared a[1..1048576];
begin
  for 1 <= i <= 16384 pardo a[64 * i] := a[i] + i; end
end
"""),
    "the deepest": (1000000, deepest()),
}


def peak(program, words, file, bound, folder):
    told = Path(folder) / f"told_{abs(hash((*words, file)))}"
    limits = [] if words[0] in UNBOUNDED else ["--bound", str(bound)]
    call = [TIME, "-f", "%M", "-o", told, program, words[0], file, *words[1:], *limits]
    subprocess.run(call, stdout=subprocess.DEVNULL, stderr=subprocess.DEVNULL, timeout=600)
    return int(told.read_text().split()[-1]) / 1024


def peaks(program):
    """The peak of each command on each program."""
    with tempfile.TemporaryDirectory() as folder, ThreadPoolExecutor(JOBS) as pool:
        found = {}
        for number, (name, (bound, text)) in enumerate(PROGRAMS.items()):
            file = Path(folder) / f"{number}.pram"
            file.write_text(text)
            accepted = subprocess.run([program, "check", file], capture_output=True, text=True)
            if accepted.returncode:
                sys.exit(f"{name}: {accepted.stderr}")
            found[name] = list(pool.map(lambda words: peak(program, words, file, bound, folder), COMMANDS.values()))
    return found


def shown(size):
    return f"{size:.0f}" if size >= 10 else f"{size:.1f}"


def table(found):
    yield "| Program | Bound | " + " | ".join(f"`{it}`" if it in ("check", "plan", "cost", "rules", "run", "trace", "meaning", "steps")
                                              else it.replace("run ", "`run` ") for it in COMMANDS) + " |"
    yield "|---|---|" + "---|" * len(COMMANDS)
    for name, sizes in found.items():
        yield f"| {name} | {PROGRAMS[name][0]:,} | " + " | ".join(map(shown, sizes)) + " |"


def compare(found):
    """What takes more than 1.2 times what the page says."""
    rows = [re.split(r" *\| *", it.strip("| ")) for it in TABLE.search(PAGE.read_text())[0].splitlines() if it.startswith("| ")][1:]
    kept = {row[0]: list(map(float, row[2:])) for row in rows}
    if kept.keys() != found.keys():
        return ["the programs of bench/README.md are others"]
    return [f"{command} of {name}: {size:.1f} MB, above 1.2 times {old} MB"
            for name, sizes in found.items() for command, size, old in zip(COMMANDS, sizes, kept[name]) if size > 1.2 * old + 0.5]


def main():
    if not Path(TIME).exists():
        print("memory: skipped: GNU time is missing (Debian's package time)")
        return
    found = peaks(Path(sys.argv[1]).resolve())
    if "--write" in sys.argv:
        rows = "\n".join(table(found))
        PAGE.write_text(TABLE.sub(rf"\g<1>{rows}\g<2>", PAGE.read_text()))
        return
    wrong = compare(found)
    print(*wrong, sep="\n", end="\n" if wrong else "")
    print(f"memory: {len(PROGRAMS)} programs, {len(COMMANDS)} commands; {len(wrong)} take more than they may")
    sys.exit(bool(wrong))


main()
