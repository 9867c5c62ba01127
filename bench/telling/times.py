#!/usr/bin/env python3
"""How long commands take that tell of long runs, of many runs and of the largest programs, and how much memory.

times.py PROGRAM: the fastest of three calls each, in a table: seconds, how many times that of the interpreter (`meaning`, on the same
program and bound), and the largest resident set in MB, as GNU time tells it. What a call writes goes into a file.
"""
import subprocess
import sys
import tempfile
from pathlib import Path

TIME = "/usr/bin/time"
REPEATS = 3
LONG = """rule crew; procs 1; shared s; var m;
begin
  while m < 5000000 do m := m + 1; end
end
"""
WIDE = """rule crew; procs 16384; shared a[1..1048576]; var k;
begin
  for k := 1 to 20 do
    for 1 <= i <= 16384 pardo a[64 * i] := a[64 * i] + i; end
  end
end
"""
SUM = """rule crew; procs 1; shared a[1..6]; var k;
begin
  for k := 2 to 6 do a[1] := a[1] + a[k]; end
  print a[1];
end
"""
OTHER = SUM.replace("a[1] + a[k]", "a[k] + a[1]")
BOUND = ["--bound", "4000000000"]
TEXTS = {"long": LONG, "wide": WIDE, "sum": SUM, "other": OTHER}
# What is told, and of what.
CALLS = [
    ("long", "a loop of 10^7 statements", ["meaning"]),
    ("long", "", ["steps"]),
    ("long", "", ["steps", "--format", "json"]),
    ("long", "", ["steps", "--html"]),
    ("long", "", ["steps", "--svg"]),
    ("long", "", ["steps", "--flow"]),
    ("long", "", ["cost"]),
    ("long", "", ["cost", "--lines"]),
    ("long", "", ["rules"]),
    ("long", "", ["trace", "--workers", "1"]),
    ("wide", "20 statements of 16,384 processors on 1,048,576 cells", ["meaning"]),
    ("wide", "", ["run", "--workers", "1"]),
    ("wide", "", ["steps"]),
    ("wide", "", ["steps", "--format", "json"]),
    ("wide", "", ["steps", "--html"]),
    ("wide", "", ["steps", "--svg"]),
    ("wide", "", ["steps", "--flow"]),
    ("wide", "", ["cost"]),
    ("wide", "", ["rules"]),
    ("wide", "", ["trace", "--workers", "4"]),
    ("wide", "", ["trace", "--workers", "4", "--svg"]),
    ("sum", "10^6 inputs of 17 statements", ["explore", "--cells", "6", "--values", "0..9"]),
    ("sum", "10^5 inputs of two programs", ["compare", "other", "--cells", "5", "--values", "0..9"]),
]


def measured(program, folder, name, words):
    """The seconds and the MB of the fastest of some calls."""
    words = [f"{folder}/{it}.pram" if it in TEXTS else it for it in words]
    bound = [] if words[0] in ("explore", "compare") else BOUND
    calls = []
    for _ in range(REPEATS):
        with open(f"{folder}/out", "wb") as out:
            call = [TIME, "-f", "%e %M", program, words[0], f"{folder}/{name}.pram", *words[1:], *bound]
            told = subprocess.run(call, stdout=out, stderr=subprocess.PIPE, text=True, check=False)
        if told.returncode:
            return None
        seconds, kilobytes = told.stderr.splitlines()[-1].split()
        calls.append((float(seconds), int(kilobytes) / 1024))
    return min(calls)


def main(program):
    print("| Program | Command | Seconds | By `meaning` | MB |\n|---|---|---|---|---|")
    with tempfile.TemporaryDirectory() as folder:
        for name, text in TEXTS.items():
            Path(f"{folder}/{name}.pram").write_text(text)
        by = None
        for name, what, words in CALLS:
            found = measured(program, folder, name, words)
            if words == ["meaning"]:
                by = found[0]
            command = " ".join(["OTHER" if it in TEXTS else it for it in words])
            if found is None:
                print(f"| {what} | `{command}` | refused | | |")
                continue
            ratio = f"{found[0] / by:.1f}" if name in ("long", "wide") else ""
            print(f"| {what} | `{command}` | {found[0]:.2f} | {ratio} | {found[1]:.0f} |", flush=True)


if __name__ == "__main__":
    main(sys.argv[1])
