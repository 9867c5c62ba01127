#!/usr/bin/env python3
"""Runs each example of examples/ with its input, and compares all that it writes, and its exit status, with the files beside it.

examples.py PROGRAM: by its definition, by 1, 3 and 4 workers, and from the listing of its plan; with each rule in the place of its own,
where NAME.RULE.out has what it writes if that is neither what NAME.out has nor a fault alone. Those of the gallery also with the change
that gives a conflict, within as many statements as their T, and one less, with which they go on; as many statements are told of them,
and no more, and they cost their T and W at three sizes. Those with a reference in gate/expected write what it says at each of these.
What each says of all inputs of a scope is what is told of it.
"""
import csv
import re
import subprocess
import sys
import tempfile
from concurrent.futures import ThreadPoolExecutor
from pathlib import Path

from gallery import EXAMPLES, cases, change, costs, foot, programs, scope, sizes
from jobs import JOBS

sys.path.insert(0, str(Path(__file__).resolve().parent / "expected"))
from references import expected, read, referenced

PROGRAM = Path(sys.argv[1]).resolve()
GOES_ON = 3
RULE = re.compile(r"^rule (\w+);", re.M)


def wrong(words, output, status):
    """What is wrong with a call, if anything is. A run that goes on has written a beginning of the output."""
    done = subprocess.run([PROGRAM, *words], capture_output=True, text=True, timeout=60)
    written = done.stdout
    if status == GOES_ON and written.endswith("goes on\n") and output.startswith(written.removesuffix("goes on\n")):
        written = output
    if (written, done.stderr, done.returncode) == (output, "", status):
        return []
    return [f"pramc {' '.join(map(str, words))}: status {done.returncode}\n{done.stdout}{done.stderr}"]


def under_each_rule(name, text, output, folder):
    """The calls that run an example under each rule, by what NAME.rules says of it."""
    ends = {RULE.search(text)[1]: output}
    said = [it.split(" ", 1) for it in (EXAMPLES / f"{name}.rules").read_text().splitlines()]
    ends.update({rule: it.read_text() for rule, _ in said if (it := EXAMPLES / f"{name}.{rule}.out").exists()})
    same = next((ends[rule] for rule, how in said if how.startswith("ended same") and rule in ends), None)
    for rule, how in said:
        program = folder / f"{name}.{rule}.pram"
        program.write_text(RULE.sub(f"rule {rule};", text, count=1))
        if how.startswith("fault"):
            yield ["run", program], output if output.endswith(f"{how}\n") else f"{how}\n", 1
        else:
            yield ["run", program], ends.get(rule, same), 0


def sized(given):
    """The words that give a program these sizes."""
    return [it for letter, n in given.items() for it in ("--size", f"{letter}={n}")]


def swept(name, numbers):
    """T and W of a program with one size, at each of these numbers, by a sweep over its inputs."""
    inputs = EXAMPLES / "inputs" / f"{name}_{{n}}.in"
    words = ["cost", EXAMPLES / f"{name}.pram", "--sweep", f"n={','.join(map(str, numbers))}", "--input", inputs, "--format", "csv"]
    done = subprocess.run([PROGRAM, *words], capture_output=True, text=True, timeout=60)
    return [(it["time"], it["work"]) for it in csv.DictReader(done.stdout.splitlines())]


def counted(name, sizes_and_inputs):
    """T and W of a program with several sizes, for each of these and their inputs."""
    for given, values in sizes_and_inputs:
        words = ["cost", EXAMPLES / f"{name}.pram", "--input", values, *sized(given)]
        done = subprocess.run([PROGRAM, *words], capture_output=True, text=True, timeout=60)
        yield tuple(re.findall(r"^(?:time|work) (\d+)$", done.stdout, re.M)[:2])


def miscounted(name, text):
    """What is wrong with the costs of an example of the gallery at its three sizes."""
    given = list(cases(name, text))
    numbers = sizes(text)["n"]
    found = swept(name, numbers) if all(len(it) == 1 for it, _ in given) else list(counted(name, given))
    wanted = [(str(steps), str(work)) for steps, work in zip(costs(text, "T"), costs(text, "W"))]
    if found != wanted:
        yield f"examples/{name}.pram at n = {numbers}: T and W are {found}, and not {wanted}"


def other_sizes(name, text):
    """What is wrong with the runs of an example with a reference at its three sizes."""
    for given, values in cases(name, text):
        written, _, _ = expected(name, given, read(values))
        yield from wrong(["run", EXAMPLES / f"{name}.pram", "--input", values, *sized(given)], written, 0)


def of_the_gallery(program, text, output, folder):
    """The calls that show the conflict and the T of an example of the gallery."""
    changed, _, _, fault = change(text)
    (folder / program.name).write_text(changed)
    steps = costs(text, "T")[sizes(text)["n"].index(sizes(text)["here"])]
    bounds = [(["meaning", program, "--bound", str(it)], output, status) for it, status in ((steps, 0), (steps - 1, GOES_ON))]
    behind = (["steps", program, "--from", str(steps + 1)], output, 0)
    return [(["run", folder / program.name], f"{fault}\n", 1), *bounds, behind]


def always_told(name, text):
    """What is wrong with what is told of all inputs of the scope that an example names."""
    words, wanted = scope(text)
    done = subprocess.run([PROGRAM, "always", EXAMPLES / f"{name}.pram", *words], capture_output=True, text=True, timeout=60)
    told = done.stdout.splitlines()[1:]
    if not any(it.startswith(wanted) for it in told):
        yield f"examples/{name}.pram: on every input of {' '.join(words)} not `{wanted}`, but\n{done.stdout}{done.stderr}"


def tried(name, text, folder):
    """What is wrong with the runs of an example."""
    program, values = EXAMPLES / f"{name}.pram", ["--input", EXAMPLES / f"{name}.in"]
    output, rules = ((EXAMPLES / f"{name}.{it}").read_text() for it in ("out", "rules"))
    status = int("fault " in output)
    plan = folder / f"{name}.bsp"
    plan.write_bytes(subprocess.run([PROGRAM, "plan", program], capture_output=True, timeout=60).stdout)
    calls = [(["meaning", program], output, status), (["rules", program], rules, 0), (["exec", plan], output, status)]
    calls += [(["run", program, "--workers", it], output, status) for it in "134"]
    calls += under_each_rule(name, text, output, folder)
    found = list(always_told(name, text))
    if foot(text):
        calls += of_the_gallery(program, text, output, folder)
        found += miscounted(name, text)
    if (name, text) in referenced():
        found += other_sizes(name, text)
    return found + [it for words, *expected in calls for it in wrong([*words, *values], *expected)]


def main():
    with tempfile.TemporaryDirectory() as folder, ThreadPoolExecutor(JOBS) as pool:
        found = list(pool.map(lambda it: tried(*it, Path(folder)), programs()))
    for it in sum(found, []):
        print(it)
    print(f"examples: {found.count([])} of {len(found)} print what they should")
    sys.exit(1 if any(found) else 0)


main()
