#!/usr/bin/env python3
"""Runs the commands over each example of examples/ in words and as JSON, reads the JSON, and compares what both say.

json_texts.py PROGRAM: each object of JSON is on a line of its own and has each name once; it says what the text of the same call says, and
the exit status is the same. So it is with a run that is cut short, with changed texts that are refused, whose lines and columns are counted
here, and with words that are. What `steps --locals` and `steps --columns` say is what its JSON says; a sweep over the sizes of an example,
of which some are cut short or refused, says the same as text, as JSON and as CSV; two programs on several inputs say of each what they
say of it alone; and programs that are graded say the same. Each line is one that docs/schema/pramc.schema.json knows.
"""
import csv
import json
import re
import subprocess
import sys
import tempfile
from concurrent.futures import ThreadPoolExecutor
from pathlib import Path

from gallery import EXAMPLES, INPUTS, foot, programs, sizes
from jobs import JOBS
from schema import COMMANDS as KNOWN, unknown

PROGRAM = Path(sys.argv[1]).resolve()
READ = []  # of each call that asks for JSON, the lines that the schema doesn't know
MEMORY = re.compile(r"(\w+)(?:\[(\d+)\.\.(\d+)\])? = (.+)")
FAULT = re.compile(r"fault (\S+) (.+) line (\d+)")
ACCEPTED = re.compile(r"accepted cells (\d+) procs (\d+) rule (\w+)")
LINE_COST = re.compile(r"line (\d+) times (\d+) work (\d+) reads (\d+) writes (\d+)")
STEP = re.compile(r"(\d+) line (\d+) processors (\d+)((?: \S+ -?\d+ -> -?\d+)*)")
FAULTED_STEP = re.compile(r"(\d+) (fault .+ line \d+)(?: processors((?: -?\d+)+))?")
CHANGE = re.compile(r" (\S+) (-?\d+) -> (-?\d+)")
# a statement with its locals: what is beside the cells
BESIDE = re.compile(r"(?P<sets>(?: [^ :]+ -?\d+ -> -?\d+)*)(?P<locals>(?: \w+(?: -?\d+: -?\d+ -> -?\d+)+)*(?: and \d+ more)?)"
                    r"(?P<printed>(?: prints(?: -?\d+)+)?)")
# a statement with its column
PLACED = re.compile(r"^(\d+) (?:fault .+ )?line (\d+):(\d+)", re.M)
LOCAL = re.compile(r"(?: ([A-Za-z_]\w*))? (-?\d+): (-?\d+) -> (-?\d+)")
MOST_LOCALS = 8
EXCHANGE = re.compile(r"(\d+) (\w+) sent ((?:\d+ )+)received ((?:\d+ )+)h (\d+) line (\d+)")
COUNTS = r" time (\d+) work (\d+) width (\d+) reads (\d+) writes (\d+)(?: exchanges at most (\d+))?(?: words at most (\d+))?"
SWEPT = re.compile(rf"(\w+) (\d+)(?:{COUNTS})? (ended|goes on|(?:fault|refused) .+)")
COLUMNS = ["time", "work", "width", "reads", "writes", "exchanges", "words", "outcome"]
INPUT = re.compile(r"input((?: -?\d+)*): (.+)")
VALUES = r"(-?\d+|missing), and (-?\d+|missing)"
GRADED = re.compile(r"(.+?) (pass|fail) correct (\d+) of (\d+) faults (\d+) goes-on (\d+) above (\d+) time (\d+) work (\d+) procs (\d+)"
                    r"(?: above \d+)? rule (\w+)(?: (input.*))?")
UNGRADED = re.compile(r"(.+?) fail (refused .+)")
REFUSED = re.compile(r"refused (E\d+) (\w+)(?: at (\d+))?(?: (\w+))?")


def called(words):
    done = subprocess.run([PROGRAM, *map(str, words)], capture_output=True, text=True, timeout=60)
    if "json" in words:
        READ.append(unknown(words[0] if words[0] in KNOWN else "check", done.stdout, done.stderr))
    return done.returncode, done.stdout, done.stderr


def each_name_once(pairs):
    names = [name for name, _ in pairs]
    if len(set(names)) != len(names):
        raise ValueError(f"a name stands twice: {names}")
    return dict(pairs)


def read(text):
    """The objects of a text of JSON lines."""
    if text and not text.endswith("\n"):
        raise ValueError("the last line has no end")
    return [json.loads(line, object_pairs_hook=each_name_once) for line in text.splitlines()]


# ---- what the texts say, as the objects that say the same


def numbers(words):
    return [int(it) for it in words.split()]


def fault(line):
    kind, place, at = FAULT.fullmatch(line).groups()
    return {"kind": kind, "place": place, "line": int(at)}


def cells(line):
    name, low, high, values = MEMORY.fullmatch(line).groups()
    bounds = {"low": low, "high": high} if low else {}
    return {"name": name, "values": values.split(), **bounds}


def outcome(lines):
    """An outcome, whose lines stand behind what was printed."""
    end = next(at for at, it in enumerate(lines) if not re.fullmatch(r"-?\d+", it))
    output = {"output": lines[:end]}
    if lines[end] == "ended":
        return {"outcome": "ended", "memory": [cells(it) for it in lines[end + 1 :]], **output}
    if lines[end] == "goes on":
        return {"outcome": "goes on", **output}
    return {"outcome": "fault", **fault(lines[end]), **output}


def accepted(lines):
    found, procs, rule = ACCEPTED.fullmatch(*lines).groups()
    return [{"accepted": True, "cells": int(found), "procs": int(procs), "rule": rule}]


def meaning(lines):
    return [outcome(lines)]


def line_cost(line):
    at, times, work, reads, writes = LINE_COST.fullmatch(line).groups()
    return {"line": int(at), "times": int(times), "work": int(work), "reads": int(reads), "writes": int(writes)}


def costs(lines):
    """Costs with `--lines`, `--schedule` and `--workers`."""
    said, lines = {"lines": []}, list(lines)
    while re.match(r"[a-z]+ .*\d", lines[0]) and not lines[0].startswith("fault"):
        line = lines.pop(0)
        words = line.split()
        if line.startswith("line "):
            said["lines"].append(line_cost(line))
        elif line.startswith("exchanges at most"):
            said["exchanges_at_most"] = int(words[3])
        elif line.startswith("words at most"):
            said["words_at_most"] = int(words[3])
        elif line.startswith("rounds on"):
            said |= {"processors": int(words[2].removesuffix(":")), "rounds": int(words[3])}
        elif line.startswith("at most"):
            said["rounds_at_most"] = int(words[2])
        else:
            said[words[0]] = int(words[1])
    return [said | outcome(lines)]


def rules(lines):
    def finding(line):
        rule, said = line.split(" ", 1)
        if said.startswith("ended "):
            declared = {"declared": True} if said.endswith(" (declared)") else {}
            return {"rule": rule, "outcome": "ended", "end": said.split()[1], **declared}
        return {"rule": rule, **({"outcome": "goes on"} if said == "goes on" else {"outcome": "fault", **fault(said)})}

    return [{"rules": [finding(it) for it in lines]}]


def step(line):
    found = STEP.fullmatch(line)
    if found:
        number, at, processors, changes = found.groups()
        changed = [{"cell": cell, "before": before, "after": after} for cell, before, after in CHANGE.findall(changes)]
        return {"step": int(number), "line": int(at), "processors": int(processors), "changes": changed}
    number, said, met = FAULTED_STEP.fullmatch(line).groups()
    return {"step": int(number), "met": (met or "").split(), **fault(said)}


def steps(lines):
    told = [it for it in lines if STEP.fullmatch(it) or FAULTED_STEP.fullmatch(it)]
    return [step(it) for it in told] + [outcome(lines[len(told) :])]


def beside(text):
    """The cells and variables, the locals, how many more, and what is printed, of what stands behind a statement's processors."""
    found = BESIDE.fullmatch(text)
    name, told = "", []
    for new, *values in LOCAL.findall(found["locals"]):
        name = new or name
        told.append((name, *values))
    more = re.search(r" and (\d+) more$", found["locals"])
    return CHANGE.findall(found["sets"]), told, int(more[1]) if more else 0, found["printed"].split()[1:]


def beside_of(one):
    """The same of the object of a statement."""
    sets = [(it["cell"], it["before"], it["after"]) for it in one["changes"]]
    sets += [(it["name"], it["before"], it["after"]) for it in one["variables"]]
    told = [(it["local"], it["processor"], it["before"], it["after"]) for it in one["locals"]]
    return sets, told[:MOST_LOCALS], max(len(told) - MOST_LOCALS, 0), one["printed"]


def exchanges(lines):
    def one(line):
        k, kind, sent, received, h, at = EXCHANGE.fullmatch(line).groups()
        return {"exchange": int(k), "for": kind, "sent": numbers(sent), "received": numbers(received), "h": int(h), "line": int(at)}

    return [one(it) for it in lines]


def swept(line):
    """What is told of a size."""
    name, value, *counts, end = SWEPT.fullmatch(line).groups()
    numbers = zip(("time", "work", "width", "reads", "writes", "exchanges_at_most", "words_at_most"), counts)
    said = {it: int(n) for it, n in numbers if n}
    how, *_ = end.split()
    more = {"fault": {"fault": end}, "refused": {"refusal": end}}.get(how, {})
    return {"size": name, "value": int(value), "outcome": how if more else end, **said, **more}


def sweep(lines):
    """A line for each size, and what is told behind them of how time and work grow."""
    rows = [it for it in lines if SWEPT.fullmatch(it)]
    grown = dict(it.split(" ", 1) for it in lines[len(rows) :])
    return [*map(swept, rows), *([grown] if grown else [])]


def way(words):
    """How a run comes out, without its values."""
    return {"outcome": "fault", **fault(words)} if words.startswith("fault") else {"outcome": words}


def differing(line):
    """An input on which two programs differ, and what differs on it."""
    values, words = INPUT.fullmatch(line).groups()
    said = {"input": values.split()}
    if above := re.fullmatch(r"(time|work) (\d+) above (\d+)", words):
        return said | {"differs": above[1], "taken": int(above[2]), "limit": int(above[3])}
    if item := re.fullmatch(rf"output item (\d+) is {VALUES}", words):
        said |= {"differs": "output", "item": int(item[1])}
    elif item := re.fullmatch(rf"(\S+) is {VALUES}", words):
        said |= {"differs": "cell", "cell": item[1]}
    else:
        first, second = words.split(", and ")
        return said | {"differs": "outcome", "first": way(first), "second": way(second)}
    return said | {name: it for name, it in zip(("first", "second"), item.groups()[1:]) if it != "missing"}


def whose(words, first, second):
    """What differs between programs in these files, of which the words tell the second first."""
    if above := re.fullmatch(r"(time|work) (\d+) above (\d+)", words):
        return {"differs": above[1], "taken": int(above[2]), "limit": int(above[3])}
    told, other = words.removesuffix(f" in {first}").split(f" in {second}, ")
    what, is_value, value = told.rpartition(" is ")
    if not is_value:
        return {"differs": "outcome", "first": way(other), "second": way(told)}
    item = re.fullmatch(r"output item (\d+)", what)
    said = {"differs": "output", "item": int(item[1])} if item else {"differs": "cell", "cell": what}
    return said | {name: it for name, it in (("first", other), ("second", value)) if it != "missing"}


def graded(line, first, texts, limits):
    """A program that is graded by that in the first file, where these texts are refused, with these limits."""
    if refused := UNGRADED.fullmatch(line):
        return {"file": refused[1], "passes": False, "refusal": refusal(refused[2], texts[refused[1]])[0]}
    name, verdict, *counts, rule, differs = GRADED.fullmatch(line).groups()
    names = ("correct", "counting", "faulted", "go_on", "above", "time", "work", "procs")
    said = {"file": name, "passes": verdict == "pass", "rule": rule, **dict(zip(names, map(int, counts))), **limits}
    if differs:
        values, words = INPUT.fullmatch(differs).groups()
        said |= {"input": values.split(), **whose(words, first, name)}
    return said


def refusal(line, text):
    """A refusal, with the line and the column of its place in that text."""
    number, name, at, limit = REFUSED.fullmatch(line).groups()
    said = {"refused": number, "name": name} | ({"limit": limit} if limit else {})
    if at:
        front = text[: int(at)]
        said |= {"offset": int(at), "line": front.count("\n") + 1, "column": int(at) - (front.rfind("\n") + 1) + 1}
    return [said]


# ---- calls


def agree(found):
    """Whether each statement has an act for each of its processors, and what all printed is the output of the outcome behind them."""
    told = [it for it in found if "step" in it]
    acts = all(len(it["acts"]) == it["processors"] for it in told if "processors" in it)
    return not told or acts and [item for it in told for item in it.get("printed", [])] == found[-1]["output"]


def says_all(said, found):
    """Whether the objects say that, an entry of a run more, which agrees."""
    if len(said) != len(found) or not agree(found):
        return False
    more = [{name: it.get(name) for name in one} if "step" in one else it for one, it in zip(said, found)]
    return more == said


WAYS = {0: "ended", 1: "fault", 3: "goes on"}


def wrong(words, reader):
    """What is wrong with the JSON of a call that is not refused, if anything is."""
    status, text, refused = called([*words, "--lines"] if words[0] == "trace" else words)
    code, out, err = called([*words, "--format", "json"])
    try:
        said, found = reader(text.splitlines()), read(out)
    except (ValueError, AttributeError, StopIteration, IndexError) as error:
        return [f"pramc {' '.join(map(str, words))}: {error}\n{text}{out}{err}"]
    if words[0] == "trace":
        said.append({"outcome": WAYS.get(status)})
    if words[0] == "steps" and [*found.pop(0)] != ["opening"]:
        return [f"pramc {' '.join(map(str, words))}: no opening\n{out}"]
    if code == status and status != 2 and not err and not refused and says_all(said, found):
        return []
    return [f"pramc {' '.join(map(str, words))}: status {code}, not {status}\n{said}\n{found}\n{err}"]


def wrong_locals(words):
    """What is wrong with the locals of a run that is told statement by statement, if anything is."""
    _, text, _ = called([*words, "--locals"])
    _, out, _ = called([*words, "--format", "json", "--locals"])
    told = {it["step"]: beside_of(it) for it in read(out) if "processors" in it}
    said = {}
    for line in text.splitlines():
        found = re.fullmatch(r"(\d+) line \d+ processors \d+(.*)", line)
        if found:
            said[int(found[1])] = beside(found[2])
    return [] if said == told else [f"pramc {' '.join(map(str, words))} --locals: {said}\n{told}"]


def cells_of(memory):
    """What each cell holds, by its name, of declarations with their values."""
    return {it["name"] + (f"[{int(it['low']) + i}]" if "low" in it else ""): v for it in memory for i, v in enumerate(it["values"])}


def wrong_act(act, before, after, several):
    """Whether a processor read other values than the cells held, at positions that don't ascend, or alone left another than it wrote."""
    at, write, written = act["positions"], act["write"], act["written"]
    if [before[it] for it in act["reads"]] != act["values"] or at != sorted({*at}) or len(at) != len(act["reads"]) or min(at, default=1) < 1:
        return True
    return (write is None) != (written is None) or write is not None and not several and after[write] != written


def wrong_values(words):
    """What is wrong with the values that processors read and write, beside the cells as the changes leave them, if anything is."""
    _, out, _ = called([*words, "--format", "json"])
    opening, *steps, end = read(out)
    cells, found = cells_of(opening["opening"]), []
    for step in steps:
        before = dict(cells)
        cells.update((it["cell"], it["after"]) for it in step.get("changes", []))
        writes = [it["write"] for it in step["acts"]]
        found += [(step["step"], it) for it in step["acts"] if wrong_act(it, before, cells, writes.count(it["write"]) > 1)]
    if "memory" in end and cells_of(end["memory"]) != cells:
        found.append((end, cells))
    return [f"pramc {' '.join(map(str, words))}: {it}" for it in found]


def wrong_columns(words):
    """What is wrong with the columns of a run that is told statement by statement, if anything is."""
    plain, text = (called([*words, *it])[1] for it in ([], ["--columns"]))
    _, out, _ = called([*words, "--format", "json"])
    told = [(it["step"], it["line"], it["column"]) for it in read(out) if "step" in it]
    said = [tuple(map(int, it)) for it in PLACED.findall(text)]
    same = PLACED.sub(lambda it: it[0].removesuffix(f":{it[3]}"), text) == plain
    return [] if said == told and same else [f"pramc {' '.join(map(str, words))} --columns: {said}\n{told}\n{text}"]


def wrong_table(words):
    """What is wrong with the CSV of a sweep, if anything is."""
    status, text, _ = called(words)
    code, out, err = called([*words, "--format", "csv"])
    rows = [found.groups() for found in map(SWEPT.fullmatch, text.splitlines()) if found]
    said = [[rows[0][0], *COLUMNS], *([it or "" for it in row[1:]] for row in rows)]
    if (code, err, list(csv.reader(out.splitlines()))) == (status, "", said):
        return []
    return [f"pramc {' '.join(map(str, words))} --format csv: status {code}, not {status}\n{said}\n{out}{err}"]


def wrong_pair(words, inputs):
    """What is wrong with the JSON of two programs on these inputs, if anything is: a line for each that differs, and one for the whole."""
    texts = [called([*words, "--input", it])[1].splitlines()[1:] for it in inputs]
    code, out, err = called([*words, *(word for it in inputs for word in ("--input", it)), "--format", "json"])
    said = [differing(line) for lines in texts for line in lines]
    whole = {"inputs": len(inputs), "same": len(inputs) - len(said)} | (said[0] if said else {})
    if (code, err, read(out)) == (1 if said else 0, "", [*said, whole]):
        return []
    return [f"pramc {' '.join(map(str, words))} on {inputs}: status {code}\n{said}\n{out}{err}"]


def wrong_grades(first, texts, options, limits):
    """What is wrong with the JSON of programs that are graded, if anything is: of files with these texts, by that in the first file."""
    words = ["grade", first, *texts, *options]
    status, text, _ = called(words)
    code, out, err = called([*words, "--format", "json"])
    *lines, last = text.splitlines()
    passing, programs = re.fullmatch(r"(\d+) of (\d+) pass", last).groups()
    said = [graded(it, str(first), texts, limits) for it in lines] + [{"passing": int(passing), "programs": int(programs)}]
    if (code, err, read(out), len(lines)) == (status, "", said, len(texts)):
        return []
    return [f"pramc {' '.join(map(str, words))}: status {code}, not {status}\n{said}\n{out}{err}"]


def shown_place(place):
    """How a place is shown in words: where it is, its line, and a caret below its column."""
    where = ":".join(str(place[it]) for it in ("file", "line", "column") if it in place)
    lines = Path(place["file"]).read_bytes().split(b"\n")
    line = lines[place["line"] - 1].removesuffix(b"\r")
    seen = "".join(chr(it) if it == 9 or 32 <= it < 127 else "?" for it in line)
    caret = re.sub(r"[^\t]", " ", seen[: place["column"] - 1]) + "^\n" if "column" in place else ""
    return f"{where}\n{seen}\n{caret}"


def in_words(said):
    """What the members of a refusal say in words, behind its line."""
    if "message" not in said:
        return ""
    notes = said.get("notes", [])
    first = said.get("place")
    elsewhere = [it for it in notes if it.get("place") != first]
    text = (shown_place(first) if first else "") + said["message"] + (":\n" if elsewhere else "\n")
    text += "".join(it["message"] + "\n" for it in notes if it not in elsewhere)
    return text + "".join(shown_place(it["place"]) for it in elsewhere)


def is_said(found, said, explained):
    """Whether the one object has these members, and says behind the line what is explained there."""
    if len(found) != 1 or {name: found[0].get(name) for name in said} != said:
        return False
    return "word" in said or in_words(found[0]) == explained.partition("\n")[2]


def wrongly_refused(words, text):
    """The same of one that is, for what this text has."""
    status, out, line = called(words)
    _, _, explained = called([*words, "--explain"])
    code, found, err = called([*words, "--format", "json", "--explain"])
    try:
        [said] = refusal(line.removesuffix("\n"), text)
        if (status, code, out, found) == (2, 2, "", "") and is_said(read(err), said, explained):
            return []
    except (ValueError, AttributeError) as error:
        said = error
    return [f"pramc {' '.join(map(str, words))}: status {code}, not 2: {said}\n{line}{explained}{err}"]


def changed_texts(text):
    """Texts that are refused: for a name, for where they end, for a limit, and for a byte."""
    yield re.sub(r"^begin\b", "begin\n  unknown_name := 1;", text, count=1, flags=re.M)
    yield text[: text.index("begin") + 5]
    yield re.sub(r"procs [^;]+", "procs 0", text, count=1)
    yield text.replace("begin", "begin $", 1)


def of_pairs(name, text, folder):
    """An example beside itself, where it may take no time, and beside one that prints more: on its input, on none, on one value if it fits."""
    file, other = EXAMPLES / f"{name}.pram", folder / f"{name}_more.pram"
    other.write_text(re.sub(r"^begin\b", "begin\n  print 1;", text, count=1, flags=re.M))
    inputs = [EXAMPLES / f"{name}.in"]
    for at, values in enumerate(("", "1") if inputs[0].read_text().split() else ("",)):
        inputs.append(folder / f"{name}_pair_{at}.in")
        inputs[-1].write_text(values)
    calls = [([file, file], 20000), ([file, file, "--time-at-most", "1"], 20000), ([file, other], 20000), ([other, file], 5)]
    found = [wrong_pair(["compare", *it, "--bound", str(bound)], inputs) for it, bound in calls]
    typo = folder / f"{name}_typo.pram"
    typo.write_text(next(changed_texts(text)))
    texts, given = {str(it): it.read_text() for it in (file, other, typo)}, [word for it in inputs for word in ("--input", it)]
    limits = [([], {}), (["--procs-at-most", "1"], {"procs_at_most": 1}), (["--work-at-most", "1"], {}), (["--under", "erew"], {})]
    return found + [wrong_grades(file, texts, [*given, "--bound", "20000", *options], limit) for options, limit in limits]


def of_example(name, text, folder):
    file, values = EXAMPLES / f"{name}.pram", ["--input", EXAMPLES / f"{name}.in"]
    calls = [(["check", file], accepted)]
    for bound in ([], ["--bound", "5"]):
        more = [file, *values, *bound]
        calls += [(["meaning", *more], meaning), (["run", *more, "--workers", "3"], meaning), (["rules", *more], rules)]
        calls += [(["cost", *more, "--lines", "--schedule", "3", "--workers", "2"], costs), (["steps", *more], steps)]
        calls += [(["trace", *more, "--workers", "2"], exchanges)]
    plan = folder / f"{name}.bsp"
    plan.write_text(called(["plan", file])[1])
    calls += [(["exec", plan, *values, "--workers", "2"], meaning), (["exec", plan, *values, "--bound", "5"], meaning)]
    found = [wrong(*it) for it in calls] + [wrong_locals(["steps", file, *values]), wrong_columns(["steps", file, *values])]
    found.append(wrong_values(["steps", file, *values]))
    for at, changed in enumerate(changed_texts(text)):
        other = folder / f"{name}_{at}.pram"
        other.write_text(changed)
        found.append(wrongly_refused(["check", other], changed))
    other = folder / f"{name}.in"
    other.write_text("1\n 2 x")
    found.append(wrongly_refused(["meaning", file, "--input", other], "1\n 2 x"))
    found += [wrongly_refused(["run", file, "--workers", "0"], ""), wrongly_refused(["trace", file, "--map", "affine:2,0"], "")]
    return found


def of_sizes(name, text):
    """Sweeps over the sizes of an example that has no size but n: over its own inputs, cut short, and over a size that may be none."""
    if not foot(text) or sorted(sizes(text)) != ["here", "n"]:
        return []
    file, given = EXAMPLES / f"{name}.pram", [str(it) for it in sizes(text)["n"]]
    own = ["cost", file, "--sweep", f"n={','.join(given)}", "--input", INPUTS / f"{name}_{{n}}.in"]
    drawn = ["cost", file, "--sweep", f"n=0,{given[0]},100000", "--random", "0..3", "--bound", "9"]
    calls = [own, [*own, "--bound", "9"], drawn]
    return [it for words in calls for it in (wrong(words, sweep), wrong_table(words))]


def of_words():
    """Calls that the command line is refused for, each with what stands in its object."""
    rows = [(["plan", "x"], "message"), (["expand", "x"], "message"), (["explain", "E6"], "message"), (["check"], "message")]
    rows += [(["check", "nowhere"], "file"), (["exec", "nowhere"], "file"), (["cost", "x", "--schedule", "0"], "word"), (["trace", "x", "--svg"], "word")]
    for words, name in rows:
        code, out, err = called([*words, "--format", "json"])
        said = read(err)
        if code != 2 or out or len(said) != 1 or not {"refused", name, "message"} <= {*said[0]}:
            yield [f"pramc {' '.join(words)} --format json: {code} {out}{err}"]
        else:
            yield []


def main():
    with tempfile.TemporaryDirectory() as folder, ThreadPoolExecutor(JOBS) as pool:
        found = sum(pool.map(lambda it: of_example(*it, Path(folder)), programs()), [])
        found += sum(pool.map(lambda it: of_pairs(*it, Path(folder)), programs()), [])
        found += sum(pool.map(lambda it: of_sizes(*it), programs()), [])
    found += of_words()
    for it in sum([*found, *READ], []):
        print(it)
    print(f"json: the schema knows the lines of {READ.count([])} of {len(READ)} calls")
    print(f"json: {found.count([])} of {len(found)} calls say as JSON what they say in words")
    sys.exit(1 if any([*found, *READ]) else 0)


if __name__ == "__main__":
    main()
