#!/usr/bin/env python3
"""Reads lines of JSON by docs/schema/pramc.schema.json, and changes them so that they must not be read.

schema_test.py PROGRAM: the lines are those of gate/rows and the documents, and those of the calls below; `json_texts.py` reads many
more. Of each part of the schema there has to be a line that has it, and of each member; one that all lines have has to be required.
Where a required one is taken away, one gets a value of another type, or a new one comes, the line has to be unknown. Where
python3-jsonschema is installed, it finds the schema well formed, and comes to the same on each line as the reader of `schema.py`; else that
is said.
"""
import json
import re
import subprocess
import sys
import tempfile
import warnings
from pathlib import Path

from documents import BLOCK, COMMAND, PAGES, TOP
from schema import COMMANDS, SCHEMA, Schema, read

PROGRAM = Path(sys.argv[1]).resolve()
WORD = re.compile(rf"\b({'|'.join(COMMANDS)})\b")
EXAMPLES = TOP / "examples"
KEPT = 30  # objects of one part with the same members
MAY_LACK = [("note", "place")]  # what the language says may be missing, and no line here lacks
OTHER = [None, True, -1, 1.5, "", "x", [None], {"x": 1}]  # values of each type, that no member of a line has
LINES = {
    "wide": "rule crew; procs 2; shared a[1..9]; begin for 1 <= i <= a[1] pardo end end",
    "minus": "rule crew; procs 2; shared s; begin for 1 <= i <= 2 pardo local x; x := s - i;\n s := -x; end end",
    "sum": "rule sum; procs 2; shared s; begin for 1 <= i <= 2 pardo local x; x := 9223372036854775807; s := x; end end",
    "even": "rule crew; procs 1; shared a[1..9]; begin print a[1] mod 2 = 0; end",
    "turn": "rule crew; procs 1; shared a[1..9]; var m; begin while a[1] do m := m + 1; end print m div a[2]; end",
    "far": "rule crew; procs 4; shared s; shared a[1..9]; begin if s then print a[s]; else for 1 <= i <= 9 pardo end end end",
    "open": "rule crew; procs 9; shared s; begin for 1 <= i <= s pardo s := 1; end end",
    "sized": "# size n = 4\nrule crew; procs 4; shared s; begin s := 8 div ({n} - 5); end",
    "typo": "rule crew; procs 1; shared total; begin totl := 1; end",
    "block": "rule crew; procs 1; shared s; begin if s then s := 1; end",
    "needless": "rule crew; procs 1; shared s; begin s for := 1; end",
    "limit": "rule crew; procs 0; begin end",
    "size": "# size n = 8\nrule crew; procs {m}; begin end",
    "writes": "rule crew; procs 1; shared a[1..9]; begin a[2] := 5; end",
}
CALLS = [
    "check even", "check typo", "check block", "check needless", "check limit", "check size", "check even --nothing", "check nowhere",
    "run even --bound -1", "run even --reserve 0,9", "run even --show a", "meaning turn --bound 99",
    "meaning turn --memory ones --bound 4294967295 --seconds 1", "cost turn --lines --schedule 3 --workers 2",
    "cost turn --memory ones --bound 9 --workers 2", "cost sized --sweep n=4,5,20000 --workers 2", "cost sized --sweep n=6..40+1",
    "rules sum", "rules even", "rules turn --memory ones --bound 9", "steps wide --memory ones", "steps sum", "steps minus",
    "steps turn", "steps turn --memory ones --bound 5", "trace even --outcome --bsp 2,3", "trace turn", "trace turn --outcome",
    "trace turn --memory ones --bound 9", "explore turn --cells 2 --values 0..1 --bound 9 --where even --ensure even",
    "explore turn --cells 1 --values 0..1 --bound 9", "explore even --permutations 2 --ensure even", "always wide", "always minus",
    "always sum", "always turn --values 0..1", "always open", "always far", "always even",
    "compare even turn --cells 2 --values 0..2 --bound 9 --where even", "compare even even --count 2 --random 1..2",
    "compare even even --permutations 2 --time-at-most 0", "compare wide even --input ones",
    "compare even minus --permutations 2 --bound 9",
    "grade even even turn wide typo nowhere --cells 1 --values 0..1 --bound 9 --procs-at-most 1",
    "grade even writes --cells 1 --values 0..1 --only a", "grade even even --permutations 2 --work-at-most 0",
]


def is_object(line):
    """Whether a line is a whole object, and not one of which a row shows a part."""
    try:
        return isinstance(json.loads(line), dict)
    except ValueError:
        return False


def of_documents():
    """The lines of the documents and the rows, each with the part of the schema that has to know it."""
    for page in PAGES:
        for block in BLOCK.finditer((TOP / page).read_text()):
            for words, output in COMMAND.findall(block["text"]) if block["kind"] == "console" else []:
                command = WORD.search(words)
                name = f"lines_of_{command[1]}" if command else None
                for line in output.splitlines():
                    is_told = '"outcome"' in line or '"passes"' in line
                    is_beside = line.startswith("! ") or '"refused":"' in line and not is_told
                    if is_object(line.removeprefix("! ")):
                        yield "lines_beside" if is_beside else name, line.removeprefix("! ")


def of_calls():
    with tempfile.TemporaryDirectory() as folder:
        for name, text in LINES.items():
            Path(folder, name).write_text(text)
        Path(folder, "ones").write_text("a = 3 1")
        for line in CALLS:
            command, *words = line.split()
            done = subprocess.run([PROGRAM, command, *words, "--format", "json"], cwd=folder, capture_output=True, text=True, timeout=60)
            yield from ((f"lines_of_{command}", it) for it in done.stdout.splitlines())
            yield from (("lines_beside", it) for it in done.stderr.splitlines() if it.startswith("{"))


class Parts:
    """Of each part of the schema some objects that it knows, found in lines."""

    def __init__(self):
        self.found = {}

    def walk(self, part, it):
        if isinstance(part, bool):
            return
        if "$ref" in part:
            self.note(part["$ref"].removeprefix("#/$defs/"), it)
        for one in [*part.get("anyOf", []), *part.get("oneOf", [])]:
            if SCHEMA.reader(one)(it):
                self.walk(one, it)
        for name, one in part.get("properties", {}).items():
            if isinstance(it, dict) and name in it:
                self.walk(one, it[name])
        for one in it if isinstance(it, list) and "items" in part else []:
            self.walk(part["items"], one)

    def note(self, name, it):
        known = self.found.setdefault(name, {})
        alike = known.setdefault(tuple(it) if isinstance(it, dict) else type(it).__name__, [])
        if len(alike) < KEPT and it not in alike:
            alike.append(it)
        self.walk(SCHEMA.parts[name], it)

    def objects(self, name):
        return [it for alike in self.found.get(name, {}).values() for it in alike]


def changed(part, it):
    """Objects that aren't of a part any more: without a member, with one of another type, and with a new one."""
    for name in part.get("required", []):
        yield {word: value for word, value in it.items() if word != name}
    for name in it:
        yield from ({**it, name: other} for other in OTHER if type(other) is not type(it[name]) and not fits(part, name, other))
    yield {**it, "a new member": 1}


def fits(part, name, other):
    """Whether a value is as the part says of a member: what may be null, or of two types."""
    return SCHEMA.reader(part["properties"][name])(other)


def required(part):
    """The members that a part requires, in each case or in one."""
    return {word for one in [part, *part.get("anyOf", []), *part.get("oneOf", [])] for word in one.get("required", [])}


def of_parts(parts):
    """What is wrong with parts: none of its kind, a member that never came, or a changed object that is known; and all changed ones."""
    wrong, tried = [], []
    for name, part in SCHEMA.parts.items():
        found = parts.objects(name)
        if not found and not name.startswith("lines_"):
            wrong.append(f"no line has the part {name}")
        found = [it for it in found if isinstance(it, dict)]
        for it in found if part.get("type") == "object" else []:
            others = list(changed(part, it))
            tried += [(name, other) for other in others]
            wrong += [f"{name} of the schema knows {json.dumps(other)}" for other in others if SCHEMA.is_line(name, other)]
        always = set.intersection(*map(set, found)) - required(part) if found and "properties" in part else []
        wrong += [f"each line has {word} of {name}, and it isn't required" for word in sorted(always) if (name, word) not in MAY_LACK]
        never = {*part.get("properties", {})} - {word for it in found for word in it}
        wrong += [f"no line has {word} of {name}" for word in sorted(never)]
    return wrong, tried


def of_library(lines, tried):
    """What the library for JSON Schema comes to otherwise than the reader of the gate, where it is installed."""
    try:
        with warnings.catch_warnings():
            warnings.simplefilter("ignore")
            from jsonschema import Draft202012Validator
    except ImportError:
        print("schema: python3-jsonschema isn't installed, so lines are read by the gate's own reader alone")
        return []
    text, open_one = read(), Schema(read(), strict=False)
    Draft202012Validator.check_schema(text)
    whole = Draft202012Validator(text)
    asked = {name: whole.evolve(schema={"$ref": f"#/$defs/{name}", "$defs": text["$defs"]}) for name in text["$defs"]}
    several = [(name, json.loads(line)) for name, line in lines if name] + tried[:: max(len(tried) // 4000, 1)]
    differ = [(name, it) for name, it in several if asked[name].is_valid(it) != open_one.is_line(name, it)]
    print(f"schema: python3-jsonschema comes to the same on {len(several) - len(differ)} of {len(several)} lines and changed ones")
    return [f"python3-jsonschema reads otherwise, by {name}: {json.dumps(it)}" for name, it in differ]


def main():
    lines = [*of_documents(), *of_calls()]
    parts, wrong = Parts(), []
    for name, line in lines:
        names = [name] if name else [it for it in SCHEMA.parts if it.startswith("lines_")]
        known = [it for it in names if SCHEMA.is_line(it, json.loads(line))]
        wrong += [] if known else [f"{name or 'the schema'} doesn't know {line}"]
        for it in known:
            parts.note(it, json.loads(line))
    more, tried = of_parts(parts)
    wrong += more + of_library(lines, tried)
    for it in wrong[:60]:
        print(it[:600])
    print(f"schema: {len(lines)} lines, {len(tried)} changed ones, {len(wrong)} wrong")
    sys.exit(1 if wrong or len(lines) < 250 else 0)


if __name__ == "__main__":
    main()
