"""Reads lines of JSON by docs/schema/pramc.schema.json, and finds what the schema doesn't know.

A reader of its own, for the keywords that this schema uses, so that it needs no library and takes microseconds for a line. Within 1.x new
members may come, which the schema lets through; here an object that has one is wrong, so that the schema says all that comes.
`gate/schema_test.py` compares it with python3-jsonschema, where that is installed.
"""
import json
import re
from pathlib import Path

FILE = Path(__file__).resolve().parent.parent / "docs/schema/pramc.schema.json"
SAID = {"description", "title", "$schema", "$id", "$defs"}  # what nothing is read by
TYPES = {"string": str, "array": list, "object": dict, "boolean": bool, "null": type(None)}
COMMANDS = ("check", "meaning", "run", "exec", "cost", "rules", "explore", "always", "compare", "grade", "steps", "trace")


def is_of(it, kind):
    if kind == "integer":
        return isinstance(it, int) and not isinstance(it, bool)
    return isinstance(it, TYPES[kind])


class Schema:
    """The parts of a schema as functions: each answers whether an object is as that part says."""

    def __init__(self, text, strict=True):
        self.parts = text["$defs"]
        self.strict = strict
        self.made = {}

    def is_line(self, name, it):
        """Whether an object is as the part of that name says."""
        return self.named(name)(it)

    def named(self, name):
        if name not in self.made:
            self.made[name] = lambda it: self.made[name](it)  # while it is made it may name itself
            self.made[name] = self.reader(self.parts[name])
        return self.made[name]

    def reader(self, part):
        if isinstance(part, bool):
            return lambda it: part
        tests = [getattr(self, f"of_{word.lstrip('$')}")(value, part) for word, value in part.items() if word not in SAID]
        return lambda it: all(test(it) for test in tests)

    def of_ref(self, value, _):
        name = value.removeprefix("#/$defs/")
        return lambda it: self.named(name)(it)

    def of_type(self, value, _):
        return lambda it: is_of(it, value)

    def of_properties(self, value, part):
        readers = {name: self.reader(one) for name, one in value.items()}
        closed = self.strict and part.get("type") == "object"

        def test(it):
            known = all(name in readers for name in it) or not closed
            return known and all(reader(it[name]) for name, reader in readers.items() if name in it)

        return lambda it: not isinstance(it, dict) or test(it)

    def of_required(self, value, _):
        return lambda it: not isinstance(it, dict) or all(name in it for name in value)

    def of_dependentRequired(self, value, _):
        return lambda it: not isinstance(it, dict) or all(name in it for of, names in value.items() if of in it for name in names)

    def of_items(self, value, _):
        reader = self.reader(value)
        return lambda it: not isinstance(it, list) or all(map(reader, it))

    def of_minItems(self, value, _):
        return lambda it: not isinstance(it, list) or len(it) >= value

    def of_maxItems(self, value, _):
        return lambda it: not isinstance(it, list) or len(it) <= value

    def of_enum(self, value, _):
        return lambda it: any(type(one) is type(it) and one == it for one in value)

    def of_const(self, value, part):
        return self.of_enum([value], part)

    def of_pattern(self, value, _):
        pattern = re.compile(value)
        return lambda it: not isinstance(it, str) or bool(pattern.search(it))

    def of_minimum(self, value, _):
        return lambda it: not is_of(it, "integer") or it >= value

    def of_maximum(self, value, _):
        return lambda it: not is_of(it, "integer") or it <= value

    def of_anyOf(self, value, _):
        readers = [self.reader(one) for one in value]
        return lambda it: any(reader(it) for reader in readers)

    def of_oneOf(self, value, _):
        readers = [self.reader(one) for one in value]
        return lambda it: sum(map(bool, (reader(it) for reader in readers))) == 1


def read():
    return json.loads(FILE.read_text())


SCHEMA = Schema(read())


def unknown(command, out, err=""):
    """The lines of a call that the schema doesn't know: those of standard output as the command's, those beside it as refusals."""
    lines = [(f"lines_of_{command}", it) for it in out.splitlines()]
    lines += [("lines_beside", it) for it in err.splitlines() if it.startswith("{")]
    return [f"{name} of the schema doesn't know {it}" for name, it in lines if not SCHEMA.is_line(name, json.loads(it))]
