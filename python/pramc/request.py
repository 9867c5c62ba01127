"""A call of the program: its words, the texts that it reads, and its answer as objects of JSON."""
from __future__ import annotations

import collections.abc
import json
import operator
import os
import re
import tempfile
from pathlib import Path
from typing import Any, Dict, Iterable, List, Mapping, NoReturn, Optional, Sequence, Tuple, Union

from .errors import NumberOutOfRange, ProgramFailed, UsageError
from .program import Answer, call
from .refusals import error_of, refusal_in_words, refusal_of

Text = Union[str, bytes, os.PathLike[str]]  # a program's text, or a file that has it
Interval = Tuple[int, int]  # the least and the greatest number
Values = Sequence[int]
ByName = Mapping[str, Iterable[int]]  # values of shared declarations by their names, as of `Outcome.memory`
LEAST, GREATEST = -(2**63), 2**63 - 1
NAME = re.compile(r"[A-Za-z][A-Za-z0-9_]*")
REFUSED = 2
STANDARD_INPUT = "-"
PROGRAM_FILE = "program"


def number(value: Any, what: str) -> int:
    """An integer of 64 bits: a Python integer, or what counts as one, as those of NumPy."""
    try:
        found = int(operator.index(value))
    except TypeError:
        raise UsageError(f"{what}: {value!r} is no integer") from None
    if not LEAST <= found <= GREATEST:
        raise NumberOutOfRange(f"{what}: {found} is not from {LEAST} to {GREATEST}")
    return found


def numbers_text(values: Iterable[Any], what: str) -> str:
    if isinstance(values, (str, bytes)):
        raise UsageError(f"{what}: {values!r} is a text, and a list of integers is wanted")
    try:
        return " ".join(str(number(it, f"{what}, value {at}")) for at, it in enumerate(values))
    except TypeError:
        raise UsageError(f"{what}: {values!r} is no list of integers") from None


def interval_text(interval: Interval, what: str) -> str:
    try:
        least, greatest = interval
    except (TypeError, ValueError):
        raise UsageError(f"{what}: {interval!r} is no pair of integers") from None
    return f"{number(least, what)}..{number(greatest, what)}"


def name(word: Any, what: str) -> str:
    if not isinstance(word, str) or not NAME.fullmatch(word):
        raise UsageError(f"{what}: {word!r} is no name")
    return word


def names_text(names: Union[str, Iterable[str]]) -> str:
    try:
        return names if isinstance(names, str) else ",".join(map(str, names))
    except TypeError:
        raise UsageError(f"{names!r} are no names") from None


def items(mapping: Mapping[Any, Any], what: str) -> List[Tuple[Any, Any]]:
    """What a mapping has, if it is one."""
    if not isinstance(mapping, collections.abc.Mapping):
        raise UsageError(f"{what}: {mapping!r} is no dict")
    return list(mapping.items())


def memory_text(memory: ByName) -> str:
    """A memory as a file has it, a declaration a line."""
    lines = []
    for word, values in items(memory, "memory"):
        single = [values] if hasattr(values, "__index__") else values
        lines.append(f"{name(word, 'memory')} = {numbers_text(single, f'memory of {word}')}\n")
    return "".join(lines)


def read_text(text: Text) -> Tuple[bytes, Optional[str]]:
    """The bytes of a text, and the name of its file if it has one. The program refuses what isn't ASCII, at its place."""
    if isinstance(text, bytes):
        return text, None
    if isinstance(text, str):
        return text.encode("utf-8", "surrogatepass"), None
    if isinstance(text, os.PathLike):
        return Path(text).read_bytes(), os.fspath(text)
    raise UsageError(f"a text is a str, bytes or a path, and not {type(text).__name__}")


class Request:
    """A call over a text, which the program reads from its standard input; other texts are files of a temporary folder."""

    def __init__(self, command: str, text: Text) -> None:
        self.words: List[str] = [command, STANDARD_INPUT]
        self.files: Dict[str, bytes] = {}
        self.texts: Dict[str, bytes] = {}
        self.shown: Dict[str, str] = {}
        self.text = self.known(STANDARD_INPUT, text)

    def by_file(self) -> None:
        """Has the program read its text from a file, where it reads it several times."""
        self.words[1] = PROGRAM_FILE
        self.files[PROGRAM_FILE] = self.text
        self.shown[PROGRAM_FILE] = self.shown[STANDARD_INPUT]

    def known(self, called: str, text: Text) -> bytes:
        """The bytes of a text that the program knows by that name."""
        content, file = read_text(text)
        self.shown[called] = file or called
        self.texts[self.shown[called]] = content
        return content

    def option(self, word: str, value: Any) -> None:
        """An option with its value, if there is one."""
        if value is not None:
            self.words.append(f"--{word}={value}")

    def flag(self, word: str, given: bool) -> None:
        if given:
            self.words.append(f"--{word}")

    def interval(self, word: str, value: Optional[Interval]) -> None:
        if value is not None:
            self.option(word, interval_text(value, word))

    def sizes(self, sizes: Optional[Mapping[str, int]]) -> None:
        for word, value in items(sizes or {}, "sizes"):
            self.option("size", f"{word}={number(value, f'size {word}')}")

    def file(self, called: str, text: Text) -> str:
        """The name of a file with that text."""
        self.files[called] = self.known(called, text)
        return called

    def numbered_file(self, called: str, text: Text) -> str:
        """The name of a file with that text, where there are several of a kind."""
        return self.file(f"{called}_{len(self.files)}", text)

    def text_option(self, word: str, text: Optional[Text]) -> None:
        """An option with a file, if there is a text for it."""
        if text is not None:
            self.option(word, self.file(word, text))

    def values_file(self, called: str, values: Values) -> str:
        """The name of a file with these values."""
        return self.file(called, f"{numbers_text(values, called)}\n")

    def input(self, values: Optional[Values]) -> None:
        if values is not None:
            self.option("input", self.values_file("input", values))

    def memory(self, memory: Optional[ByName]) -> None:
        if memory is not None:
            self.option("memory", self.file("memory", memory_text(memory)))

    def answer(self) -> Answer:
        """What the program answers."""
        if not self.files:
            return call(self.words, self.text)
        with tempfile.TemporaryDirectory(prefix="pramc-") as folder:
            for called, content in self.files.items():
                Path(folder, called).write_bytes(content)
            return call(self.words, self.text, folder)

    def objects(self) -> Tuple[List[Dict[str, Any]], Optional[int]]:
        """What the program says as JSON, and the statement behind which `--seconds` ended the run, if it did. A refusal is raised."""
        self.words.append("--format=json")
        answer = self.answer()
        beside = read_objects(answer.err)
        if answer.status == REFUSED:
            self.refuse(beside)
        ends = [it["bound"] for it in beside if "bound" in it]
        found = read_objects(answer.out)
        if not found:
            raise ProgramFailed("the program wrote nothing")
        return found, ends[-1] if ends else None

    def object(self) -> Dict[str, Any]:
        """The one object that the program says."""
        found, _ = self.objects()
        return only(found)

    def drawn(self) -> str:
        """The text that the program writes, as a picture or a page. A refusal is raised as it is told in words."""
        self.words.append("--explain")
        answer = self.answer()
        if answer.status != REFUSED:
            return answer.out.decode("utf-8", "replace")
        raise error_of(refusal_in_words(answer.err.decode("utf-8", "replace"), self.shown))

    def refuse(self, said: List[Dict[str, Any]]) -> NoReturn:
        """Raises the refusal among these objects."""
        for it in said:
            if "refused" in it:
                raise error_of(refusal_of(it, self.texts, self.shown))
        raise ProgramFailed("the program refused, and didn't say what")


def read_objects(text: bytes) -> List[Dict[str, Any]]:
    """The objects among the lines of a text."""
    try:
        return [json.loads(line) for line in text.decode("utf-8", "replace").split("\n") if line.startswith("{")]
    except ValueError as error:
        raise ProgramFailed(f"the program wrote what is no JSON: {error}") from None


def only(found: List[Dict[str, Any]]) -> Dict[str, Any]:
    if len(found) != 1:
        raise ProgramFailed(f"the program wrote {len(found)} lines in the place of one")
    return found[0]
