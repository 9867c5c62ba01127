"""What the program refuses, and how a terminal shows it."""
from __future__ import annotations

import re
from dataclasses import dataclass
from typing import Any, Dict, Mapping, Optional, Tuple

from .errors import NotAscii, PramcError, Refused, UsageError

Texts = Mapping[str, bytes]  # texts by the names under which they are shown
OF_THE_CALL = ("P1", "P2")
OF_OPTIONS = (*OF_THE_CALL, "E12", "E13")  # the map and the workers are options too
TOLD = re.compile(r"refused ([EP]\d+) ?(.*)")
NAMED = re.compile(r"(\w+)(?: at (\d+))?(?: (.*))?")
PLACED = re.compile(r"(.+?):(\d+)(?::(\d+))?")


@dataclass(frozen=True)
class Place:
    """A place in a text. Lines and columns count from 1, bytes (`offset`) from 0; a whole line has neither of the last two.

    `source` is that line of the text and below it a caret, as a terminal shows them."""

    file: str
    line: int
    column: Optional[int]
    offset: Optional[int]
    source: str

    def __str__(self) -> str:
        column = "" if self.column is None else f":{self.column}"
        return f"{self.file}:{self.line}{column}\n{self.source}"


@dataclass(frozen=True)
class Note:
    """A second sentence, or a second place."""

    message: str
    place: Optional[Place]


@dataclass(frozen=True)
class Refusal:
    """A refusal: its number and name as `E6` and `UnknownName` (P1 and P2 have no name), and where it has them its place and its sentence.

    `detail` is the limit of E10, the reason of E14 and E19, the word of P1, or the file of P2. `str()` gives what a terminal says."""

    number: str
    name: str
    offset: Optional[int]
    line: Optional[int]
    column: Optional[int]
    detail: Optional[str]
    message: Optional[str]
    place: Optional[Place]
    expected: Tuple[str, ...]
    meant: Optional[str]
    notes: Tuple[Note, ...]

    def __str__(self) -> str:
        return "\n".join(it for it in (self.told, self.explained) if it)

    @property
    def told(self) -> str:
        """The line of the refusal, as `refused E6 UnknownName at 57`, or nothing where the parser of command lines refuses."""
        if self.number in OF_THE_CALL and self.detail is None:
            return ""
        at = None if self.offset is None else f"at {self.offset}"
        return " ".join(it for it in ("refused", self.number, self.name, at, self.detail) if it)

    @property
    def explained(self) -> str:
        """What a terminal says behind that line."""
        if self.message is None:
            return ""
        elsewhere = [it for it in self.notes if it.place and it.place != self.place]
        lines = [str(self.place)] if self.place else []
        lines.append(self.message.rstrip("\n") + (":" if elsewhere else ""))
        lines += [it.message for it in self.notes if it not in elsewhere]
        return "\n".join(lines + [str(it.place) for it in elsewhere])


def refusal_of(said: Mapping[str, Any], texts: Texts, shown: Mapping[str, str]) -> Refusal:
    """The refusal that an object of JSON tells. `shown` says how the program's names of files are shown."""
    details = [said[it] for it in ("limit", "reason", "word", "file") if it in said]
    notes = tuple(Note(it["message"], place_of(it, texts, shown)) for it in said.get("notes", ()))
    return Refusal(
        said["refused"], said.get("name", ""), said.get("offset"), said.get("line"), said.get("column"),
        str(details[0]) if details else None, said.get("message"), place_of(said, texts, shown),
        tuple(said.get("expected", ())), said.get("meant"), notes)


def place_of(said: Mapping[str, Any], texts: Texts, shown: Mapping[str, str]) -> Optional[Place]:
    """The place that an object has, if it has one."""
    found: Optional[Dict[str, Any]] = said.get("place")
    if found is None:
        return None
    file = shown.get(found["file"], found["file"])
    line, column = found["line"], found.get("column")
    return Place(file, line, column, found.get("offset"), source_of(texts.get(file, b""), line, column))


def source_of(text: bytes, line: int, column: Optional[int]) -> str:
    """A line of a text, with what isn't printed as `?`, and a caret below its column."""
    lines = text.split(b"\n")
    found = lines[line - 1] if line <= len(lines) else b""
    seen = "".join(chr(it) if it == 9 or 32 <= it < 127 else "?" for it in found.rstrip(b"\r"))
    if column is None:
        return seen
    before = "".join("\t" if it == "\t" else " " for it in seen[: column - 1])
    return f"{seen}\n{before}^"


def error_of(refusal: Refusal) -> PramcError:
    """The exception of a refusal."""
    if refusal.number in OF_OPTIONS:
        return UsageError(str(refusal), refusal)
    return NotAscii(refusal) if refusal.number == "E1" else Refused(refusal)


def refusal_in_words(text: str, shown: Mapping[str, str]) -> Refusal:
    """The refusal that the program tells in words, as for a picture, which goes with no JSON."""
    line, _, more = text.partition("\n")
    found = TOLD.fullmatch(line)
    if not found:  # of the parser of command lines
        return Refusal("P1", "", None, None, None, None, text.rstrip("\n"), None, (), None, ())
    number, rest = found.groups()
    if number in OF_THE_CALL:
        return Refusal(number, "", None, None, None, rest, more.rstrip("\n") or None, None, (), None, ())
    named = NAMED.fullmatch(rest)
    name, at, detail = named.groups() if named else (rest, None, None)
    place = place_in_words(more, int(at) if at else None, shown)
    message = more[len(shown_in_words(more)) :].rstrip("\n") or None
    where = (place.line, place.column) if place else (None, None)
    return Refusal(number, name, int(at) if at else None, *where, detail, message, place, (), None, ())


def shown_in_words(more: str) -> str:
    """The place with which a text begins, if it begins with one: file, line and column, the line of the text, and the caret."""
    lines = more.split("\n")
    found = PLACED.fullmatch(lines[0])
    several = 0 if not found else 3 if found[3] else 2
    return "".join(f"{it}\n" for it in lines[:several])


def place_in_words(more: str, offset: Optional[int], shown: Mapping[str, str]) -> Optional[Place]:
    first, _, source = shown_in_words(more).rstrip("\n").partition("\n")
    found = PLACED.fullmatch(first)
    if not found:
        return None
    file, line, column = found.groups()
    return Place(shown.get(file, file), int(line), int(column) if column else None, offset, source)
