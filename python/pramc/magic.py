"""The cells `%%pram` and the lines `%pram` of IPython and Jupyter.

A cell is a program, and the words behind `%%pram` are those of the command line, without the file: `%%pram run --input 3 1 4`. It shows
what a terminal shows, or a picture or a page, and leaves the result as a Python value in `_pram`.
"""
from __future__ import annotations

import re
import shlex
import sys
import tempfile
from itertools import takewhile
from pathlib import Path
from typing import TYPE_CHECKING, Any, Callable, Dict, Iterator, List, Mapping, Optional

from .costs import cost_of, sweep_of
from .errors import PramcError
from .figures import Figure, Page
from .outcomes import Accepted, Outcome, UnderRule, outcome_of, under_rule_of
from .program import Answer, call
from .refusals import refusal_in_words
from .request import REFUSED, memory_text, numbers_text, read_objects
from .scopes import always_of, comparison_of, exploration_of
from .telling import steps_of, trace_of

if TYPE_CHECKING:
    from IPython.core.interactiveshell import InteractiveShell

CELL = "cell"
VALUE = "_pram"
NUMBER = re.compile(r"[+-]?\d+")
FILES = ("--input", "--memory", "--where", "--ensure")  # the options with a file
PICTURES = ("--svg", "--flow")
Objects = List[Dict[str, Any]]


def rules_of(said: Mapping[str, Any]) -> Dict[str, UnderRule]:
    return {it["rule"]: under_rule_of(it) for it in said["rules"]}


def accepted_of(said: Mapping[str, Any]) -> Accepted:
    return Accepted(said["cells"], said["procs"], said["rule"])


# What the objects of each command come to.
VALUES: Dict[str, Callable[[Objects, Optional[int]], Any]] = {
    "check": lambda found, _: accepted_of(found[0]),
    "meaning": lambda found, end: outcome_of(found[0], end),
    "run": lambda found, end: outcome_of(found[0], end),
    "exec": lambda found, end: outcome_of(found[0], end),
    "cost": lambda found, end: sweep_of(found) if "size" in found[0] else cost_of(found[0], end),
    "rules": lambda found, _: rules_of(found[0]),
    "explore": lambda found, _: exploration_of(found[0]),
    "always": lambda found, _: always_of(found[0]),
    "compare": lambda found, _: comparison_of(found),
    "steps": steps_of,
    "trace": lambda found, _: trace_of(found),
}


class Line:
    """The words of a line: the command, what is for the program, and what is for the cell itself."""

    def __init__(self, line: str) -> None:
        words = words_of(line)
        self.command = "run"
        self.words: List[str] = []
        self.other: Optional[str] = None  # the second program of compare
        self.names: Dict[str, str] = {}  # of --into and --keep
        if words and not words[0].startswith("-"):
            self.command = words.pop(0)
        if self.command == "compare" and words and not words[0].startswith("-"):
            self.other = words.pop(0)
        while words:
            self.take(words)

    def take(self, words: List[str]) -> None:
        """Takes one word, and those that belong to it."""
        word, equals, value = words.pop(0).partition("=")
        if word in ("--into", "--keep"):
            self.names[word] = name_of(value if equals else words.pop(0) if words else "", word)
        elif word in FILES:
            self.words += [word, value if equals else file_word(words)]
        else:
            self.words.append(word + equals + value)

    def has(self, *options: str) -> bool:
        return any(it.partition("=")[0] in options for it in self.words)

    def for_objects(self) -> List[str]:
        """The words by which the same is told as JSON, which has names of all."""
        words = list(self.words)
        for at, it in enumerate(words):
            if self.command == "steps" and it.partition("=")[0] == "--only":
                del words[at : at + (1 if "=" in it else 2)]
                break
        if self.command == "trace" and not self.has("--outcome"):
            words.append("--outcome")
        return [*words, "--format=json"]


def words_of(line: str) -> List[str]:
    try:
        return shlex.split(line)
    except ValueError as error:
        raise usage_error(f"{line}: {error}") from None


def usage_error(message: str) -> Exception:
    """An error that IPython shows without a traceback."""
    from IPython.core.error import UsageError

    return UsageError(message)


def name_of(word: str, option: str) -> str:
    if not word.isidentifier():
        raise usage_error(f"{option} wants the name of a Python variable, and has {word!r}")
    return word


def file_word(words: List[str]) -> str:
    """The word behind an option with a file: numbers that stand there are one word."""
    if not words:
        raise usage_error("an option is the last word, and wants numbers, a variable or a file behind it")
    found = list(takewhile(NUMBER.fullmatch, words)) or words[:1]
    del words[: len(found)]
    return " ".join(found)


class Pram:
    """The magics of a shell."""

    def __init__(self, shell: InteractiveShell) -> None:
        self.shell = shell

    def __call__(self, line: str, cell: Optional[str] = None) -> None:
        """A program with the words of the command line: %%pram run --input 3 1 4

        Without a cell, the words of a call that needs no program: %pram explain E6"""
        try:
            if cell is None:
                self.show(call(words_of(line)), "")
            else:
                self.run(Line(line), cell)
        except PramcError as error:
            raise usage_error(str(error)) from None

    def run(self, told: Line, cell: str) -> None:
        """Runs a cell, and leaves its value in variables."""
        if "--keep" in told.names:
            self.shell.user_ns[told.names["--keep"]] = cell
        with tempfile.TemporaryDirectory(prefix="pramc-") as folder:
            value = self.called(told, cell, Path(folder))
        self.shell.user_ns[VALUE] = value
        if "--into" in told.names:
            self.shell.user_ns[told.names["--into"]] = value

    def called(self, told: Line, cell: str, folder: Path) -> Any:
        """Calls the program, shows what it says, and answers the value of that."""
        Path(folder, CELL).write_bytes(cell.encode("utf-8", "surrogatepass"))
        told.words = list(self.with_files(told, folder))
        front = [told.command, str(folder / CELL)]
        if told.other is not None:
            front.append(self.file("other", told.other, folder))
        answer = call([*front, *told.words, "--explain"])
        hidden = f"{folder}/"
        if answer.status == REFUSED:
            self.show(answer, hidden)
            return refusal_in_words(plain(answer.err, hidden), {})
        if told.has("--html", *PICTURES):
            return self.drawn(told, answer, hidden)
        self.show(answer, hidden)
        if told.command not in VALUES or told.has("--format"):
            return plain(answer.out, hidden)
        said = call([*front, *told.for_objects()])
        ends = [it["bound"] for it in read_objects(said.err) if "bound" in it]
        return VALUES[told.command](read_objects(said.out), ends[-1] if ends else None)

    def with_files(self, told: Line, folder: Path) -> Iterator[str]:
        """The words, with a file for each text that is a variable, and for numbers."""
        words = iter(told.words)
        for it in words:
            yield it
            if it in FILES:
                yield self.file(it, next(words), folder)

    def file(self, option: str, word: str, folder: Path) -> str:
        """The file that a word stands for: one of numbers, one of what a variable of this name has, or the one of this name."""
        text = self.text_of(word, option)
        if text is None:
            return word
        called = option.lstrip("-")
        file = next(it for it in (folder / f"{called}{at or ''}" for at in range(10**6)) if not it.exists())
        file.write_bytes(text.encode("utf-8", "surrogatepass"))
        return str(file)

    def text_of(self, word: str, option: str) -> Optional[str]:
        if option == "--input" and all(map(NUMBER.fullmatch, word.split())):
            return f"{word}\n"
        known = self.shell.user_ns.get(word)
        if known is None or Path(word).exists():
            return None
        if isinstance(known, Outcome):
            known = known.memory
        if isinstance(known, dict):
            return memory_text(known)
        return known if isinstance(known, str) else f"{numbers_text(known, word)}\n"

    def drawn(self, told: Line, answer: Answer, hidden: str) -> Any:
        """Shows a picture or a page."""
        from IPython.display import display

        text = plain(answer.out, hidden)
        made = Page(text) if told.has("--html") else Figure(text)
        display(made)
        self.show(Answer(answer.status, b"", answer.err), hidden)
        return made

    def show(self, answer: Answer, hidden: str) -> None:
        """Writes what the program wrote to both streams."""
        for text, stream in ((plain(answer.out, hidden), sys.stdout), (plain(answer.err, hidden), sys.stderr)):
            if text:
                print(text, end="", file=stream, flush=True)


def plain(text: bytes, hidden: str) -> str:
    """What the program wrote, without the folder of the cell's files."""
    said = text.decode("utf-8", "replace")
    return said.replace(hidden, "") if hidden else said


def load(shell: InteractiveShell) -> None:
    """Gives a shell `%%pram` and `%pram`."""
    shell.register_magic_function(Pram(shell).__call__, "line_cell", "pram")
