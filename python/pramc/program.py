"""Finds the program pramc, and calls it."""
from __future__ import annotations

import os
import shutil
import subprocess
import sys
from dataclasses import dataclass
from pathlib import Path
from typing import List, Optional

from .errors import ProgramFailed, ProgramMissing, UsageError

BESIDE = Path(__file__).resolve().parent / "bin" / "pramc"
ANSWERED = (0, 1, 2, 3)  # the exit statuses of the program


@dataclass(frozen=True)
class Answer:
    """What a call of the program came to: its exit status, and the bytes of its two streams."""

    status: int
    out: bytes
    err: bytes


def program() -> str:
    """The path of the program: the one in the package, else the one that PRAMC names, else the one in PATH."""
    if is_program(BESIDE):
        return str(BESIDE)
    named = os.environ.get("PRAMC")
    if named:
        if not is_program(Path(named)):
            raise ProgramMissing(f"PRAMC is {named!r}, and there is no program of this name")
        return os.path.abspath(named)
    found = shutil.which("pramc")
    if not found:
        raise ProgramMissing("the program pramc is neither in this package, nor named by PRAMC, nor in PATH")
    return os.path.abspath(found)


def is_program(file: Path) -> bool:
    return file.is_file() and os.access(file, os.X_OK)


def call(words: List[str], standard_input: bytes = b"", folder: Optional[str] = None) -> Answer:
    """Calls the program once, in that folder."""
    found = program()
    try:
        done = subprocess.run([found, *words], input=standard_input, stdout=subprocess.PIPE, stderr=subprocess.PIPE, cwd=folder)
    except ValueError as error:  # a word with a NUL, or one that no command line can have
        raise UsageError(f"a word of the call can't be handed over: {error}") from None
    except OSError as error:
        raise ProgramFailed(f"{found} can't be started: {error.strerror}") from error
    if done.returncode not in ANSWERED:
        said = done.stderr.decode("utf-8", "replace").strip()
        raise ProgramFailed(f"{found} ended with status {done.returncode}{': ' if said else ''}{said}")
    return Answer(done.returncode, done.stdout, done.stderr)


def main() -> None:
    """The command `pramc` of the wheel: the program itself, with the same words."""
    os.execv(program(), ["pramc", *sys.argv[1:]])
