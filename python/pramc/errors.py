"""What goes wrong, as exceptions with names of their own. Each says what a terminal says."""
from __future__ import annotations

from typing import TYPE_CHECKING, Optional

if TYPE_CHECKING:
    from .outcomes import Outcome
    from .refusals import Refusal


class PramcError(Exception):
    """Whatever this package raises."""


class ProgramMissing(PramcError):
    """The program pramc isn't beside the package, nor where PRAMC says, nor in PATH."""


class ProgramFailed(PramcError):
    """The program was killed, or answered what isn't known here."""


class UsageError(PramcError, ValueError):
    """An option or its value is wrong: found here, or refused by the program, whose `refusal` it has then."""

    def __init__(self, message: str, refusal: Optional[Refusal] = None) -> None:
        super().__init__(message)
        self.refusal = refusal


class NumberOutOfRange(UsageError):
    """A number that has more than 64 bits."""


class Refused(PramcError):
    """The program refused a text, an input or a listing: its message is the refusal's line, the place with a caret, and the sentence."""

    def __init__(self, refusal: Refusal) -> None:
        super().__init__(str(refusal))
        self.refusal = refusal


class NotAscii(Refused):
    """A text has a character that isn't ASCII (E1)."""


class Faulted(PramcError):
    """A run faulted, where it was asked to end (`Outcome.expect_ended`)."""

    def __init__(self, outcome: Outcome) -> None:
        super().__init__(str(outcome.fault))
        self.outcome = outcome


class WentOn(PramcError):
    """A run went on at its bound, where it was asked to end (`Outcome.expect_ended`)."""

    def __init__(self, outcome: Outcome) -> None:
        super().__init__("goes on")
        self.outcome = outcome
