"""Why a command gives no result, with the exit status that says so."""
from __future__ import annotations

from collections.abc import Iterator
from contextlib import contextmanager
from enum import IntEnum


class Status(IntEnum):
    """The exit status of every subcommand."""

    SAME = 0  # good, the same, verified, written
    DIFFERENT = 1
    USAGE = 2  # the command line is wrong
    REFUSED = 3  # an input denotes no zone, or its signature is wrong
    UNDONE = 4  # it couldn't be done


class Failure(Exception):
    """A reason of one line, for people. `source` is the input that it is about, as the command line has it."""

    status = Status.UNDONE

    def __init__(
        self, text: str, source: str | None = None, line: int | None = None, fault: int | None = None, name: str | None = None,
    ) -> None:
        super().__init__(text)
        self.text, self.source, self.line, self.fault, self.name = text, source, line, fault, name

    def sentence(self) -> str:
        """Returns the reason with its place: `a.zone:4: F41 DifferingTtl: ..`."""
        place = self.source or ""
        if self.line is not None:
            place += f":{self.line}"
        return f"{place}: {self.text}" if place else self.text


class Usage(Failure):
    """The command line is wrong."""

    status = Status.USAGE


class Refusal(Failure):
    """An input is refused."""

    status = Status.REFUSED


class Undone(Failure):
    """It couldn't be done."""


@contextmanager
def about(source: str) -> Iterator[None]:
    """Names the input in each failure that doesn't name one, and words each error of the system for people."""
    try:
        yield
    except Failure as failure:
        failure.source = failure.source or source
        raise
    except OSError as error:
        raise Undone(f"it can't be read: {system_reason(error)}", source) from None
    except MemoryError:
        raise Undone("out of memory", source) from None


def system_reason(error: OSError) -> str:
    """Returns what the system says of an error, without its number: `no such file or directory`."""
    text = error.strerror or type(error).__name__
    return text[:1].lower() + text[1:] if text[1:2].islower() else text
