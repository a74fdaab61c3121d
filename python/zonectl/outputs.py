"""What a command writes: results, notes and files, each file whole or not at all."""
from __future__ import annotations

import contextlib
import json
import os
import stat
import sys
from typing import Any

from .errors import Failure, Undone, system_reason
from .texts import safe


class Output:
    """The outputs of a run. Notes are held back where `is_quiet`, until it is known that the status isn't 0."""

    def __init__(self, is_quiet: bool = False, colour: str = "auto") -> None:
        self.is_quiet, self.colour = is_quiet, colour
        self.held: list[str] = []

    @property
    def has_colours(self) -> bool:
        """Whether standard output gets colours."""
        if self.colour != "auto":
            return self.colour == "always"
        return bool(sys.stdout and sys.stdout.isatty() and not os.environ.get("NO_COLOR") and os.environ.get("TERM") != "dumb")

    def note(self, text: str, source: str | None = None, by: str = "zonectl: ") -> None:
        """Writes a line to standard error."""
        self.notes([f"{by}{source}: {text}" if source else by + text])

    def notes(self, lines: list[str]) -> None:
        """Writes lines to standard error."""
        if self.is_quiet:
            self.held += lines
        else:
            for line in lines:
                say(line)

    def failed(self, failure: Failure) -> int:
        """Writes why a source has no result, and returns the status."""
        self.note(failure.sentence())
        return failure.status

    def end(self, status: int) -> None:
        """Writes the notes that were held back, if the status isn't 0."""
        for line in self.held if status else []:
            say(line)
        self.held.clear()

    def result(self, text: str | bytes, path: str | None = None) -> None:
        """Writes a result to a file, or to standard output."""
        encoding = "utf-8" if path or not sys.stdout else sys.stdout.encoding
        octets = text if isinstance(text, bytes) else text.encode(encoding, "zonectl")
        if path is None:
            to_standard_output(octets)
        else:
            to_file(path, octets)

    def answer(self, found: str | bytes | dict[str, Any], status: int, path: str | None = None) -> int:
        """Writes a result, or an object as a line, and returns the status. Nothing is written to standard output where `is_quiet`
        and the status is 0."""
        if path or status or not self.is_quiet:
            self.result(json.dumps(found) + "\n" if isinstance(found, dict) else found, path)
        return status


def say(line: str) -> None:
    """Writes a line to standard error, made safe. Nobody may be there to read it."""
    with contextlib.suppress(OSError, ValueError, AttributeError):  # the last where it is closed
        sys.stderr.write(safe(line) + "\n")
        sys.stderr.flush()


def to_standard_output(octets: bytes) -> None:
    """Writes octets to standard output. Raises Undone; BrokenPipeError where nobody reads them."""
    if sys.stdout is None:
        raise Undone("standard output is closed")
    try:
        sys.stdout.flush()
        sys.stdout.buffer.write(octets)
        sys.stdout.buffer.flush()
    except BrokenPipeError:
        raise
    except OSError as error:
        raise Undone(f"standard output can't be written: {system_reason(error)}") from None


def to_file(path: str, octets: bytes) -> None:
    """Writes a file that appears under its name when all is written, synced; a device or a pipe is written at once.

    Its temporary file is beside it, and is removed where anything fails. Raises Undone.
    """
    try:
        found = os.stat(path) if os.path.exists(path) else None
        if found and not stat.S_ISREG(found.st_mode):
            with open(path, "wb") as file:
                file.write(octets)
        else:
            _replace(os.path.realpath(path), octets, stat.S_IMODE(found.st_mode) if found else 0o666 & ~_umask())
    except OSError as error:
        raise Undone(f"it can't be written: {system_reason(error)}", path) from None


def _replace(path: str, octets: bytes, mode: int) -> None:
    beside = f"{path}.{os.urandom(4).hex()}"
    descriptor = os.open(beside, os.O_WRONLY | os.O_CREAT | os.O_EXCL | os.O_CLOEXEC, 0o600)
    try:
        with open(descriptor, "wb") as file:
            file.write(octets)
            file.flush()
            os.fsync(descriptor)
            os.fchmod(descriptor, mode)
        os.rename(beside, path)
    except BaseException:
        with contextlib.suppress(OSError):
            os.unlink(beside)
        raise


def _umask() -> int:
    mask = os.umask(0o077)
    os.umask(mask)
    return mask
