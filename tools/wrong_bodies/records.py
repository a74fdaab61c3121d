"""The wrong bodies of a crate: the function that each turns, and its text then.

A record is a name and lines below it, up to an empty one. `file:`, `old:` and `new:` name a text that stands once in its file, or by
`in: m::T::f` once in that function, and what takes its place; a record may turn several texts. `refused: m::T::f` names the function
that must be refused where the record turns several, or what stands outside of functions.
"""
import os
from dataclasses import dataclass
from pathlib import Path
from typing import NamedTuple

from crate_source import Function, functions_of

WORDS = ("file", "in", "old", "new", "refused")


class Span(NamedTuple):
    """A place in a file and what takes its place."""

    start: int
    end: int
    new: str


@dataclass(frozen=True, eq=False)
class WrongBody:
    """What takes the place of texts of the source, and the function that must be refused for it."""

    crate: Path
    name: str
    record: str
    function: Function
    spans: dict[str, Span]  # by the file
    is_alone: bool  # whether it turns something else than its function, so that it is tried alone and where it stands

    @property
    def full_name(self) -> str:
        return f"{self.crate.name}/{self.name}"

    @property
    def is_copied(self) -> bool:
        """Whether a copy beside its function can have it. A method of a trait can have none, nor a function in a cycle of calls."""
        function = self.function
        return not (self.is_alone or function.is_of_trait or function.calls_itself or function.cycle)

    @property
    def path(self) -> str:
        """The path of what is refused: of a copy of the function, or of the function where it stands."""
        return f"{self.function.path}_wrong_{self.name}" if self.is_copied else self.function.path

    @property
    def text(self) -> str:
        """The function with the wrong body."""
        span = self.spans.get(self.function.file)
        if not span or not is_within(span, self.function):
            return self.function.text
        at = self.function.start
        return self.function.text[: span.start - at] + span.new + self.function.text[span.end - at :]


def bodies_of(crate: Path, file: Path) -> list[WrongBody]:
    """The wrong bodies of a crate that a file has."""
    functions = list(functions_of(crate))
    records = [it.strip("\n") for it in file.read_text().split("\n\n")]
    bodies = [body_of(crate, functions, it) for it in records]
    for body in bodies:
        if sum(it.name == body.name for it in bodies) > 1:
            raise SystemExit(f"{body.full_name}: another record has its name")
    return bodies


def body_of(crate: Path, functions: list[Function], record: str) -> WrongBody:
    """The wrong body of a record."""
    title, *lines = record.splitlines()
    name = title.removeprefix("name: ")
    full_name = f"{crate.name}/{name}"
    changes, said = changes_in(full_name, lines)
    refused, whole = (function_at(full_name, functions, crate, said.get(it)) for it in ("refused", "in"))
    spans: dict[str, Span] = {}
    for file in dict.fromkeys(it[0] for it in changes):
        if not (crate / file).is_file():
            raise SystemExit(f"{full_name}: there is no file {file}")
        source = turned = (crate / file).read_text()
        for _, old, new in (it for it in changes if it[0] == file):
            turned = replaced(full_name, source, turned, old, new, whole)
        spans[file] = span_between(source, turned)
    own = [it for it in functions if it.file in spans and is_within(spans[it.file], it)]
    if not refused and (len(own) != 1 or len(spans) != 1):
        raise SystemExit(f"{full_name}: it turns no function, or several: `refused: m::T::f` names the one that is refused")
    return WrongBody(crate, name, record, refused or own[0], spans, is_alone=refused is not None)


def changes_in(name: str, lines: list[str]) -> tuple[list[tuple[str, str, str]], dict[str, str]]:
    """What a record turns, as file, old text and new text, and what else it says, by the word before it."""
    changes: list[tuple[str, str, str]] = []
    said: dict[str, str] = {}
    for line in lines:
        word, _, text = line.partition(": ")
        if line.startswith("new:"):
            changes.append((said["file"], said["old"], text))
        elif word in WORDS:
            said[word] = text
        else:
            raise SystemExit(f"{name}: `{line}` begins with none of {', '.join(WORDS)}")
    return changes, said


def function_at(name: str, functions: list[Function], crate: Path, path: str | None) -> Function | None:
    """The function that a record names by its path below the crate, if it names one."""
    named = [it for it in functions if it.path == f"{crate.name}::{path}"]
    if path and len(named) != 1:
        raise SystemExit(f"{name}: there are {len(named)} functions {path}")
    return named[0] if named else None


def is_within(span: Span, function: Function) -> bool:
    """Whether a span of the function's file lies in the function."""
    return function.start <= span.start and span.end < function.end


def replaced(name: str, source: str, text: str, old: str, new: str, function: Function | None) -> str:
    """What a source was turned to, with another text in the place of an old one that stands once in it, or in a function of it."""
    start, end = (function.start, function.end + len(text) - len(source)) if function else (0, len(text))
    if text.count(old, start, end) != 1:
        raise SystemExit(f"{name}: its old text stands {text.count(old, start, end)} times, not once: `{old}`")
    at = text.index(old, start)
    return text[:at] + new + text[at + len(old) :]


def span_between(source: str, turned: str) -> Span:
    """What differs between two texts, as a place in the first one and what the second has there."""
    start = len(os.path.commonprefix([source, turned]))
    rest = len(os.path.commonprefix([source[start:][::-1], turned[start:][::-1]]))
    return Span(start, len(source) - rest, turned[start : len(turned) - rest])
