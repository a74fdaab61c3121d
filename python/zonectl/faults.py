"""What is wrong with a file: the faults that the engine finds in it, and what lint finds.

`faults_of` is the one function that changes when libzonenorm has the call for every fault of a file and of those that it includes: today
the engine reports the first fault, and reads no included file.
"""
from __future__ import annotations

import dataclasses
import os
import re
from typing import Any, NamedTuple

from . import engine
from .entries import stated
from .errors import Refusal
from .texts import safe

COLUMNS = 200
NOTES = {  # of a fault that servers don't share
    11: "BIND and NSD refuse the zone, Knot loads it",
    21: "BIND, NSD and Knot load the zone, BIND with the TTL 0",
    40: "BIND and NSD refuse the zone, Knot loads it",
    41: "BIND, NSD and Knot load the zone and pick one TTL",
    43: "NSD refuses the zone, BIND and Knot load it",
}
OUTSIDE = 43


@dataclasses.dataclass(frozen=True, kw_only=True)
class Finding:
    """A fault, or what lint finds, with the fields that JSON has."""

    file: str
    line: int | None = None
    value: int | None = None  # of the `$GENERATE` whose line it is
    level: str = "error"
    fault: int | None = None
    rule: str | None = None
    name: str | None = None  # of the fault
    type: str | None = None
    field: str | None = None
    item: str | None = None
    text: str
    source: str | None = None  # the line of the file
    servers: list[str] = dataclasses.field(default_factory=list)  # those that refuse the zone, or load it with a warning
    does: str = ""  # `refused by` or `a warning of`, which JSON hasn't

    @property
    def title(self) -> str:
        """The rule, or the fault with its name."""
        return self.rule or f"F{self.fault} {self.name}"

    @property
    def body(self) -> str:
        """The text with its type, field, item and servers."""
        place = ", ".join(filter(None, (self.type, self.field)))
        text = f"{place}: {self.text}" if place else self.text
        if self.item is not None:
            text += f': "{self.item}"'
        if self.rule:
            return f"{text} ({self.does} {', '.join(self.servers)})"
        note = NOTES.get(self.fault or 0)
        is_too_great = self.fault != 21 or (self.item or "").isdigit()  # other TTLs are malformed
        return f"{text} ({note})" if note and is_too_great else text

    def object(self) -> dict[str, Any]:
        """Returns it as JSON has it."""
        return {name: it for name, it in vars(self).items() if name != "does"}

    def lines(self) -> str:
        """Returns it for people: with its place, and the source line."""
        place = self.file if self.line is None else f"{self.file}:{self.line}"
        if self.value is not None:
            place += f" value {self.value}"
        warning = "warning: " if self.level == "warning" else ""
        first = safe(f"{place}: {warning}{self.title}: {self.body}") + "\n"
        return first + f"{self.line:5d} | {safe(self.source[:COLUMNS])}\n" if self.line and self.source is not None else first

    def command(self, prefix: str) -> str:
        """Returns it as an annotation of GitHub's workflows."""
        path = os.path.normpath(os.path.join(prefix, self.file)) if prefix and "://" not in self.file else self.file
        place = f"file={_escaped(path, ':,')},line={self.line or 1},title={_escaped(self.title, ':,')}"
        return f"::{self.level} {place}::{_escaped(self.body)}\n"


def _escaped(text: str, more: str = "") -> str:
    return re.sub(f"[%\r\n{more}]", lambda it: f"%{ord(it[0]):02X}", safe(text))


class Checked(NamedTuple):
    """What a file comes to: its canonical text, or its faults; and the files that it includes, by their real paths."""

    text: bytes | None
    faults: list[Finding]
    are_more: bool = False
    included: frozenset[str] = frozenset()


def faults_of(octets: bytes, origin: str, file: str, most: int) -> Checked:
    """Returns the faults of a master file, at most so many."""
    try:
        return Checked(engine.canonical(octets, origin), [])
    except Refusal as refusal:
        text = refusal.text.partition(": ")[2]
        kind, part, rest = re.fullmatch(r"(?:([A-Z0-9-]+), ([^:]+): )?(.*)", text, re.S).groups()  # type: ignore[union-attr]
        line = refusal.line or _first_of(refusal, octets, origin)
        return Checked(None, [Finding(
            file=file, line=line, fault=refusal.fault, name=refusal.name, type=kind, field=part, text=rest,
            source=source_line(octets, line))])


def _first_of(refusal: Refusal, octets: bytes, origin: str) -> int:
    """Returns the line of a fault that is one of the whole file: of an owner outside the zone that owner's first line, else 1."""
    if refusal.fault == OUTSIDE:
        owner = refusal.text.split(" ", 2)[2].partition(": ")[0]
        return next((it.entry.line for it in stated(octets, origin) if it.owner == owner), 1)
    return 1


def source_line(octets: bytes, line: int) -> str:
    """Returns a line of a file, its tabs expanded."""
    return octets.split(b"\n", line)[line - 1].removesuffix(b"\r").decode("utf-8", "surrogateescape").expandtabs()
