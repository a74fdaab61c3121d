"""What servers don't read though the engine does: how a master file is written. And on which line a record is stated."""
from __future__ import annotations

import re
from collections.abc import Iterator

from . import engine
from .entries import Stated, stated
from .errors import Refusal
from .lint import Problem, Record
from .origin import SOA
from .types import in_the_text

ZERO = re.compile(rb"(?<![0-9A-Za-z])0\d")
ADDRESS, TEXT, HOSTS = 1, 16, (1, 28, 15)
LEADING = re.compile(rb"(?:.*\.)?0\d+(?:\..*)?", re.S)
NOT_ASCII = re.compile(rb"[\x80-\xff]")


def problems(octets: bytes, origin: str) -> Iterator[tuple[int, Problem]]:
    """Yields what the rules on spelling find, each with its line."""
    if not (ZERO.search(octets) or b"\r" in octets or not octets.isascii() or octets.upper().count(b"SOA") > 1):
        return
    soas, has_return = 0, b"\r" not in octets
    for it in stated(octets, origin):
        line, owner, soas = it.entry.line, it.owner or "", soas + (it.kind == SOA)
        if it.kind == ADDRESS and it.data and LEADING.fullmatch(it.data[0]):
            yield line, Problem("ipv4-leading-zero", owner, f"an address has a leading zero: \"{it.data[0].decode()}\"", [])
        if it.kind == SOA and soas == 2:
            yield line, Problem("soa-repeated", owner, "the SOA record is there again", [])
        if not has_return and b"\r" in re.sub(rb";[^\n]*", b"", it.entry.octets):
            has_return = True
            yield line, Problem("carriage-return", owner, "a line ends with a carriage return", [])
        if NOT_ASCII.search(it.owner_item) and it.kind in HOSTS:
            yield line, Problem("non-ascii-host", owner, "a host name has an octet over 127", [])
        elif any(map(NOT_ASCII.search, it.entry.items)):
            yield line, Problem("non-ascii", owner, "an octet over 127 isn't written as \\DDD", [])


class Places:
    """On which line of a file a record is first stated. It goes when the engine has a call that says so."""

    def __init__(self, octets: bytes, origin: str) -> None:
        self.by_owner: dict[str, list[Stated]] = {}
        self.found: dict[str, dict[tuple[str, str], int]] = {}
        for it in stated(octets, origin):
            if it.owner and it.kind is not None:
                self.by_owner.setdefault(it.owner, []).append(it)

    def last(self, records: list[Record]) -> int | None:
        """Returns the line of the record that comes last."""
        return max((line for owner, kind, data in records if (line := self._of(owner).get((kind, data)))), default=None)

    def _of(self, owner: str) -> dict[tuple[str, str], int]:
        if owner not in self.found:
            lines = self.found[owner] = {}
            for it in self.by_owner.get(owner, ()):
                lines.setdefault(_record(it), it.entry.line)
        return self.found[owner]


def _record(it: Stated) -> tuple[str, str]:
    """Returns the type and the RDATA of an entry as the engine prints them, its owner and its TTL left out."""
    head = f"$ORIGIN {it.origin}\n" + "$TTL 0\n. SOA . . 0 0 0 0 0\n" * (it.kind != SOA)
    try:
        text = engine.canonical(head.encode() + b"." * it.entry.is_blank + it.entry.octets, ".")
    except Refusal:
        return in_the_text(it.kind or 0), ""
    return in_the_text(it.kind or 0), text.decode().split("\n")[-2].split(" ", 4)[4]
