"""Transfers with RP, AFSDB and the other types of fault F33, whose RDATA may hold compressed names (RFC 3597 4).

The engine doesn't read them in transfers. They are written as a master file in the generic form, every name expanded, which it does
read. What isn't a whole transfer, or isn't as RFC 5936 has it, isn't decoded.
"""
from __future__ import annotations

import struct
from collections.abc import Iterator
from typing import NamedTuple

from .bounds import MOST_OCTETS
from .folding import NAMES
from .messages import AXFR, SOA, Malformed, after_questions, expanded_name, question, records
from .names import shown_name
from .types import TYPES

OF_F33 = {number: name for name, number in TYPES.items() if number in (3, 4, 7, 8, 9, 14, 17, 18, 21, 24, 26, 30)}
# Of each type whose names may be compressed the octets before its names, and how many names there are; NAPTR is apart.
PLACES = {number: NAMES[number] for number in OF_F33} | {2: (0, 1), 5: (0, 1), SOA: (0, 2), 12: (0, 1), 15: (2, 1), 33: (6, 1)}
REST = {SOA: 20, 24: None, 30: None}  # the octets after the names; None for any
NAPTR = 35


class Decoded(NamedTuple):
    """A master file, and the types for which it was needed."""

    text: bytes
    types: list[str]


class Record(NamedTuple):
    """A record with its names expanded."""

    owner: bytes
    kind: int
    rdclass: int
    ttl: int
    data: bytes

    def line(self) -> str:
        """Returns the record in the generic form (RFC 3597 5)."""
        name = shown_name(self.owner)
        return f"{name} {self.ttl} CLASS{self.rdclass} TYPE{self.kind} \\# {len(self.data)} {self.data.hex()}\n"


def master_file(octets: bytes) -> Decoded | None:
    """Returns a transfer as a master file; None where it isn't one, or another fault is in it."""
    lines: list[str] = []
    size, kinds = 0, set()
    first: Record | None = None
    is_closed = False
    try:
        for record in _records(octets):
            is_again = record.kind == SOA and first is not None
            if is_closed or (first or record).kind != SOA or is_again and record != first or size > MOST_OCTETS:
                return None
            first, is_closed = first or record, is_again
            lines.append(record.line())
            size += len(lines[-1])
            kinds.add(record.kind)
    except (IndexError, struct.error, Malformed):
        return None
    names = [name for number, name in OF_F33.items() if number in kinds]
    return Decoded("".join(lines).encode("ascii"), names) if is_closed else None


def _records(octets: bytes) -> Iterator[Record]:
    """Yields the records of a stream. Raises IndexError, struct.error or Malformed at what isn't right."""
    at, ident = 0, octets[2:4]
    asked: tuple[bytes, int, int] | None = None
    first: Record | None = None
    while at < len(octets):
        (length,) = struct.unpack_from("!H", octets, at)
        message = octets[at + 2 : at + 2 + length]
        if len(message) != length or message[:2] != ident or message[2] & 0xFA != 0x80 or message[3] & 15:
            raise Malformed("a message isn't one of this transfer")
        at += 2 + length
        asked = question(message) or asked
        for record in answers(message):
            first = first or record
            if asked and asked != (first.owner.lower(), AXFR, first.rdclass):
                raise Malformed("question and zone don't agree")
            yield record


def answers(message: bytes) -> Iterator[Record]:
    """Yields the answers of a message. A TSIG record may follow them."""
    end = after_questions(message)
    for begin, section, kind in records(message, 3):
        owner, at = expanded_name(message, begin)
        _, rdclass, ttl, length = struct.unpack_from("!HHIH", message, at)
        end = at + 10 + length
        if section == 2 or end > len(message):
            raise Malformed("the records don't fit a transfer")
        if section == 1:
            yield Record(owner, kind, rdclass, ttl, _data(message, kind, at + 10, end))
    if end != len(message):
        raise Malformed("octets follow the last record")


def _data(message: bytes, kind: int, begin: int, end: int) -> bytes:
    """Returns RDATA with its names expanded."""
    if kind == NAPTR:
        at = begin + 4
        for _ in range(3):
            at += 1 + message[at]
        before, count = at - begin, 1
    elif kind in PLACES:
        before, count = PLACES[kind]
    else:
        return message[begin:end]
    data, at = message[begin : begin + before], begin + before
    for _ in range(count):
        name, at = expanded_name(message, at)
        data += name
    rest = REST.get(kind, 0)
    if at > end or rest is not None and end - at != rest:
        raise Malformed("the data doesn't fit its type")
    return data + message[at:end]
