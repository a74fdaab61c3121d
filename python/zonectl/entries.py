"""The entries of a master file as they are written (RFC 1035 5.1): a small lexer, for what the engine doesn't say of a file."""
from __future__ import annotations

import re
from collections.abc import Iterator
from typing import NamedTuple

from .names import absolute
from .types import type_number

# An entry's parts outside quotes: what is skipped, an item, a parenthesis, a line feed.
TOKEN = re.compile(rb'([ \t\r]+)|(;[^\n]*)|"((?:[^"\\]|\\.)*)"|((?:[^ \t\r\n;()"\\]|\\.)+)|([()])|(\n)', re.S)
TTL = re.compile(rb"\d[\dwdhms]*", re.I)
CLASS = re.compile(rb"IN|CS|CH|HS|CLASS\d+", re.I)
ABSOLUTE = re.compile(r"(?:[^\\]|\\.)*\.", re.S)  # it ends with a dot that isn't escaped
OVER_127 = re.compile(rb"\\?[\x80-\xff]")
INCLUDE = b"$INCLUDE"


class Entry(NamedTuple):
    """An entry. A directive's first item begins with `$`."""

    line: int  # on which it begins, from 1
    is_blank: bool  # it begins with a blank, and so it omits its owner
    items: list[bytes]  # quotes are left
    octets: bytes


class Stated(NamedTuple):
    """An entry of a record, or an `$INCLUDE`."""

    entry: Entry
    owner_item: bytes  # none if no owner was stated before
    owner_origin: str | None  # under which the owner was stated
    origin: str | None  # under which its data is
    kind: int | None  # the number of its type; None if it states none that is known
    data: list[bytes]

    @property
    def owner(self) -> str | None:
        """The owner as the engine prints it; None if it isn't absolute."""
        return under(self.owner_item, self.owner_origin)


def entries(octets: bytes) -> Iterator[Entry]:
    """Yields the entries up to the first octet that fits none."""
    items: list[bytes] = []
    depth, is_blank, line, first, begin = 0, False, 1, 1, 0
    for token in TOKEN.finditer(octets):
        blank, comment, quoted, item, parenthesis, feed = token.groups()
        if token.start() == begin:
            is_blank, first = blank is not None, line
        if item is not None:
            items.append(item)
        elif quoted is not None:
            items.append(b'"' + quoted + b'"')
            line += quoted.count(b"\n")
        elif parenthesis is not None:
            depth += 1 if parenthesis == b"(" else -1
        elif feed is not None:
            line += 1
            if depth <= 0:
                if items:
                    yield Entry(first, is_blank, items, octets[begin : token.end()])
                items, depth, begin = [], 0, token.end()
    if items:
        yield Entry(first, is_blank, items, octets[begin:])


def stated(octets: bytes, origin: str | None) -> Iterator[Stated]:
    """Yields the entries of records, with what holds where they are."""
    owner, owner_origin = b"", origin
    for it in entries(octets):
        directive = b"" if it.is_blank else it.items[0].upper()
        if directive == b"$ORIGIN":
            origin = under(it.items[1], origin) if len(it.items) > 1 else None
        elif directive == INCLUDE:
            yield Stated(it, INCLUDE, None, origin, None, it.items[1:])
        elif not directive.startswith(b"$"):
            if not it.is_blank:
                owner, owner_origin = it.items[0], origin
            yield Stated(it, owner, owner_origin, origin, *_typed(it.items if it.is_blank else it.items[1:]))


def _typed(items: list[bytes]) -> tuple[int | None, list[bytes]]:
    """Returns the type of the items after an owner, and its data: a TTL and a class may come before the type."""
    for at, item in enumerate(items[:3]):
        if not TTL.fullmatch(item) and not CLASS.fullmatch(item):
            try:
                return type_number(item.decode("ascii")), items[at + 1 :]
            except ValueError:
                break
    return None, []


def under(item: bytes, origin: str | None) -> str | None:
    """Returns the name that an item states under an origin; None if it isn't absolute."""
    try:
        text = OVER_127.sub(lambda it: b"\\%03d" % it[0][-1], item).decode("ascii")
        if text == "@":
            return origin
        if not ABSOLUTE.fullmatch(text):
            return absolute(f"{text}." if origin == "." else f"{text}.{origin}") if origin else None
        return absolute(text)
    except ValueError:
        return None
