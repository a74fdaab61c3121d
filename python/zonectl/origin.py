"""Which zone a master file is of, by its name and by its text."""
from __future__ import annotations

import re

from .entries import INCLUDE, stated
from .errors import Undone
from .names import absolute

SEARCHED = 4 << 20
HOST_LABEL = r"[A-Za-z0-9_-]{1,63}"
FILE_NAME = re.compile(r"(?:db\.(?P<after>.+)|(?P<before>.+)\.(?:zone|db))")
ZONE_NAME = re.compile(rf"(?:{HOST_LABEL}\.)+(?=[^.]*[A-Za-z]){HOST_LABEL}")
# Last labels that say which copy a file is, more often than which zone.
GUESSES = frozenset("internal external signed unsigned old new orig bak local lan view in out".split())
SOA, SOA_WORD = 6, re.compile(rb"SOA|TYPE6", re.I)


def decided(name: str | None, text: str | None, preferred: str | None) -> str:
    """Returns the origin, of the zones that the name of a file and its text name. Raises Undone.

    `preferred` settles a disagreement: `name` or `text`.
    """
    if text and (not name or text == name or text.replace("/", "_") == name):
        return text
    if name and text:
        if not preferred:
            raise Undone(f"its name says {name}, its text says {text}; give --origin NAME or --origin-from name|text")
        return name if preferred == "name" else text
    if not name:
        raise Undone("neither its name nor its text says which zone it is; give --origin NAME")
    if is_guess(name) and preferred != "name":
        raise Undone(f"its name alone says {name}, which is a guess; give --origin NAME or --origin-from name")
    return name


def is_guess(name: str) -> bool:
    """Whether the name of a file alone doesn't say that its zone has this name."""
    labels = name.rstrip(".").split(".")
    return labels[-1] in GUESSES or labels[-1] == "arpa" and "_" in name


def by_name(path: str) -> str | None:
    """Returns the zone that the last part of a path or URL names: `NAME.zone`, `NAME.db` or `db.NAME`.

    >>> by_name("zones/example.org.zone.signed"), by_name("db.127"), by_name("first.zone")
    ('example.org.', None, None)
    """
    last = path.rpartition("/")[2].removesuffix(".gz").removesuffix(".signed")
    found = FILE_NAME.fullmatch(last)
    if not found:
        return None
    names = [it for it in (found["after"], found["before"]) if it and ZONE_NAME.fullmatch(it)]
    try:
        return absolute(names[0]) if names else None
    except ValueError:
        return None


def by_text(octets: bytes) -> str | None:
    """Returns the owner of the first SOA record, if that is absolute by itself or by an absolute `$ORIGIN` before it.

    It is looked for in the first 4 MiB, since this isn't the engine, and a zone's SOA comes first.
    """
    octets = octets[:SEARCHED]
    if not SOA_WORD.search(octets):
        return None
    for it in stated(octets, None):
        if it.owner_item == INCLUDE or it.kind == SOA:
            return it.owner if it.kind == SOA and it.owner_item.isascii() else None
    return None


def has_soa(octets: bytes) -> bool:
    """Whether octets have an entry with type SOA."""
    return bool(SOA_WORD.search(octets)) and any(it.kind == SOA for it in stated(octets, None))
