"""Copies of zones: a source is read, its origin found, and the engine asked for its canonical text."""
from __future__ import annotations

from collections.abc import Callable, Iterator
from dataclasses import dataclass

from . import engine, origin
from .errors import Refusal, Undone, about
from .names import class_name
from .reading import Access, Read, from_descriptor, from_path, read
from .sources import File, Git, Server, Source, Web


class Copy:
    """A copy of a zone. `source` is the argument that names it."""

    def __init__(self, source: str, text: bytes, is_transfer: bool = False, decoder: str = "engine") -> None:
        self.source, self.text, self.is_transfer, self.decoder = source, text, is_transfer, decoder
        self.soa = text[: text.index(b"\n")].decode("ascii").split(" ")
        self.apex, self.rdclass, self.serial, self.records = self.soa[0], self.soa[2], int(self.soa[6]), text.count(b"\n")


@dataclass(frozen=True)
class Reader:
    """How sources become copies. `origin` and `origin_from` are the options; `warn` takes a source and a text."""

    access: Access
    origin: str | None = None
    origin_from: str | None = None
    require_zonemd: bool = False
    warn: Callable[[str, str], object] = lambda source, text: None

    def copy(self, source: Source, fallback: str | None = None) -> Copy:
        """Reads a source. `fallback` is the origin of a file without evidence. Raises Failure."""
        with about(source.text):
            return self.judged(source, read(source, self.access), fallback)

    def pair(self, first: Source, second: Source) -> tuple[Copy, Copy]:
        """Reads two sources of one zone. Files come before servers, which aren't asked for another zone. Raises Failure."""
        sides = first, second
        urls = [it.zone if isinstance(it, Server) else None for it in sides]
        zones, copies = [*urls], {}
        for at in sorted((0, 1), key=lambda at: urls[at] is not None):
            _must_be_one(sides, zones)
            copies[at] = self.copy(sides[at], urls[1 - at])
            zones[at] = copies[at].apex
        _must_be_one(sides, zones)
        one, other = copies[0], copies[1]
        if one.rdclass != other.rdclass:
            raise Undone(f"{first.text} is of class {one.rdclass}, {second.text} of class {other.rdclass}: nothing to compare")
        return one, other

    def judged(self, source: Source, it: Read, fallback: str | None = None) -> Copy:
        """Returns what was read as a copy. Raises Failure."""
        if it.is_transfer:
            copy = self._of_transfer(source, it)
            if self.require_zonemd and not (found := engine.verify(copy.text)).is_verified:
                raise Refusal("; ".join(found.lines()).replace("; not verified:", ";"))
            return copy
        if it.has_mark:
            self.warn(source.text, "a byte order mark is skipped, for which servers refuse the file")
        name = self.origin_of(source, it.octets, fallback)
        return self.under(source, engine.canonical(it.octets, name), name)

    def under(self, source: Source, text: bytes, name: str) -> Copy:
        """Returns the canonical text of a file as a copy. Its apex has to be the origin, if that wasn't given. Raises Undone."""
        copy = Copy(source.text, text)
        if copy.apex != name:
            wrong = f"its SOA record is that of {copy.apex}, not of {name}"
            if not self.origin:
                raise Undone(f"{wrong}; give --origin NAME")
            self.warn(source.text, wrong)
        return copy

    def lines(self, path: str) -> Iterator[tuple[int, str]]:
        """Yields the lines of a list with their numbers, without empty ones and comments (`#`). `-` is standard input. Raises Failure."""
        with about(path):
            octets = from_descriptor(0, self.access.limits) if path == "-" else from_path(path, self.access.limits)
        for number, line in enumerate(octets.decode("utf-8", "surrogateescape").split("\n"), 1):
            if line.strip() and not line.startswith("#"):
                yield number, line

    def _of_transfer(self, source: Source, it: Read) -> Copy:
        copy = self._transferred(source, it.octets)
        if isinstance(source, Server):
            if copy.apex != source.zone:
                raise Undone(f"the server sent the zone {copy.apex}")
            if copy.rdclass != class_name(source.class_number):
                raise Undone(f"the server sent class {copy.rdclass}")
        elif self.origin and self.origin != copy.apex:
            self.warn(source.text, f"it is a transfer of {copy.apex}, not of {self.origin}")
        return copy

    def _transferred(self, source: Source, octets: bytes) -> Copy:
        """Returns a transfer. One with a type that the engine doesn't read in transfers (F33) is decoded here."""
        try:
            return Copy(source.text, engine.canonical(octets), is_transfer=True)
        except Refusal as refusal:
            if refusal.fault != engine.COMPRESSIBLE:
                raise
            from .decoding import master_file

            found = master_file(octets)
            if not found:
                raise
        try:
            text = engine.canonical(found.text, ".")
        except Refusal as refusal:
            refusal.line = None  # that of a text that nobody sees
            raise
        self.warn(source.text, f"decoded by zonectl: {', '.join(found.types)}")
        return Copy(source.text, text, is_transfer=True, decoder="zonectl")

    def origin_of(self, source: Source, octets: bytes, fallback: str | None = None) -> str:
        """Returns the origin of a file. Raises Undone."""
        if self.origin:
            return self.origin
        name, text = origin.by_name(path_of(source)), origin.by_text(octets)
        return fallback if fallback and not name and not text else origin.decided(name, text, self.origin_from)


def file_name(apex: str) -> str:
    """Returns the name of a zone as that of a file. It has no `/`, and isn't `..`, since no label is empty."""
    return apex.removesuffix(".").replace("/", "_") or "root"


def path_of(source: Source) -> str:
    """Returns the path whose last part may name the zone."""
    match source:
        case File(path=path) | Git(path=path):
            return path
        case Web(url=url):
            import urllib.parse

            return urllib.parse.unquote(urllib.parse.urlsplit(url).path, "latin-1")
    return ""


def _must_be_one(sides: tuple[Source, Source], zones: list[str | None]) -> None:
    """Raises Undone if two sources are of two zones, as far as these are known."""
    if None not in zones and zones[0] != zones[1]:
        raise Undone(f"{sides[0].text} is the zone {zones[0]}, {sides[1].text} the zone {zones[1]}: nothing to compare")
