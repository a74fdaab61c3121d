"""Zones and their records."""
from __future__ import annotations

import os
import stat
from collections.abc import Iterator, Mapping
from typing import NamedTuple

from ._calls import MOST_OCTETS, TRANSFER, Buffer, changes, normalise, records
from ._errors import FileWanted


class Record(NamedTuple):
    """A record, with its fields as the canonical line has them.

    >>> print(Record("example.", 3600, "IN", "NS", "ns1.example."))
    example. 3600 IN NS ns1.example.
    """

    owner: str
    ttl: int
    rdclass: str
    rdtype: str
    rdata: str

    def __str__(self) -> str:
        return f"{self.owner} {self.ttl} {self.rdclass} {self.rdtype} {self.rdata}"


class Difference(NamedTuple):
    """The records that one zone has and another one lacks, both in canonical order. It is true if there are any."""

    removed: list[Record]
    added: list[Record]

    def __bool__(self) -> bool:
        return bool(self.removed or self.added)

    def __str__(self) -> str:
        return "".join(f"-{record}\n" for record in self.removed) + "".join(f"+{record}\n" for record in self.added)


def _record(line: str) -> Record:
    """Return the record of a canonical line."""
    owner, ttl, rdclass, rdtype, rdata = line.split(" ", 4)
    return Record(owner, int(ttl), rdclass, rdtype, rdata)


def _included(path: str) -> bytes:
    """Return the octets of an included file, which is a regular one."""
    if not stat.S_ISREG(os.stat(path).st_mode):
        raise OSError(f"{path} is no regular file")
    with open(path, "rb") as file:
        return file.read(MOST_OCTETS + 1)


class Zone:
    r"""A zone, which can't be changed: its canonical text and its records.

    Two zones are equal if and only if they are the same zone. Raises Refused, OriginError or MemoryError.

    >>> zone = Zone(b"$TTL 1h\n@ SOA ns1 hostmaster 7 2h 30m 2w 1h\n NS NS1\nns1 A 192.0.2.1\n", "example.")
    >>> zone
    <Zone example. serial 7, 3 records>
    >>> for record in zone.records("example.", "NS"):
    ...     print(record.ttl, record.rdata)
    3600 ns1.example.
    >>> Record("NS1.example.", 3600, "IN", "A", "192.0.2.1") in zone
    True
    >>> zone == Zone(zone.text, ".")
    True
    """

    __slots__ = ("_text", "_index")

    def __init__(
        self, data: Buffer, origin: str, *, words: bool = True, max_octets: int | None = None, files: Mapping[str, bytes] | None = None,
        directory: str = "",
    ) -> None:
        self._text = normalise(data, origin, words=words, max_octets=max_octets, files=files, directory=directory)
        self._index: dict[str, list[Record]] | None = None

    @classmethod
    def from_file(
        cls, path: str | os.PathLike[str], origin: str, *, directory: str | None = None, words: bool = True,
        max_octets: int | None = None,
    ) -> Zone:
        """Read a master file, and with a directory the files below it that the file includes. Raises OSError too."""
        with open(path, "rb") as file:
            data = file.read((max_octets or MOST_OCTETS) + 1)
        if directory is None:
            return cls(data, origin, words=words, max_octets=max_octets)
        files: dict[str, bytes] = {}
        while True:
            try:
                return cls(data, origin, max_octets=max_octets, files=files, directory=directory)
            except FileWanted as wanted:
                files |= {name: _included(name) for name in wanted.names}

    @classmethod
    def from_transfer(cls, data: Buffer, *, max_octets: int | None = None) -> Zone:
        """Read a zone transfer as it came over TCP, each message after its length of two octets."""
        return cls(data, TRANSFER, max_octets=max_octets)

    @property
    def text(self) -> bytes:
        """The canonical text."""
        return self._text

    @property
    def apex(self) -> str:
        """The owner of the SOA record."""
        return self._soa()[0]

    @property
    def rdclass(self) -> str:
        """The class of all records."""
        return self._soa()[2]

    @property
    def serial(self) -> int:
        """The serial of the SOA record."""
        return int(self._soa()[6])

    def records(self, owner: str, rdtype: str | None = None) -> list[Record]:
        """Return the records of an owner, of all types or of one.

        The owner ends with its dot, and its letters may be in either case. Raises ValueError if the final dot is missing.
        """
        if not owner.endswith("."):
            raise ValueError(f"{owner!r} is no absolute name: its final dot is missing")
        if self._index is None:
            index: dict[str, list[Record]] = {}
            for record in self:
                index.setdefault(record.owner, []).append(record)
            self._index = index
        found = self._index.get(owner.lower(), [])
        return [record for record in found if rdtype is None or record.rdtype == rdtype.upper()]

    def wire(self) -> bytes:
        """Return the records in canonical order, each as an uncompressed message has it (RFC 1035 3.2.1)."""
        return records(self._text, ".", words=False)

    def _soa(self) -> list[str]:
        return self._text[:self._text.index(b"\n")].decode("ascii").split(" ")

    def _lines(self) -> list[bytes]:
        return self._text.split(b"\n")[:-1]

    def __iter__(self) -> Iterator[Record]:
        return map(_record, self._text.decode("ascii").split("\n")[:-1])

    def __len__(self) -> int:
        return self._text.count(b"\n")

    def __contains__(self, record: object) -> bool:
        if not isinstance(record, Record) or not record.owner.endswith("."):
            return False
        return record._replace(owner=record.owner.lower()) in self.records(record.owner, record.rdtype)

    def __eq__(self, other: object) -> bool:
        if not isinstance(other, Zone):
            return NotImplemented
        return self._text == other._text

    def __hash__(self) -> int:
        return hash(self._text)

    def __sub__(self, other: Zone) -> list[Record]:
        """Return the records that the other zone lacks, in canonical order."""
        if not isinstance(other, Zone):
            return NotImplemented
        theirs = set(other._lines())
        return [_record(line.decode("ascii")) for line in self._lines() if line not in theirs]

    def __repr__(self) -> str:
        return f"<{type(self).__name__} {self.apex} serial {self.serial}, {len(self)} records>"


def _record_list(lines: bytes) -> list[Record]:
    """Return the records of canonical lines."""
    return [*map(_record, lines.decode("ascii").split("\n")[:-1])]


def diff(first: Zone, second: Zone, *, fold_names: bool = False) -> Difference:
    r"""Return the records that the second zone lacks (`removed`), and those that the first lacks (`added`).

    Data is compared octet by octet. The canonical text keeps the letters of names in the data of further types; with
    fold_names=True these are compared without regard to case (RFC 4343), and a record keeps its letters.

    Raises MemoryError.

    >>> zone = Zone(b"@ 60 SOA ns h 1 2 3 4 5\n@ 60 NS ns\n", "example.")
    >>> other = Zone(b"@ 60 SOA ns h 1 2 3 4 5\n@ 60 NS ns2\n", "example.")
    >>> print(diff(zone, other), end="")
    -example. 60 IN NS ns.example.
    +example. 60 IN NS ns2.example.
    >>> zone = Zone(b"@ 60 SOA ns h 1 2 3 4 5\nold 60 DNAME New\n", "example.")
    >>> other = Zone(b"@ 60 SOA ns h 1 2 3 4 5\nold 60 DNAME new\n", "example.")
    >>> bool(diff(zone, other)), bool(diff(zone, other, fold_names=True))
    (True, False)
    """
    removed, added = changes(first.text, second.text, fold_names)
    return Difference(_record_list(removed), _record_list(added))
