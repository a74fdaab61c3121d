"""The difference of two copies of a zone, RRset by RRset."""
from __future__ import annotations

from collections.abc import Iterable, Iterator
from dataclasses import dataclass, field
from itertools import groupby

from . import engine
from .folding import FOLDED, folded
from .names import canonical_order
from .types import OF_SIGNERS, in_the_text, type_number
from .types import OF_THE_TEXT as TYPES
from .zones import Copy

SOA_FIELDS = ("mname", "rname", "serial", "refresh", "retry", "expire", "minimum")
RRSIG = "TYPE46"
Row = tuple[str, str, str]  # TTL, type and RDATA in presentation format


@dataclass(frozen=True)
class Ignored:
    """What a comparison leaves out."""

    names: tuple[str, ...] = ()  # as the command line has them
    serial: bool = False
    ttl: bool = False
    types: frozenset[bytes] = frozenset()  # as the canonical text has them


def ignored(text: str) -> Ignored:
    """Returns what a LIST leaves out: serial, ttl, dnssec or types. Raises ValueError."""
    names = tuple(it for it in text.split(",") if it)
    types: set[int] = set()
    for name in names:
        if name == "dnssec":
            types |= OF_SIGNERS
        elif name not in ("serial", "ttl"):
            types.add(type_number(name))
    return Ignored(names, "serial" in names, "ttl" in names, frozenset(in_the_text(it).encode() for it in types))


@dataclass
class RRset:
    """An RRset that differs. TTLs are None on the side that has no such RRset. Lines are those of the canonical text."""

    owner: str
    kind: str  # as the canonical text has it
    covered: int | None  # of RRSIG, the type covered
    sample: bytes  # one of its lines
    removed: list[bytes] = field(default_factory=list)
    added: list[bytes] = field(default_factory=list)
    ttl_a: int | None = None
    ttl_b: int | None = None
    is_ttl_changed: bool = False  # both sides have it, with two TTLs, which aren't ignored
    shown: str = ""  # the type in presentation format
    covered_shown: str | None = None
    gone: list[Row] = field(default_factory=list)  # removed and added in presentation format
    come: list[Row] = field(default_factory=list)


@dataclass
class Difference:
    """What differs between two copies."""

    a: Copy
    b: Copy
    is_exact: bool
    ignored: Ignored
    rrsets: list[RRset]
    only_a: int = 0
    only_b: int = 0
    other_case: int = 0  # records that differ by letters of names in RDATA alone

    @property
    def is_alarm(self) -> bool:
        """Whether other data is under one serial, so that no secondary will notice."""
        return bool(self.rrsets) and self.a.serial == self.b.serial

    @property
    def order(self) -> str:
        """How the serial of B is to that of A by RFC 1982: equal, newer, older or unordered."""
        ahead = (self.b.serial - self.a.serial) % (1 << 32)
        return "equal" if not ahead else "unordered" if ahead == 1 << 31 else "newer" if ahead < 1 << 31 else "older"


class Sides:
    """How lines of two copies compare."""

    def __init__(self, is_exact: bool, ignored: Ignored) -> None:
        self.is_exact, self.ignored = is_exact, ignored

    def apart(self, a: Copy, b: Copy) -> tuple[list[list[bytes]], list[list[bytes]]]:
        """Returns of each side the lines that the other hasn't, and all lines of their owners; without types that are ignored."""
        types = self.ignored.types
        lines = [[line for line in it.text.split(b"\n")[:-1] if not types or line.split(b" ", 4)[3] not in types] for it in (a, b)]
        sets = [set(it) for it in lines]
        rest = [[line for line in lines[at] if line not in sets[1 - at]] for at in (0, 1)]
        owners = {it.split(b" ", 1)[0] for side in rest for it in side}
        return rest, [[it for it in side if it.split(b" ", 1)[0] in owners] for side in lines]

    def alone(self, rest: list[list[bytes]], near: list[list[bytes]]) -> Iterator[list[bytes]]:
        """Yields of each side the lines to which none of the other is equal here."""
        for at in (0, 1):
            equal = set(map(self.key, near[1 - at]))
            yield [it for it in rest[at] if self.key(it) not in equal]

    def key(self, line: bytes) -> bytes:
        """Returns what is equal for two lines that are equal here."""
        ignored = self.ignored
        if not self.is_exact and line.split(b" ", 4)[3] in FOLDED:
            line = folded(line)
        if ignored.serial or ignored.ttl:
            items = line.split(b" ", 7)
            if ignored.ttl:
                items[1] = b"-"
            if ignored.serial and items[3] == b"SOA":
                items[6] = b"-"
            line = b" ".join(items)
        return line


def difference_of(a: Copy, b: Copy, is_exact: bool, ignored: Ignored) -> Difference:
    """Returns what differs. Equal texts are compared as bytes."""
    found = Difference(a, b, is_exact, ignored, [])
    if a.text == b.text:
        return found
    sides = Sides(is_exact, ignored)
    rest, near = sides.apart(a, b)
    alone: list[dict[bytes, bytes]] = [{}, {}]  # each line once
    for found_alone, lines in zip(alone, sides.alone(rest, near)):
        for line in lines:
            found_alone.setdefault(sides.key(line), line)
    if not is_exact:
        found.other_case = _of_other_case(rest[0], near[1], sides)
    found.rrsets = _rrsets(alone[0].values(), alone[1].values(), near)
    for it in found.rrsets:
        found.only_a += len(it.removed)
        found.only_b += len(it.added)
        if not ignored.ttl and None not in (it.ttl_a, it.ttl_b) and it.ttl_a != it.ttl_b:
            _change_ttl(it, sides)
    _present(found.rrsets)
    return found


def _of_other_case(lines: list[bytes], near: list[bytes], sides: Sides) -> int:
    """Returns how many lines are equal to one of the other side by folding alone."""
    exact = Sides(True, sides.ignored)
    spelt, equal = {exact.key(it) for it in near}, {sides.key(it) for it in near}
    return sum(exact.key(it) not in spelt and sides.key(it) in equal for it in lines)


def rrset_of(line: bytes) -> tuple[str, str, int | None]:
    """Returns the owner, the type and of RRSIG the type covered of a canonical line."""
    owner, _, _, kind, data = line.decode("ascii").split(" ", 4)
    items = data.split(" ")
    covered = int(items[2][:4], 16) if kind == RRSIG and items[0] == "\\#" and len(items) > 2 and len(items[2]) >= 4 else None
    return owner, kind, covered


def _rrsets(removed: Iterable[bytes], added: Iterable[bytes], near: list[list[bytes]]) -> list[RRset]:
    """Returns the RRsets of lines, in canonical order, with the TTLs of both sides."""
    found: dict[tuple[str, str, int | None], RRset] = {}
    for name, lines in (("removed", removed), ("added", added)):
        for line in lines:
            getattr(found.setdefault(rrset_of(line), RRset(*rrset_of(line), line)), name).append(line)
    owners = {name: canonical_order(name) for name in {it.owner for it in found.values()}}
    for at, side in enumerate(near):
        for line in side:
            it = found.get(rrset_of(line))
            if it:
                setattr(it, "ttl_b" if at else "ttl_a", int(line.split(b" ", 2)[1]))
    return sorted(
        found.values(), key=lambda it: (it.kind != "SOA", owners[it.owner], TYPES.get(it.kind) or int(it.kind[4:]), it.covered or 0))


def _change_ttl(it: RRset, sides: Sides) -> None:
    """Takes out of an RRset with another TTL the records whose data both sides have."""
    it.is_ttl_changed = True
    if it.kind == "SOA":
        return
    data = [{sides.key(line).split(b" ", 2)[2]: line for line in side} for side in (it.removed, it.added)]
    it.removed = [line for key, line in data[0].items() if key not in data[1]]
    it.added = [line for key, line in data[1].items() if key not in data[0]]


def _present(rrsets: list[RRset]) -> None:
    """Puts RRsets in presentation format, by one call for all."""
    lines = b"".join(line + b"\n" for it in rrsets for line in (it.sample, *it.removed, *it.added))
    rows = ((ttl, kind, data) for _, ttl, _, kind, data in engine.presented(lines))
    for it in rrsets:
        _, it.shown, data = next(rows)
        it.gone, it.come = [next(rows) for _ in it.removed], [next(rows) for _ in it.added]
        if it.covered is not None:
            it.covered_shown = data.split(" ", 1)[0] if it.shown == "RRSIG" else f"TYPE{it.covered}"


def soa_changes(it: RRset) -> list[tuple[str, str, str]]:
    """Returns the fields of an SOA that differ, each with both values."""
    if not it.removed or not it.added:
        return []
    one, other = (line.decode("ascii").split(" ") for line in (it.removed[0], it.added[0]))
    changes = [("TTL", one[1], other[1])] + list(zip(SOA_FIELDS, one[4:], other[4:]))
    return [it for it in changes if it[1] != it[2]]


def by_owner(rrsets: Iterable[RRset]) -> Iterable[tuple[str, list[RRset]]]:
    """Yields owners with their RRsets that differ."""
    return ((owner, list(those)) for owner, those in groupby(rrsets, lambda it: it.owner))
