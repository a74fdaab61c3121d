"""The difference of two copies as commands for nsupdate (RFC 2136), in parts after each of which the zone serves.

1. Addresses are added. 2. Owners that lose a CNAME change. 3. All else is added, name servers of the apex first, and RRsets change that
get another TTL or DNAME. 4. Name servers are deleted, after the new ones came. 5. Owners that get a CNAME change. 6. All else is
deleted. 7. Addresses are deleted. Last, the SOA.

An owner with a CNAME has nothing beside it, an owner has one DNAME (TYPE39), and an RRset has one TTL. So what changes of such an owner
or RRset is deleted and added in one part.
"""
from __future__ import annotations

from collections.abc import Callable
from dataclasses import dataclass

from .difference import Difference, Sides
from .errors import Undone
from .zones import Copy

MOST = 64_000  # octets of a part, which a message of 65,535 holds
ADDRESSES = ("A", "AAAA")
DNAME = "TYPE39"


@dataclass(frozen=True)
class Line:
    """A canonical line in its parts."""

    text: str
    owner: str
    ttl: int
    kind: str
    key: str  # without its TTL

    @classmethod
    def of(cls, line: bytes) -> Line:
        """Returns the parts of a line."""
        text = line.decode("ascii")
        owner, ttl, rest = text.split(" ", 2)
        return cls(text, owner, int(ttl), rest.split(" ", 2)[1], f"{owner} {rest}")


class Plan:
    """The commands by rank; those of one unit belong into one part. Made of the lines that differ, without the SOA."""

    def __init__(self, gone: list[Line], come: list[Line], ttls: list[dict[tuple[str, str], int]]) -> None:
        self.ranks: list[dict[str, list[str]]] = [{} for _ in range(8)]
        self.gone, self.come, self.ttls = gone, come, ttls
        self.lost = {it.owner for it in gone if it.kind == "CNAME"}
        self.got = {it.owner for it in come if it.kind == "CNAME"}
        self.both = {it.owner for it in gone} & {it.owner for it in come}

    def put(self, rank: int, line: Line, command: str) -> None:
        """Adds a command at a rank, or where what its owner or RRset changes belongs together."""
        at, unit = (line.owner, line.kind), command
        old, new = (ttls.get(at) for ttls in self.ttls)
        if line.owner in self.both and line.owner in self.lost | self.got:
            rank, unit = 5 if line.owner in self.got else 2, line.owner
        elif None not in (old, new) and (old != new or line.kind == DNAME):
            rank, unit = 3, " ".join(at)
        self.ranks[rank].setdefault(unit, []).append(f"update {command}\n")


def _plan(a: Copy, b: Copy, sides: Sides) -> Plan:
    rest, near = sides.apart(a, b)
    gone, come = ([it for it in map(Line.of, side) if it.kind != "SOA"] for side in sides.alone(rest, near))
    plan = Plan(gone, come, [{(it.owner, it.kind): it.ttl for it in map(Line.of, side)} for side in near])
    deleted, of_apex = {it.key for it in gone}, (a.apex, "NS")
    for it in come:
        if (it.owner, it.kind) == of_apex:
            plan.put(3, it, f"add {it.text}")
    for it in gone:
        plan.put(4 if it.kind == "NS" else 7 if it.kind in ADDRESSES else 6, it, f"delete {it.key}")
    for it in come:
        if (it.owner, it.kind) != of_apex or it.key in deleted:  # which would take a new TTL's record along
            plan.put(1 if it.kind in ADDRESSES else 3, it, f"add {it.text}")
    return plan


def _size(commands: list[str]) -> int:
    """Returns octets that commands take at most in a message."""
    return sum(len(it) + 24 for it in commands)


def parts_of(found: Difference, note: Callable[[str], object]) -> list[str]:
    """Returns the parts, each from `zone` to `send`; none for equal zones. `note` gets what is left out. Raises Undone."""
    a, b, sides = found.a, found.b, Sides(found.is_exact, found.ignored)
    parts: list[list[str]] = []
    taken = 0

    def write(commands: list[str]) -> None:
        nonlocal taken
        size = _size(commands)
        if not parts or taken + size > MOST:
            parts.append([])
            taken = 0
        taken += size
        parts[-1].extend(commands)

    for units in _plan(a, b, sides).ranks:
        for unit, commands in units.items():
            if _size(commands) > MOST:
                raise Undone(f"no message holds what changes at once: {unit}")
            write(commands)
    if len({sides.key(" ".join(it.soa).encode()) for it in (a, b)}) > 1:
        soa = f"update add {' '.join(b.soa)}\n"
        raised = len(parts) - bool(parts and taken + _size([soa]) <= MOST)
        has_by_then = (a.serial + raised) % (1 << 32)
        if 0 < (b.serial - has_by_then) % (1 << 32) < 1 << 31:
            write([soa])
        else:
            note(f"the SOA is left out: its serial {b.serial} isn't above {has_by_then}, which the server has by then")
    return [f"zone {a.apex}\n{''.join(commands)}send\n" for commands in parts]
