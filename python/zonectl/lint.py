"""What servers refuse to load, or load with a warning, though it is a zone.

Seen with BIND 9.18.49, NSD 4.6.1 and Knot 3.2.6, a zone a rule, as a primary with default settings.
"""
from __future__ import annotations

import re
from collections.abc import Iterable, Iterator
from functools import cached_property
from typing import NamedTuple

from .names import LABEL
from .zones import Copy

SERVERS = ("BIND", "NSD", "Knot")
RULES = {  # what these do: R refuses the zone, w loads it with a warning, - neither
    "cname-and-other": "RRR", "cname-twice": "RRR", "dname-twice": "RRR", "cname-at-apex": "RRR", "ipv4-leading-zero": "RRR",
    "byte-order-mark": "RRR", "no-apex-ns": "R-w", "ns-no-address": "R-w", "ns-is-cname": "R-w", "host-name": "R--", "ds-at-apex": "R--",
    "wildcard-ns": "R--", "ds-digest-length": "R-w", "sshfp-length": "Rw-", "below-dname": "-RR", "soa-repeated": "-R-",
    "carriage-return": "--R", "non-ascii": "--R", "non-ascii-host": "R-R", "missing-glue": "w-w", "mx-is-cname": "w--",
    "mx-no-address": "w--", "mx-address": "w--", "srv-is-cname": "w--", "ns-address": "w--",
}
HOST = re.compile(r"(?:(?:[a-z0-9](?:[a-z0-9-]*[a-z0-9])?\.)+|\.)")
CNAME, DNAME, DS, SSHFP = "CNAME", "TYPE39", "TYPE43", "TYPE44"
BESIDE_CNAME = frozenset((CNAME, "TYPE46", "TYPE47", "TYPE25"))  # RRSIG, NSEC and KEY
OF_NSEC3 = frozenset(("TYPE50", "TYPE46"))  # whose owners are no names of the zone
DIGESTS = {DS: (3, 4, "digest", {1: 20, 2: 32, 4: 48}), SSHFP: (1, 2, "fingerprint", {1: 20, 2: 32})}
ADDRESS = re.compile(r"(?:(?:25[0-5]|2[0-4]\d|1\d\d|[1-9]?\d)\.){4}", re.A)  # at the beginning of a name
REVERSE = re.compile(r"(?:.+\.)?(?:in-addr|ip6)\.arpa\.")
TARGETS = {"NS": ("name server", 0), "MX": ("mail server", 1), "SRV": ("target", 3), "PTR": ("target", 0)}
Record = tuple[str, str, str]  # owner, type and RDATA of a canonical line
OF_ADDRESSES = frozenset(("A", "AAAA"))


class Problem(NamedTuple):
    """What a rule finds: records that it is about, of which the last in the file is its place."""

    rule: str
    owner: str
    text: str
    records: list[Record]


def judged(rule: str, named: Iterable[str] | None) -> tuple[str, list[str]] | None:
    """Returns the level of a rule for the servers named, and which ones have it; None if they load the zone.

    If none is named, that is an error which all have.
    """
    if named is None:
        return ("error", list(SERVERS)) if RULES[rule] == "RRR" else None
    for level, letter in (("error", "R"), ("warning", "w")):
        servers = [server for server, does in zip(SERVERS, RULES[rule]) if does == letter]
        if set(servers) & set(named):
            return level, servers
    return None


class Names:
    """The records of a zone by their names."""

    def __init__(self, copy: Copy) -> None:
        self.apex = copy.apex
        self.types: dict[str, dict[str, list[str]]] = {}
        for line in copy.text.decode("ascii").split("\n")[:-1]:
            owner, _, _, kind, data = line.split(" ", 4)
            self.types.setdefault(owner, {}).setdefault(kind, []).append(data)

    def records(self, owner: str, *kinds: str) -> list[Record]:
        """Returns the records of an owner of some types, or of all."""
        return [(owner, kind, it) for kind, data in self.types[owner].items() if not kinds or kind in kinds for it in data]

    @cached_property
    def _every(self) -> frozenset[str]:
        return frozenset(above for owner in self.types for above in (owner, *_above(owner)))

    def is_inside(self, name: str) -> bool:
        """Whether a name is at or below the apex."""
        return self.apex in (name, *_above(name))

    def at(self, name: str) -> Iterable[str]:
        """Returns the types at a name, by a wildcard too (RFC 4592)."""
        if name in self.types or name in self._every:
            return self.types.get(name, ())
        encloser = next((it for it in _above(name) if it in self._every), self.apex)
        return self.types.get(f"*.{encloser}" if encloser != "." else "*.", ())

    def is_delegated(self, name: str) -> bool:
        """Whether a name is at or below a zone cut."""
        return any("NS" in self.types.get(it, ()) for it in (name, *_above(name)) if it != self.apex and self.is_inside(it))

    def dname_above(self, name: str) -> str | None:
        """Returns the owner of a DNAME record above a name."""
        return next((it for it in _above(name) if DNAME in self.types.get(it, ())), None) if self._has_dname else None

    @cached_property
    def _has_dname(self) -> bool:
        return any(DNAME in it for it in self.types.values())


def _above(name: str) -> Iterator[str]:
    """Yields the names above a name, the nearest first."""
    while name != ".":
        found = LABEL.match(name)
        name = name[found.end() + 1 :] or "." if found else "."
        yield name


def problems(copy: Copy, is_of_all: bool) -> Iterator[Problem]:
    """Yields what the rules on records find; or those alone for which all servers refuse a zone."""
    names = Names(copy)
    for owner, types in names.types.items():
        yield from _of_aliases(names, owner, types)
    if is_of_all:
        return
    apex = names.types[copy.apex]
    if "NS" not in apex:
        yield Problem("no-apex-ns", copy.apex, "the apex has no NS record", names.records(copy.apex, "SOA"))
    if not HOST.fullmatch(copy.soa[4]):
        yield Problem("host-name", copy.apex, f"the primary {copy.soa[4]} isn't a host name", names.records(copy.apex, "SOA"))
    for owner, types in names.types.items():
        yield from _of_owner(names, owner, types)
        for kind in TARGETS:
            for data in types.get(kind, ()):
                for rule, text in _of_target(names, owner, kind, data):
                    yield Problem(rule, owner, text, [(owner, kind, data)])


def _of_aliases(names: Names, owner: str, types: dict[str, list[str]]) -> Iterator[Problem]:
    """Yields what CNAME and DNAME records clash with."""
    if CNAME in types and owner == names.apex:
        yield Problem("cname-at-apex", owner, "a CNAME is at the apex", names.records(owner, CNAME))
    elif CNAME in types and types.keys() - BESIDE_CNAME:
        yield Problem("cname-and-other", owner, "a CNAME has other data beside it",
                      names.records(owner, CNAME, *(types.keys() - BESIDE_CNAME)))
    for kind, rule in ((CNAME, "cname-twice"), (DNAME, "dname-twice")):
        if len(types.get(kind, ())) > 1:
            yield Problem(rule, owner, f"it has more than one {rule[:5].upper()}", names.records(owner, kind))
    if (above := names.dname_above(owner)) and types.keys() - OF_NSEC3:
        yield Problem("below-dname", owner, f"it is below the DNAME of {above}", names.records(owner))


def _of_owner(names: Names, owner: str, types: dict[str, list[str]]) -> Iterator[Problem]:
    """Yields what is wrong with an owner of some types, and with digests."""
    hosts = [it for it in ("A", "AAAA", "MX") if it in types]
    if hosts and not HOST.fullmatch(owner.removeprefix("*.").removeprefix("gc._msdcs.") or "."):
        yield Problem("host-name", owner, f"it has {hosts[0]} and isn't a host name", names.records(owner, *hosts))
    if DS in types and owner == names.apex:
        yield Problem("ds-at-apex", owner, "a DS record is at the apex", names.records(owner, DS))
    if "NS" in types and owner.startswith("*."):
        yield Problem("wildcard-ns", owner, "an NS record is at a wildcard", names.records(owner, "NS"))
    for kind, (at, before, what, lengths) in DIGESTS.items():
        for data in types.get(kind, ()):
            octets = bytes.fromhex(data.split(" ", 2)[2]) if data.count(" ") > 1 else b""
            wanted = lengths.get(octets[at]) if len(octets) > at else None
            if wanted and len(octets) - before != wanted:
                text = f"a {what} of type {octets[at]} has {len(octets) - before} octets, not {wanted}"
                yield Problem("ds-digest-length" if kind == DS else "sshfp-length", owner, text, [(owner, kind, data)])


def _of_target(names: Names, owner: str, kind: str, data: str) -> Iterator[tuple[str, str]]:
    """Yields the rules on the name that a record leads to, with what they find."""
    what, at = TARGETS[kind]
    target = data.split(" ")[at]
    if not HOST.fullmatch(target) and (kind != "PTR" or REVERSE.fullmatch(owner)):
        yield "host-name", f"the {what} {target} isn't a host name"
    if kind in ("NS", "MX") and ADDRESS.match(target):
        yield f"{kind.lower()}-address", f"the {what} {target} is an address"
    if kind == "PTR" or not names.is_inside(target):
        return
    types = names.at(target)
    if kind == "NS" and owner != names.apex:
        if not OF_ADDRESSES & set(types) and (owner in (target, *_above(target)) or not names.is_delegated(target)):
            yield "missing-glue", f"the {what} {target} has no address here"
    elif CNAME in types:
        yield f"{kind.lower()}-is-cname", f"the {what} {target} is a CNAME"
    elif kind != "SRV" and not OF_ADDRESSES & set(types) and not names.is_delegated(target):
        yield f"{kind.lower()}-no-address", f"the {what} {target} has no address"
