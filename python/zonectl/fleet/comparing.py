"""What a worker does: reads the reference of a zone, then asks server by server, and says what each pair comes to."""
from __future__ import annotations

import hashlib
import time
from collections.abc import Callable
from dataclasses import replace
from typing import TYPE_CHECKING, Any

from ..bounds import Clock, Limits, RanOut
from ..connections import Lost, Unreached
from ..diff_text import json_of, text_of
from ..difference import Ignored, difference_of
from ..errors import Failure, Status, Undone, about, system_reason
from ..reading import Access, Read
from ..sources import File, Source
from ..sources import Server as ServerSource
from ..zones import Copy, Reader
from .asking import Session, Together
from .config import FILES, Config, Override, Server
from .state import State
from .zones import Zone, at

if TYPE_CHECKING:
    from ..tsig import Key

Pair = dict[str, Any]  # the object that JSON has
RESULTS = {Status.REFUSED: "refused", Status.UNDONE: "not-compared"}


def pair_of(zone: str, server: str) -> Pair:
    """Returns a pair that is the same, and of which nothing else is known."""
    return {
        "format": "zonectl-fleet/1", "zone": zone, "server": server, "status": 0, "result": "same", "reason": None, "transferred": False,
        "at": round(time.time()), "seconds": 0.0, "serials": {"reference": None, "server": None},
        "records": {"reference": None, "server": None}, "answered": False, "text": "", "diff": None,
    }


def failed(pair: Pair, status: int, reason: str) -> Pair:
    """Returns a pair that wasn't compared, and why."""
    return {**pair, "status": int(status), "result": RESULTS[Status(status)], "reason": reason}


class Comparer:
    """How one worker compares."""

    def __init__(self, config: Config, zones: list[Zone], keys: dict[str, Key], together: Together, state: State, max_size: int,
                 worker: int) -> None:
        self.config, self.zones, self.keys, self.state, self.together, self.worker = config, zones, keys, state, together, worker
        self.sessions = {
            it.name: Session(it, number, worker, together, max_size) for number, it in enumerate(config.server) if it.address}
        self.reader = Reader(Access(Limits(max_size, run_deadline=0), {it.name: it for it in keys.values()}))
        self.memory = f'a worker ran out of memory (memory = "{config.run.memory}")'

    def pairs(self, number: int) -> list[Pair]:
        """Returns what a zone comes to at each server."""
        zone = self.zones[number]
        own, reference = self.config.for_zone(zone.name), self.config.run.reference
        servers = [it for it in self.config.server if it.name != reference and (own.servers is None or it.name in own.servers)]
        try:
            copy = self._reference(zone, own)
        except (Failure, MemoryError) as error:
            status, reason = (error.status, error.sentence()) if isinstance(error, Failure) else (Status.UNDONE, self.memory)
            return [failed(pair_of(zone.name, it.name), _of_input(status), reason) for it in servers]
        return [self._pair(zone.name, copy, it, own) for it in servers]

    def _reference(self, zone: Zone, own: Override) -> Copy:
        if zone.error:
            raise Undone(zone.error)
        if self.config.run.reference != FILES:
            server = next(it for it in self.config.server if it.name == self.config.run.reference)
            with about(server.name):
                if server.capture:
                    return self._captured(zone.name, server, own)
                with self.sessions[server.name].asked() as clock:
                    return self._transferred(zone.name, server, own, clock)
        source = zone.source
        assert source
        copy = replace(self.reader, origin=zone.name if zone.is_told else None).copy(source)
        if copy.apex != zone.name:
            raise Undone(f"it is the zone {copy.apex}, not {zone.name}", source.text)
        return copy

    def _pair(self, zone: str, reference: Copy, server: Server, own: Override) -> Pair:
        began, pair = time.monotonic(), pair_of(zone, server.name)
        pair["serials"]["reference"], pair["records"]["reference"] = reference.serial, reference.records
        try:
            pair = self._compared(pair, reference, server, own)
        except Failure as failure:
            pair = failed(pair, _of_input(failure.status), failure.sentence() if server.capture else failure.text)
        except MemoryError:
            pair = failed(pair, Status.UNDONE, self.memory)
        except OSError as error:
            pair = failed(pair, Status.UNDONE, system_reason(error))
        pair["seconds"] = round(time.monotonic() - began, 3)
        return pair

    def _compared(self, pair: Pair, reference: Copy, server: Server, own: Override) -> Pair:
        zone, ignore, is_exact = pair["zone"], own.ignore or server.ignore, server.exact if own.exact is None else own.exact
        options = f"{','.join(sorted(ignore.names))} {is_exact}"
        if server.capture:
            copy = self._captured(zone, server, own)
            pair["answered"] = True
            return self._judged(pair, reference, copy, ignore, is_exact)
        session = self.sessions[server.name]
        with session.asked() as clock:
            soa = session.soa(zone, self._key(server, own), clock)
            pair["answered"] = soa is not None
            if soa and not server.require_zonemd:
                pair["serials"]["server"] = int(soa[6])
                if found := self._spared(pair, reference, soa, ignore, options):
                    return found
            try:
                copy = self._transferred(zone, server, own, clock)
            except Failure as failure:
                pair["answered"] = soa is not None or not isinstance(failure, RanOut | Unreached | Lost)
                raise
        pair["answered"] = True
        found = self._judged(pair, reference, copy, ignore, is_exact)
        if found["result"] == "same":
            found["state"] = self.state.entry(copy.soa, _digest(reference), options)
        return found

    def _spared(self, pair: Pair, reference: Copy, soa: list[str], ignore: Ignored, options: str) -> Pair | None:
        """Returns what the SOA record alone says; None if a transfer is needed."""
        ahead = (int(soa[6]) - reference.serial) % (1 << 32)
        if ahead and not ignore.serial:
            order = "unordered" if ahead == 1 << 31 else "newer" if ahead < 1 << 31 else "older"
            reason = f"{order}: serial {soa[6]}, reference {reference.serial} (not transferred)"
            return {**pair, "status": 1, "result": "different", "reason": reason}
        entry = self.state.known(pair["zone"], pair["server"], soa, options)
        if entry and entry["reference"] == _digest(reference):
            return {**pair, "reason": "not transferred", "state": entry}
        return None

    def _judged(self, pair: Pair, reference: Copy, copy: Copy, ignore: Ignored, is_exact: bool) -> Pair:
        if copy.apex != reference.apex or copy.rdclass != reference.rdclass:
            raise Undone(f"it is the zone {copy.apex} of class {copy.rdclass}: nothing to compare")
        found = difference_of(reference, copy, is_exact, ignore)
        pair["serials"]["server"], pair["records"]["server"], pair["transferred"] = copy.serial, copy.records, True
        if found.rrsets:
            pair |= {"status": 1, "result": "one-serial" if found.is_alarm else "different",
                     "text": text_of(found, self.config.output.lines), "diff": json_of(found, self.config.output.lines)}
        return pair

    def _key(self, server: Server, own: Override) -> Key | None:
        name = own.key or server.key
        return self.keys[name] if name else None

    def _captured(self, zone: str, server: Server, own: Override) -> Copy:
        path = at(server.capture or "", zone)
        copy = replace(self.reader, require_zonemd=server.require_zonemd).copy(File(path, path, "capture"))
        copy.source = server.name
        return copy

    def _transferred(self, zone: str, server: Server, own: Override, clock: Clock) -> Copy:
        octets = self.sessions[server.name].transfer(zone, self._key(server, own), clock)
        source: Source = ServerSource(server.name, server.address or "", server.port or 53, zone, server.rdclass, None, server.tls)
        return replace(self.reader, require_zonemd=server.require_zonemd).judged(source, Read(octets, True))


def _digest(copy: Copy) -> str:
    return hashlib.sha256(copy.text).hexdigest()


def _of_input(status: int) -> Status:
    """Returns the status of a pair for that of an input: a wrong command line can't be its fault."""
    return Status.REFUSED if status == Status.REFUSED else Status.UNDONE


def comparers(config: Config, zones: list[Zone], keys: dict[str, Key], state: State, max_size: int,
              workers: int) -> tuple[Together, Callable[[int], Callable[[int], list[Pair]]]]:
    """Returns what the workers know together, and what makes the work of each."""
    together = Together(config.server, workers)
    return together, lambda worker: Comparer(config, zones, keys, together, state, max_size, worker).pairs
