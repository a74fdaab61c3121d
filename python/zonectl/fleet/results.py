"""What a run came to: its pairs as lines of JSON and as text, and the parts of a run put together."""
from __future__ import annotations

import json
import sys
import time
from collections import Counter
from collections.abc import Iterator
from dataclasses import dataclass, field, replace
from typing import Any

from ..bounds import Limits
from ..errors import Failure, Status, Undone, about
from ..outputs import Output
from ..reading import from_path
from ..texts import counted, duration, safe
from .comparing import Pair, failed, pair_of

FORMAT = "zonectl-fleet-run/1"
RESULTS = ("same", "different", "one-serial", "refused", "not-compared")
DIFFERENT = ("one-serial", "different")
WORDS = {"refused": "refused", "not-compared": "not compared"}


@dataclass
class Results:
    """A run, or a part of one. `configuration` and `zones` are digests; `at` is when it began."""

    configuration: str
    zones: str
    servers: list[str]
    part: int = 1
    parts: int = 1
    at: int = 0
    seconds: float = 0.0
    pairs: list[Pair] = field(default_factory=list)

    @property
    def status(self) -> int:
        """The greatest status of a pair."""
        return max((it["status"] for it in self.pairs), default=int(Status.SAME))

    def lines(self) -> str:
        """Returns the results as lines of JSON: a head, and each pair."""
        head = {name: it for name, it in vars(self).items() if name != "pairs"}
        return "".join(json.dumps(it) + "\n" for it in ({"format": FORMAT, **head}, *self.pairs))

    def counts(self) -> Counter[str]:
        """Returns how many pairs have each result."""
        return Counter(it["result"] for it in self.pairs)

    def summary(self) -> str:
        """Returns the last line."""
        counts = self.counts()
        spared = sum(it["result"] == "same" and not it["transferred"] for it in self.pairs)
        zones = len({it["zone"] for it in self.pairs})
        return (
            f"{counted(zones, 'zone')} on {counted(len(self.servers), 'server')}: {counts['same']} same ({spared} not transferred), "
            f"{counts['one-serial'] + counts['different']} different ({counts['one-serial']} under one serial), "
            f"{counts['refused']} refused, {counts['not-compared']} not compared; {duration(self.seconds)}")

    def differences(self) -> Iterator[str]:
        """Yields the text of each pair that differs."""
        for it in self.pairs:
            if it["result"] in DIFFERENT:
                lines = it["text"].split("\n")[:-1] or [it["reason"] or ""]
                yield "".join(f"{safe(line)}\n" for line in (f"== {it['zone']} at {it['server']}", *lines))

    def failures(self) -> dict[tuple[str, str, str], list[str]]:
        """Returns the zones that weren't compared, by result, server and reason."""
        found: dict[tuple[str, str, str], list[str]] = {}
        for it in self.pairs:
            if it["result"] in WORDS:
                found.setdefault((it["result"], it["server"], it["reason"] or ""), []).append(it["zone"])
        return dict(sorted(found.items(), key=lambda it: it[0][0] != "refused"))

    def tell(self, output: Output, is_verbose: bool) -> None:
        """Writes a line for each server and reason, or for each zone, to standard error."""
        for (result, server, reason), zones in self.failures().items():
            if is_verbose:
                for zone in zones:
                    output.note(f"{zone} at {server}: {WORDS[result]}: {reason}")
            else:
                output.note(f"{counted(len(zones), 'zone')} {WORDS[result]}: {reason}", server)


def _is_pair(it: Any) -> bool:
    """Whether an object of a file, which may come from anywhere, is a pair."""
    is_number = all(value is None or type(value) is int for name in ("serials", "records") for value in it[name].values())
    return is_number and it["result"] in RESULTS and it["status"] in (0, 1, 3, 4) and all(
        type(it[name]) is type(value) or value is None and isinstance(it[name], str | dict) or isinstance(value, float)
        and type(it[name]) is int for name, value in pair_of("", "").items())


def read(path: str) -> Results:
    """Returns the results of a file. Raises Failure."""
    with about(path):
        lines = from_path(path, Limits(max_size=1 << 40)).split(b"\n")
        try:
            head, *pairs = (json.loads(it) for it in lines if it)
            if head.pop("format") != FORMAT:
                raise ValueError
            found = Results(**head, pairs=pairs)
            if not all(map(_is_pair, pairs)) or not all(isinstance(it, str) for it in found.servers) or not 1 <= found.part <= found.parts:
                raise ValueError
            return found
        except (ValueError, TypeError, KeyError, AttributeError):
            raise Undone("it isn't what --results wrote") from None


def merged(paths: list[str]) -> Results:
    """Returns the results of all parts. A part that is missing isn't compared at any server. Raises Failure."""
    parts: dict[int, str] = {}
    found: Results | None = None
    for path in paths:
        it = read(path)
        found = found or replace(it, pairs=[])
        if (it.configuration, it.zones, it.servers, it.parts) != (found.configuration, found.zones, found.servers, found.parts):
            raise Undone(f"it and {safe(paths[0])} aren't parts of one run: their configurations, zones or numbers differ", path)
        if it.part in parts:
            raise Undone(f"it and {safe(parts[it.part])} are the same part", path)
        parts[it.part] = path
        found.pairs += it.pairs
        found.at, found.seconds = min(found.at, it.at), max(found.seconds, it.seconds)
    if not found:
        raise Failure("no results")
    order = {name: number for number, name in enumerate(found.servers)}
    found.pairs.sort(key=lambda it: (it["zone"], order.get(it["server"], 0)))
    for part in range(1, found.parts + 1):
        if part not in parts:
            missing = f"part {part}/{found.parts}"
            found.pairs += [failed(pair_of(missing, it), Status.UNDONE, "its results are missing") for it in found.servers]
    found.part = found.parts = 1
    return found


class Progress:
    """How far a run is, on a terminal: a line that is written anew five times a second."""

    def __init__(self, total: int) -> None:
        self.total, self.began, self.done, self.differ, self.failed = total, time.monotonic(), 0, 0, 0
        self.told, self.is_on = self.began, bool(sys.stderr and sys.stderr.isatty())

    def add(self, pairs: list[Pair]) -> None:
        """One more zone is done."""
        self.done += 1
        self.differ += sum(it["status"] == 1 for it in pairs)
        self.failed += sum(it["status"] > 1 for it in pairs)
        now = time.monotonic()
        if self.is_on and now - self.told >= 0.2:
            self.told = now
            left = duration(round((now - self.began) * (self.total - self.done) / self.done))
            self.write(f"{self.done} of {counted(self.total, 'zone')}, {self.differ} different, {self.failed} failed, {left} left")

    def write(self, line: str = "") -> None:
        """Writes the line anew; an empty one takes it away."""
        if self.is_on:
            sys.stderr.write(f"\r{line}\x1b[K")
            sys.stderr.flush()
