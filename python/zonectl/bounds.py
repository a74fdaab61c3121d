"""How long a source may take, and how many octets it may have."""
from __future__ import annotations

import math
import re
import time
from collections.abc import Callable
from dataclasses import dataclass, field

from .errors import Undone
from .texts import duration

MOST_OCTETS = 1 << 30  # what the engine reads (F45)
UNITS = {"": 1, "s": 1, "m": 60, "h": 3600, "d": 86400}
SIZES = {"": 1, "K": 1 << 10, "M": 1 << 20, "G": 1 << 30}


def seconds(text: str) -> float:
    """Returns the seconds of a TIME: `30`, `30s`, `10m`, `1h`, `1d`. Raises ValueError."""
    found = re.fullmatch(r"(\d{1,9}(?:\.\d{1,6})?)([smhd]?)", text, re.A)
    if not found:
        raise ValueError(f"not a time: {text} (seconds, or a number with s, m, h or d)")
    return float(found[1]) * UNITS[found[2]]


def octets(text: str, most: int = MOST_OCTETS) -> int:
    """Returns the octets of a SIZE: `1000`, `64K`, `128M`, `1G`. Raises ValueError."""
    found = re.fullmatch(r"(\d{1,12})([KMG]?)", text, re.A)
    number = int(found[1]) * SIZES[found[2]] if found else 0
    if not 1 <= number <= most:
        raise ValueError(f"not a size from 1 to {most >> 30}G: {text} (octets, or a number with K, M or G)")
    return number


def whole(most: int) -> Callable[[str], int]:
    """Returns what reads a number from 1 to `most`. That raises ValueError."""

    def number(text: str) -> int:
        if not re.fullmatch("[0-9]{1,9}", text) or not 1 <= int(text) <= most:
            raise ValueError(f"not a number from 1 to {most}: {text}")
        return int(text)

    return number


class RanOut(Undone):
    """A wait or a deadline ran out."""


@dataclass(frozen=True)
class Limits:
    """The limits of one source. A time of 0 is no bound; `run_ends` is a time of the monotonic clock."""

    max_size: int = 128 << 20
    timeout: float = 30
    deadline: float = 600
    run_deadline: float = 3600
    run_began: float = field(default_factory=time.monotonic)

    def clock(self, what: str) -> Clock:
        """Starts the time of a source. `what` takes the time: `the transfer`."""
        return Clock(self, what)

    def too_large(self) -> Undone:
        """Returns the failure of a source with more than `max_size` octets."""
        more = "; --max-size 1G allows more" if self.max_size < MOST_OCTETS else ", the most that is read"
        return Undone(f"larger than {self.max_size} octets{more}")


class Clock:
    """The time that one source takes, from its first step to its last octet."""

    def __init__(self, limits: Limits, what: str) -> None:
        self.limits, self.what, self.began = limits, what, time.monotonic()
        self.ends = self.began + limits.deadline if limits.deadline else math.inf
        self.run_ends = limits.run_began + limits.run_deadline if limits.run_deadline else math.inf

    @property
    def taken(self) -> float:
        """The seconds since the start."""
        return time.monotonic() - self.began

    def check(self, early: float = 0.0) -> None:
        """Raises RanOut if the deadline of the source or of the command has passed, or will within `early` seconds."""
        now = time.monotonic() + early
        if now >= self.ends:
            raise RanOut(f"{self.what} took longer than {duration(self.limits.deadline)} (--deadline)")
        if now >= self.run_ends:
            raise RanOut(f"the command took longer than {duration(self.limits.run_deadline)} (--run-deadline)")

    def left(self) -> float | None:
        """Returns the seconds until the nearer deadline; None if there is none. Raises Undone."""
        self.check()
        end = min(self.ends, self.run_ends)
        return None if end == math.inf else max(end - time.monotonic(), 0.001)

    def wait(self) -> float | None:
        """Returns the seconds that the next octet may take; None if there is no bound. Raises Undone."""
        left, timeout = self.left(), self.limits.timeout or None
        return timeout if left is None else left if timeout is None else min(left, timeout)

    def silence(self) -> Undone:
        """Returns the failure of a wait that ran out."""
        self.check(early=0.01)  # a wait may end a little before its time
        return RanOut(f"nothing came for {duration(self.limits.timeout)} (--timeout)")
