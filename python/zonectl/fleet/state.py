"""Which pairs were the same at their last transfer, so that one whose SOA record and reference stay needn't be transferred each time."""
from __future__ import annotations

import hashlib
import json
import os
import time
from typing import Any

from ..errors import Undone, about
from ..outputs import to_file
from .config import Run

FORMAT = "zonectl-state/1"
Entry = dict[str, Any]  # soa, reference (the digest of its text), options, at (when it was transferred)


class State:
    """The pairs of earlier runs. `is_full` knows none of them."""

    def __init__(self, path: str | None, run: Run, is_full: bool) -> None:
        self.path, self.every, self.is_full, self.now = path, run.full_every, is_full, time.time()
        self.entries: dict[str, Entry] = {}
        if path and os.path.exists(path):
            with about(path):
                self._read(path)

    def _read(self, path: str) -> None:
        try:
            with open(path, encoding="ascii") as file:
                found = json.load(file)
            if found.pop("format") != FORMAT:
                raise ValueError
            self.entries = {name: it for name, it in found["pairs"].items() if set(it) == {"soa", "reference", "options", "at"}}
        except (ValueError, KeyError, AttributeError, TypeError):
            raise Undone("it isn't a state of zonectl: remove it, and all zones are transferred once") from None

    def entry(self, soa: list[str], reference: str, options: str) -> Entry:
        """Returns what is kept of a pair that was transferred now and is the same."""
        return {"soa": " ".join(soa), "reference": reference, "options": options, "at": round(self.now)}

    def known(self, zone: str, server: str, soa: list[str], options: str) -> Entry | None:
        """Returns what is kept of a pair, if its SOA record and options are those of that transfer and it isn't due again.

        Time is cut into spans of `full_every`, which begin at a moment of its own for each pair: it is due once in each.
        """
        it = self.entries.get(f"{zone} {server}")
        if not it or self.is_full or it["soa"] != " ".join(soa) or it["options"] != options or not self.every:
            return None
        hashed = int.from_bytes(hashlib.sha256(f"{zone} {server}".encode("utf-8", "replace")).digest()[:6], "big")
        own = hashed / (1 << 48) * self.every
        is_due = (self.now + own) // self.every != (it["at"] + own) // self.every
        return None if is_due or it["at"] > self.now + 1 else it

    def keep(self, pairs: list[dict[str, Any]]) -> None:
        """Takes what is kept out of pairs, and writes it. Raises Undone."""
        seen = {f"{it['zone']} {it['server']}": it.pop("state", None) for it in pairs}
        if not self.path:
            return
        kept = {name: it for name, it in self.entries.items() if name not in seen and self.now - it["at"] < self.every}
        kept |= {name: it for name, it in seen.items() if it}
        to_file(self.path, json.dumps({"format": FORMAT, "pairs": kept}).encode())
