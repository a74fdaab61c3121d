"""Parts of a crate's wrong bodies, of even work, and what comes of them."""
import math
import tempfile
import time
from dataclasses import dataclass, field
from pathlib import Path

from libraries import Libraries
from records import WrongBody
from trial import Trial, Unreached

# What a part takes at most, some six minutes, by `work_of`: what a check takes of memory grows with it, and the last checks run beside
# idle processors.
MOST = 15_000
# What a body takes at least, and the beginning of a check.
LEAST, BEGINNING = 160, 600


@dataclass
class Outcome:
    """What came of trying bodies: those that are refused, of these the ones that an answer of their function alone refuses, those that
    aren't refused, and the seconds of a processor that one took."""

    refused: list[WrongBody] = field(default_factory=list)
    by_answer: set[WrongBody] = field(default_factory=set)
    survivors: list[WrongBody] = field(default_factory=list)
    seconds: dict[str, float] = field(default_factory=dict)

    def add(self, other: "Outcome") -> None:
        self.refused += other.refused
        self.by_answer |= other.by_answer
        self.survivors += other.survivors
        self.seconds |= other.seconds


class Part:
    """Bodies of a crate that are tried in one folder: many in one check, each under a key that no other has, then others alone."""

    def __init__(self, crate: Path, number: int) -> None:
        self.crate, self.number = crate, number
        self.together: dict[str, WrongBody] = {}
        self.alone: list[WrongBody] = []
        self.work = 0

    def put(self, body: WrongBody) -> None:
        """Adds a body, to be tried together with the others unless it turns what one of them turns where it stands."""
        self.work += work_of(body)
        if body.is_alone or body.path in self.together:
            self.alone.append(body)
            self.work += BEGINNING
        else:
            self.together[body.path] = body

    def try_all(self, libraries: Libraries, keep: Path | None) -> Outcome:
        """Tries the bodies, and says which aren't refused."""
        began, bodies = time.monotonic(), [*self.together.values(), *self.alone]
        checks = [*([[*self.together.values()]] if self.together else []), *([it] for it in self.alone)]
        with tempfile.TemporaryDirectory(prefix="wrong-bodies-") as folder:
            trial = Trial(self.crate, libraries, folder, keep and keep / self.crate.name / str(self.number))
            try:
                survivors = {it: why for check in checks for it, why in trial.survivors(check).items()}
            except Unreached as broken:
                survivors = {it: f"the check broke off: {broken}" for it in bodies}
        for body, why in survivors.items():
            print(f"{body.full_name}: NOT REFUSED: {why}", flush=True)
        refused = [it for it in bodies if it not in survivors]
        seconds = {it.full_name: trial.seconds[it.path] for it in bodies if it.path in trial.seconds}
        took = time.monotonic() - began
        print(f"{self.crate.name}: wrong bodies: {len(refused)} of {len(bodies)} refused, in {took:.0f} seconds", flush=True)
        return Outcome(refused, trial.by_answer, [*survivors], seconds)


def work_of(body: WrongBody) -> int:
    """About how long a body takes, in fortieths of a second, by the length of its function's contract."""
    head, brace, _ = body.function.text.partition("\n" + " " * (len(body.function.text) - len(body.function.text.lstrip())) + "{\n")
    return max(LEAST, len(head) if brace else 0)


def parts_of(crate: Path, bodies: list[WrongBody]) -> list[Part]:
    """The bodies of a crate in parts of even work. None turns a function twice where it stands in one check, if another can have it."""
    work = sum(map(work_of, bodies))
    parts = [Part(crate, number) for number in range(math.ceil(work / MOST))]
    for body in sorted(bodies, key=lambda it: not it.is_alone):
        fitting = [it for it in parts if body.path not in it.together] or parts
        next((it for it in fitting if it.work < work / len(parts)), fitting[-1]).put(body)
    return parts
