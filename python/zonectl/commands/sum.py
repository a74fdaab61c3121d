"""`zonectl sum`: the digest of a zone's canonical text."""
from __future__ import annotations

import argparse
import hashlib
import re
from collections.abc import Iterator
from dataclasses import dataclass, replace
from typing import Any

from .. import engine
from ..errors import Failure, Status, Undone, Usage
from ..folding import folded_text
from ..names import absolute
from ..options import Parser, add_jobs, add_output, add_sources, at_once, reader_of
from ..outputs import Output
from ..sources import Source, source_of, sources_of
from ..texts import alarm, one_field
from ..zones import Copy, Reader

ABOUT = """\
Prints a line for each zone: sha256:HEX canonical-1 SERIAL ZONE SOURCE. HEX is the digest of what `zonectl normalise` prints.
With --check it reads such lines and says which zones are the same."""
LINE = re.compile(r"sha256:([0-9a-f]{64}) (\S+) (\d{1,10}) (\S+) (.+)")
ESCAPED = re.compile(r"\\x([0-9a-f]{2})")


@dataclass(frozen=True)
class Sum:
    """A line."""

    sha256: str
    canonical: str
    serial: int
    zone: str
    source: str

    def __str__(self) -> str:
        return f"sha256:{self.sha256} {self.canonical} {self.serial} {self.zone} {one_field(self.source)}"


def parser() -> Parser:
    """Returns the parser."""
    made = Parser("sum", "[OPTION].. SOURCE..\n       zonectl sum [OPTION].. --check FILE", ABOUT)
    made.option("--fold", action="store_true", help="names in RDATA in lower case too")
    made.option("--check", metavar="FILE", help="compare zones with the lines of FILE (- is standard input)")
    add_jobs(made)
    add_output(made)
    add_sources(made)
    return made


def run(given: argparse.Namespace, output: Output) -> int:
    """Prints digests, or compares with those of a file."""
    if given.check is not None and (given.operands or given.origin or given.fold):
        raise Usage("with --check the lines name sources, zones and the text")
    if given.check is None and not given.operands:
        raise Usage("a SOURCE is missing")
    if len(given.operands) > 1 and given.origin:
        raise Usage("--origin goes with one zone")
    sources, reader = sources_of(given.operands), reader_of(given, output)
    wanted: list[Source | Sum] = [*sources, *(stored(given.check, reader) if given.check is not None else ())]
    worst, lines, sums = 0, "", []
    for it, found in zip(wanted, at_once(wanted, given.jobs, lambda it: summed(it, reader, given.fold), output, source_text)):
        if isinstance(found, Failure):
            worst = max(worst, output.failed(found))
            continue
        now, records = found
        if isinstance(it, Source):
            lines += f"{now}\n"
            sums.append(object_of(now, records))
            continue
        result = "same" if now == it else "one-serial" if now.serial == it.serial else "different"
        text = {"one-serial": alarm(it.serial), "different": f"different: serial {now.serial}, was {it.serial}"}.get(result, result)
        worst = max(worst, 0 if now == it else 1)
        lines += f"{one_field(it.source)}: {text}\n"
        sums.append(object_of(now, records, result=result))
    found_sums = {"format": "zonectl-sum/1", "status": int(worst), "sums": sums}
    return output.answer(found_sums if given.json else lines, worst, given.output)


def source_text(it: Source | Sum) -> str:
    """Returns the argument that names a source."""
    return it.text if isinstance(it, Source) else it.source


def summed(it: Source | Sum, reader: Reader, is_folded: bool) -> tuple[Sum, int]:
    """Returns the digest of a source now, or of that of a line, and how many records it has. Raises Failure."""
    if isinstance(it, Source):
        copy, canonical = reader.copy(it), engine.CANONICAL + "-folded" * is_folded
    else:
        copy, canonical = again(it, reader), it.canonical
    text = folded_text(copy.text) if canonical.endswith("-folded") else copy.text
    return Sum(hashlib.sha256(text).hexdigest(), canonical, copy.serial, copy.apex, copy.source), copy.records


def again(it: Sum, reader: Reader) -> Copy:
    """Returns what the source of a line is now. Raises Failure."""
    try:
        zone = absolute(it.zone)
    except ValueError:
        raise Undone(f"{it.zone} is no name of a zone", it.source) from None
    copy = replace(reader, origin=zone).copy(source_of(it.source))
    if copy.apex != it.zone:
        raise Undone(f"it is the zone {copy.apex}, and was {it.zone}", it.source)
    return copy


def object_of(it: Sum, records: int, **more: str) -> dict[str, Any]:
    """Returns a digest as an object."""
    return {"source": it.source, "zone": it.zone, "serial": it.serial, "records": records, "canonical": it.canonical,
            "sha256": it.sha256, **more}


def stored(path: str, reader: Reader) -> Iterator[Sum]:
    """Yields the lines of a file. Raises Undone at one that isn't such a line."""
    for number, line in reader.lines(path):
        found = LINE.fullmatch(line)
        if not found:
            raise Undone("it isn't a line of zonectl sum", path, line=number)
        if found[2] not in (engine.CANONICAL, f"{engine.CANONICAL}-folded"):
            raise Undone(f"the text {found[2]} isn't one that this version writes", path, line=number)
        octets = found[5].encode("utf-8", "surrogateescape").decode("latin-1")
        source = ESCAPED.sub(lambda it: chr(int(it[1], 16)), octets).encode("latin-1").decode("utf-8", "surrogateescape")
        yield Sum(found[1], found[2], int(found[3]), found[4], source)
