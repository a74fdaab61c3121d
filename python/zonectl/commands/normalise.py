"""`zonectl normalise`: the canonical text of a zone."""
from __future__ import annotations

import argparse
import os
from typing import Any

from .. import engine
from ..errors import Failure, Refusal, Status, Undone, Usage, about
from ..folding import folded_text
from ..options import Parser, add_output, add_sources, at_once, reader_of
from ..outputs import Output
from ..reading import stored_octets
from ..sources import File, Source, sources_of
from ..texts import alarm
from ..zones import Copy, Reader, file_name

ABOUT = """\
Prints the canonical text of a zone: two copies of a zone are the same if and only if their canonical texts are.
`zonectl normalise SOURCE | sha256sum` is what `zonectl sum` prints."""


def parser() -> Parser:
    """Returns the parser."""
    made = Parser("normalise", "[OPTION].. SOURCE\n       zonectl normalise [OPTION].. {--output-dir DIR|--archive DIR} SOURCE..", ABOUT)
    made.option("-p", "--presentation", action="store_true", help="further types in presentation format")
    made.option("--fold", action="store_true", help="names in RDATA in lower case too")
    made.option("--output-dir", metavar="DIR", help="write DIR/ZONE.zone for each source")
    made.option("--archive", metavar="DIR", help="write DIR/ZONE.SERIAL for each source, and never another text under that serial")
    made.option("--textconv", action="store_true", help="for git: as -p, and a refused file is copied as it is")
    add_output(made)
    add_sources(made)
    return made


def run(given: argparse.Namespace, output: Output) -> int:
    """Normalises sources."""
    sources = sources_of(given.operands)
    is_many = bool(given.output_dir or given.archive)
    if not sources or len(sources) > 1 and not is_many:
        raise Usage("it takes one SOURCE; --output-dir and --archive take several")
    if len(sources) > 1 and given.origin:
        raise Usage("--origin goes with one zone")
    if sum(map(bool, (given.output_dir, given.archive, given.output or given.json, given.textconv))) > 1:
        raise Usage("--output-dir, --archive and --textconv go neither together nor with --output or --json")
    reader = reader_of(given, output)
    if given.textconv:
        return textconv(sources[0], reader, output)
    if not is_many:
        copy = reader.copy(sources[0])
        return output.answer(object_of(copy, given.fold) if given.json else text_of(copy, given), Status.SAME, given.output)
    seen: set[str] = set()
    return max(output.failed(it) if isinstance(it, Failure) else it for it in at_once(
        sources, 1, lambda source: written(reader.copy(source), given, output, seen), output, lambda it: it.text))


def text_of(copy: Copy, given: argparse.Namespace) -> bytes:
    """Returns the text of a copy as the options want it."""
    text = folded_text(copy.text) if given.fold else copy.text
    return engine.presentation(text) if given.presentation else text


def object_of(copy: Copy, is_folded: bool) -> dict[str, Any]:
    """Returns a copy as an object."""
    lines = engine.presented(folded_text(copy.text) if is_folded else copy.text)
    return {
        "format": "zonectl-normalise/1", "status": 0, "zone": copy.apex, "class": copy.rdclass, "serial": copy.serial,
        "records": [{"owner": owner, "ttl": int(ttl), "class": rdclass, "type": kind, "rdata": rdata}
                    for owner, ttl, rdclass, kind, rdata in lines],
    }


def written(copy: Copy, given: argparse.Namespace, output: Output, seen: set[str]) -> int:
    """Writes a copy into the folder of the options. `seen` has the files that were written before."""
    text, folder = text_of(copy, given), given.output_dir or given.archive
    if given.output_dir:
        path = os.path.join(folder, f"{file_name(copy.apex)}.zone")
        if path in seen:
            raise Undone(f"another source is of {copy.apex} too", copy.source)
        seen.add(path)
        output.result(text, path)
        return Status.SAME
    path = os.path.join(folder, f"{file_name(copy.apex)}.{copy.serial}")
    if os.path.exists(path):
        with about(path), open(path, "rb") as file:
            if file.read() != text:
                output.result(f"{copy.apex}: {alarm(copy.serial)}\n")
                return Status.DIFFERENT
        return Status.SAME
    output.result(text, path)
    return Status.SAME


def textconv(source: Source, reader: Reader, output: Output) -> int:
    """Prints a text for git to compare: the file as it is, if it denotes no zone."""
    if not isinstance(source, File):
        raise Usage("--textconv takes a file")
    with about(source.text):
        octets = stored_octets(source, reader.access)
    try:
        text = engine.presentation(reader.copy(source).text)
    except (Refusal, Undone):
        text = octets
    output.result(text)
    return Status.SAME
