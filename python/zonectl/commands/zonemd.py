"""`zonectl zonemd`: verifies a zone against its ZONEMD records, or gives it one (RFC 8976)."""
from __future__ import annotations

import argparse
import re

from .. import engine
from ..errors import Status, Undone, Usage
from ..options import Parser, add_output, add_sources, reader_of
from ..outputs import Output
from ..sources import source_of
from ..zones import Copy

ABOUT = """\
verify prints whether one of the ZONEMD records at the apex verifies the zone; if none does, why each doesn't, with status 1.
add prints the zone, further types in presentation format, with a right ZONEMD record instead of those at its apex.
A right digest doesn't say who made it."""


def serial(text: str) -> tuple[bool, int]:
    """Returns whether a number is added to the serial, and the number. Raises ValueError."""
    found = re.fullmatch(r"(\+?)([0-9]{1,10})", text)
    if not found or not int(found[2]) < 1 << 32 or found[1] and not 1 <= int(found[2]) < 1 << 31:
        raise ValueError(f"not a serial, nor + and a number: {text}")
    return bool(found[1]), int(found[2])


def parser() -> Parser:
    """Returns the parser."""
    made = Parser("zonemd", "verify [OPTION].. SOURCE\n       zonectl zonemd add [OPTION].. SOURCE", ABOUT)
    made.words = ("verify", "add")
    made.option("--sha512", action="store_true", help="add a digest of SHA-512, and not of SHA-384")
    made.option("--serial", type=serial, metavar="N|+1", help="change the serial of the SOA first: to N, or by a number (add)")
    made.option("--record", action="store_true", help="print the record alone (add)")
    add_output(made)
    add_sources(made)
    return made


def run(given: argparse.Namespace, output: Output) -> int:
    """Verifies a zone, or gives it a ZONEMD record."""
    if len(given.operands) != 2 or given.operands[0] not in ("verify", "add"):
        raise Usage("it takes verify or add, and one SOURCE")
    is_adding = given.operands[0] == "add"
    if is_adding and given.json or not is_adding and (given.sha512 or given.serial or given.record):
        raise Usage("--sha512, --serial and --record go with add, and --json with verify")
    copy = reader_of(given, output).copy(source_of(given.operands[1]))
    if is_adding:
        return output.answer(added(copy, given), Status.SAME, given.output)
    found = engine.verify(copy.text)
    status = Status.SAME if found.is_verified else Status.DIFFERENT
    return output.answer({
        "format": "zonectl-zonemd/1", "status": int(status), "verified": found.is_verified, "serial": found.serial,
        "records": [{"scheme": it.scheme, "algorithm": it.algorithm, "verdict": it.verdict} for it in found.records],
    } if given.json else "".join(f"{it}\n" for it in found.lines()), status, given.output)


def added(copy: Copy, given: argparse.Namespace) -> bytes:
    """Returns a zone with its ZONEMD record, or the record alone. Raises Undone."""
    lines = copy.text.split(b"\n")[:-1]
    of_apex = copy.apex.encode() + b" "
    if not given.record and any(it.startswith(of_apex) and it.split(b" ", 4)[3] == b"TYPE46" for it in lines):
        raise Undone("the zone is signed, and its signer has to give it the record; --record prints the record", copy.source)
    if given.serial:
        soa, (is_sum, number) = copy.soa.copy(), given.serial
        soa[6] = str((copy.serial + number) % (1 << 32) if is_sum else number)
        lines[0] = " ".join(soa).encode()
    record = engine.digested(b"\n".join([*lines, b""]), given.sha512)
    if given.record:
        return engine.presentation(record)
    kept = [it for it in lines if not (it.startswith(of_apex) and it.split(b" ", 4)[3] == b"TYPE63")]
    return engine.presentation(engine.canonical(b"\n".join([*kept, record]), "."))
