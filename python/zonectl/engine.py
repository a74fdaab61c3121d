"""The proved engine, by the module `zonenorm`. No other module of zonectl imports it.

Not here before libzonenorm has the calls: `$INCLUDE` and `$GENERATE`, all faults of a file, the places of records.
"""
from __future__ import annotations

import re
from collections.abc import Iterator
from typing import NamedTuple

from .errors import Refusal, Undone

NEEDED = "0.1.0"
try:
    import zonenorm
except ImportError as _error:
    raise Undone(f"{_error}; the module zonenorm {NEEDED} or later and its library are needed") from None

VERSION = zonenorm.__version__
CANONICAL = "canonical-1"  # the version of the canonical text
PLACE = re.compile(r" (?:at line \d+|in the input)(?=: )")
VERIFIED = "verified"
UNKNOWN_TYPE, COMPRESSIBLE = 7, 33


def canonical(octets: bytes, origin: str = zonenorm.TRANSFER) -> bytes:
    """Returns the canonical text of a master file, or of a transfer. Raises Refusal, with the place of a file taken out of its line."""
    try:
        return zonenorm.normalise(octets, origin)
    except zonenorm.Refused as error:
        refused = _without_data(octets, origin, error) if error.number == UNKNOWN_TYPE and origin != zonenorm.TRANSFER else error
    text = PLACE.sub("", refused.text, count=1)
    name = text.split(" ", 2)[1].rstrip(":") if text.startswith("F") else None
    raise Refusal(text, line=refused.line, fault=refused.number, name=name)


def _without_data(octets: bytes, origin: str, refused: zonenorm.Refused) -> zonenorm.Refused:
    """Returns the refusal of an entry whose data of a further type is wrong as BadRdata, with its field."""
    try:
        zonenorm.generic(octets, origin)
    except zonenorm.Refused as reason:
        if reason.number == 0 and reason.line == refused.line:
            text = re.sub(r"^line \d+: ", "F9 BadRdata: ", re.sub(r" \(and \d+ more.*", "", reason.text))
            return zonenorm.Refused(text, 9, line=refused.line)
    return refused


def presentation(text: bytes) -> bytes:
    """Returns canonical lines with further types in presentation format, line by line."""
    return zonenorm.words(text)


def presented(text: bytes) -> Iterator[list[str]]:
    """Yields owner, TTL, class, type and RDATA of canonical lines in presentation format. The RDATA of an APL record may be empty."""
    for line in presentation(text).decode("ascii", "backslashreplace").split("\n")[:-1]:
        yield [*line.split(" ", 4), ""][:5]


class Verdict(NamedTuple):
    """What a ZONEMD record at the apex comes to (RFC 8976). Scheme and algorithm are None where the data is too short for them."""

    scheme: int | None
    algorithm: int | None
    verdict: str  # `verified`, or why it isn't
    line: str  # which says so, as zonedigest prints it


class Verification(NamedTuple):
    """What the ZONEMD records at the apex of a zone come to, in canonical order."""

    serial: int
    records: list[Verdict]

    @property
    def is_verified(self) -> bool:
        """Whether one of them verifies the zone."""
        return any(it.verdict == VERIFIED for it in self.records)

    def lines(self) -> list[str]:
        """Returns the line of the first that verifies the zone; or a line of each, which says why it doesn't."""
        for it in self.records:
            if it.verdict == VERIFIED:
                return [f"verified: serial {self.serial}, SIMPLE, {'SHA-384' if it.algorithm == 1 else 'SHA-512'}"]
        return [f"not verified: {it.line}" for it in self.records] or ["not verified: no ZONEMD record at the apex"]


def verify(text: bytes) -> Verification:
    """Verifies a canonical text against its ZONEMD records."""
    apex, serial = text.split(b" ", 1)[0], text.split(b" ", 7)[6].decode()
    lines = re.findall(rb"^" + re.escape(apex) + rb" \d+ \S+ TYPE63 \\# \d+ ?([0-9a-f]*)$", text, re.M)
    verdicts = zonenorm.verify(text, ".", words=False)[1]
    return Verification(int(serial), [_verdict(bytes.fromhex(it.decode()), verdict, serial) for it, verdict in zip(lines, verdicts)])


def digested(text: bytes, is_sha512: bool) -> bytes:
    """Returns the ZONEMD record of a canonical text, as a canonical line."""
    return zonenorm.digest(text, ".", algorithm="SHA512" if is_sha512 else "SHA384", words=False)


def _verdict(data: bytes, verdict: str, serial: str) -> Verdict:
    if len(data) < 6:
        return Verdict(None, None, verdict, f"ZONEMD \\# {len(data)} {data.hex()}".rstrip() + ": the data is malformed")
    scheme, algorithm = data[4], data[5]
    reasons = {
        "other serial": f"the serial isn't {serial}", "unknown scheme": f"scheme {scheme} isn't supported",
        "unknown algorithm": f"hash algorithm {algorithm} isn't supported", "malformed": "the data is malformed",
        "repeated": "another record has the same scheme and hash algorithm", "differs": "the digest differs",
    }
    line = f"ZONEMD {int.from_bytes(data[:4], 'big')} {scheme} {algorithm}: {reasons.get(verdict, verdict)}"
    return Verdict(scheme, algorithm, verdict, line)
