"""Names in RDATA in lower case (RFC 4343), for types that the engine keeps in the generic form.

The engine folds the names of NS, CNAME, SOA, PTR, MX, SRV and NAPTR. RDATA that doesn't fit its type is left as it is.
"""
from __future__ import annotations

import re
from itertools import groupby

# Of each type the octets before its names, and how many names there are.
NAMES = {
    3: (0, 1), 4: (0, 1), 7: (0, 1), 8: (0, 1), 9: (0, 1),  # MD, MF, MB, MG, MR
    14: (0, 2), 17: (0, 2), 18: (2, 1), 21: (2, 1),  # MINFO, RP, AFSDB, RT
    23: (0, 1), 24: (18, 1), 26: (2, 2), 30: (0, 1), 36: (2, 1),  # NSAP-PTR, SIG, PX, NXT, KX
    39: (0, 1), 46: (18, 1), 47: (0, 1), 58: (0, 2),  # DNAME, RRSIG, NSEC, TALINK
    64: (2, 1), 65: (2, 1), 66: (5, 1), 107: (2, 1),  # SVCB, HTTPS, DSYNC, LP
}
A6, IPSECKEY, HIP, AMTRELAY = 38, 45, 55, 260
REST = frozenset((24, 30, 46, 47, 64, 65))  # types with more data after their names
FOLDED = frozenset(f"TYPE{it}".encode() for it in (*NAMES, A6, IPSECKEY, HIP, AMTRELAY))
LINE = re.compile(rb"([^ ]+ \d+ [^ ]+ TYPE(\d+) \\# \d+ )([0-9a-f]+)")


def after_name(data: bytes, at: int) -> int:
    """Returns the offset after an uncompressed name; -1 if there is none."""
    begin = at
    while at < len(data) and (length := data[at]):
        if length > 63:
            return -1
        at += 1 + length
    return at + 1 if at < len(data) and at - begin < 255 else -1


def _place(number: int, data: bytes) -> tuple[int, int] | None:
    """Returns where the names of RDATA begin, and how many there are; -1 for all that is left."""
    if number in NAMES:
        return NAMES[number]
    if number == IPSECKEY:
        return (3, 1) if len(data) > 3 and data[1] == 3 else None
    if number == AMTRELAY:
        return (2, 1) if len(data) > 2 and data[1] & 0x7F == 3 else None
    if number == A6:
        return (17 - data[0] // 8, 1) if data and 0 < data[0] <= 128 else None
    if number == HIP:
        return (4 + data[0] + int.from_bytes(data[2:4], "big"), -1) if len(data) >= 4 else None
    return None


def folded_data(number: int, data: bytes) -> bytes:
    """Returns RDATA with its names in lower case."""
    place = _place(number, data)
    if not place:
        return data
    at, count = place
    begin = at
    while count and at < len(data):
        at = after_name(data, at)
        if at < 0:
            return data
        count -= 1
    is_whole = count <= 0 and (at == len(data) or number in REST or number == IPSECKEY)
    return data[:begin] + data[begin:at].lower() + data[at:] if is_whole else data


def folded(line: bytes) -> bytes:
    """Returns a canonical line with the names of its RDATA in lower case."""
    found = LINE.fullmatch(line)
    if not found or int(found[2]) not in NAMES and int(found[2]) not in (A6, IPSECKEY, HIP, AMTRELAY):
        return line
    return found[1] + folded_data(int(found[2]), bytes.fromhex(found[3].decode())).hex().encode()


def folded_text(text: bytes) -> bytes:
    """Returns a canonical text with all names in RDATA in lower case, sorted anew and without records that became equal."""
    out: list[bytes] = []
    for (_, _, kind), group in groupby(text.split(b"\n")[:-1], _rrset):
        lines = list(group)
        if kind in FOLDED:
            lines = sorted({folded(it): None for it in lines}, key=_data)
        out += lines
    return b"".join(it + b"\n" for it in out)


def _rrset(line: bytes) -> tuple[bytes, bytes, bytes]:
    owner, _, rdclass, kind, _ = line.split(b" ", 4)
    return owner, rdclass, kind


def _data(line: bytes) -> bytes:
    """Returns the key of a line in the generic form within an RRset: hexadecimal digits are in the order of their octets."""
    return line.rpartition(b" ")[2]
