"""DNS messages (RFC 1035 4.1), as far as a transfer's end and its signatures need them. The engine reads the rest.

Each function raises IndexError or struct.error where a message ends too early, and Malformed.
"""
from __future__ import annotations

import struct
from collections.abc import Iterator

AXFR, SOA, TSIG, ANY = 252, 6, 250, 255
HEADER = 12


class Malformed(Exception):
    """What is wrong with a message."""


def after_name(message: bytes, offset: int) -> int:
    """Returns the offset after a name: after its root, or after its first pointer (RFC 1035 4.1.4)."""
    while True:
        octet = message[offset]
        if octet == 0:
            return offset + 1
        if octet >= 192:
            return offset + 2
        if octet >= 64:
            raise Malformed("a label has a reserved form")
        offset += 1 + octet


def expanded_name(message: bytes, offset: int) -> tuple[bytes, int]:
    """Returns the octets of a name, its pointers followed, and the offset after it. Each pointer leads further back."""
    name, begin, after, pointers = bytearray(), offset, 0, 0
    while octet := message[offset]:
        if octet >= 192:
            target = struct.unpack_from("!H", message, offset)[0] & 0x3FFF
            pointers += 1
            if not HEADER <= target < begin or pointers > 128:
                raise Malformed("a pointer doesn't lead back")
            after = after or offset + 2
            offset = begin = target
        elif octet >= 64:
            raise Malformed("a label has a reserved form")
        else:
            name += message[offset : offset + 1 + octet]
            offset += 1 + octet
            if len(name) > 254:
                raise Malformed("a name has more than 255 octets")
    return bytes(name) + b"\0", after or offset + 1


def whole_name(message: bytes, offset: int) -> bytes:
    """Returns the octets of a name in lower case, its pointers followed."""
    return expanded_name(message, offset)[0].lower()


def after_questions(message: bytes) -> int:
    """Returns the offset of the first record."""
    offset = HEADER
    for _ in range(struct.unpack_from("!H", message, 4)[0]):
        offset = after_name(message, offset) + 4
    return offset


def records(message: bytes, sections: int) -> Iterator[tuple[int, int, int]]:
    """Yields of each record of the first sections where it begins, its section and its type."""
    counts = struct.unpack_from("!HHHH", message, 4)
    offset = after_questions(message)
    for section in range(1, 1 + sections):
        for _ in range(counts[section]):
            begin, offset = offset, after_name(message, offset)
            kind, _, _, length = struct.unpack_from("!HHIH", message, offset)
            yield begin, section, kind
            offset += 10 + length


def soas_among_answers(message: bytes, class_number: int) -> int:
    """Returns how many of the answers are SOA records. A message without the octets of that type and class isn't walked."""
    if struct.pack("!HH", SOA, class_number) not in message:
        return 0
    return sum(kind == SOA for _, _, kind in records(message, 1))


def question(message: bytes) -> tuple[bytes, int, int] | None:
    """Returns the name, type and class of the question; None if there is none. Malformed if there are more."""
    count = struct.unpack_from("!H", message, 4)[0]
    if count > 1:
        raise Malformed("a message has more than one question")
    if not count:
        return None
    kind, number = struct.unpack_from("!HH", message, after_name(message, HEADER))
    return whole_name(message, HEADER), kind, number
