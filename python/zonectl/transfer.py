"""Zone transfers: asks a server for one (AXFR, RFC 5936), and keeps the octets of its answer.

With a key the query is signed, and only messages that a right signature covers are kept (TSIG, RFC 8945).
"""
from __future__ import annotations

import secrets
import struct
from collections.abc import Callable
from dataclasses import dataclass, field
from typing import Protocol

from .bounds import Limits
from .connections import Lost
from .errors import Failure, Refusal, Undone
from .messages import AXFR, HEADER, Malformed, question, soas_among_answers
from .tsig import BadSignature, Key, Signatures, key_error, named

PIECE = 1 << 16
CODES = {  # RFC 1035 section 4.1.1, RFC 2136 section 2.2
    1: "FORMERR: it can't read the query",
    2: "SERVFAIL: it has no valid copy of the zone now, or failed",
    3: "NXDOMAIN: it knows no such name",
    4: "NOTIMP: it sends no transfers",
    5: "REFUSED: it doesn't let this address or this key transfer the zone",
    9: "NOTAUTH: it isn't authoritative for this zone",
}


class Stream(Protocol):
    """What a server is asked over."""

    def recv(self, count: int, /) -> bytes:
        """Returns the next octets, at most `count`; none at the end."""

    def sendall(self, octets: bytes, /) -> None:
        """Sends octets."""


@dataclass(frozen=True)
class Query:
    """A query for a zone. Only the question is in it (RFC 5936 2.1)."""

    zone: bytes  # in wire format
    class_number: int = 1
    ident: bytes = field(default_factory=lambda: struct.pack("!H", secrets.randbelow(65536)))
    kind: int = AXFR

    def message(self) -> bytes:
        """Returns the message."""
        return self.ident + struct.pack("!HHHHH", 0, 1, 0, 0, 0) + self.zone + struct.pack("!HH", self.kind, self.class_number)


class Frames:
    """The messages of a stream, each after its length of two octets."""

    def __init__(self, connection: Stream) -> None:
        rest = getattr(connection, "rest", None)  # where the connection serves another query after this one
        self.connection, self.rest = connection, bytearray() if rest is None else rest

    def _fill(self, count: int) -> None:
        while len(self.rest) < count:
            piece = self.connection.recv(PIECE)
            if not piece:
                raise Lost("the connection ended before the closing SOA")
            self.rest += piece

    def next(self) -> bytes:
        """Returns the next message with its length."""
        self._fill(2)
        length = 2 + struct.unpack_from("!H", self.rest)[0]
        self._fill(length)
        frame = bytes(self.rest[:length])
        del self.rest[:length]
        return frame


def must_answer(message: bytes, query: Query) -> None:
    """Refuses a message with another ID (RFC 5936 2.2.1), an error code or another question."""
    if len(message) < HEADER:
        raise Undone("a message ends too early")
    if message[:2] != query.ident:
        raise Undone("a message answers another query: its ID isn't that of this one")
    code = message[3] & 15
    if code:
        raise Undone(f"the server answers with {key_error(message) or named(CODES, code)}")
    asked = question(message)
    if asked and asked != (query.zone.lower(), query.kind, query.class_number):
        raise Undone("a message answers another question")


def capture(
    connection: Stream, query: Query, signatures: Signatures | None, limits: Limits, sink: Callable[[bytes], object],
) -> int:
    """Hands messages to `sink`, each after its length, up to the one in which an SOA comes the second time. Returns how many came.

    With signatures they are held back until one covers them. Raises Failure.
    """
    frames, held = Frames(connection), bytearray()
    soas = octets = count = 0
    try:
        while soas < 2:
            frame = frames.next()
            octets, count = octets + len(frame), count + 1
            if octets > limits.max_size:
                raise limits.too_large()
            held += frame
            if not signatures:
                sink(bytes(held))
                held.clear()
            message = frame[2:]
            must_answer(message, query)
            soas += soas_among_answers(message, query.class_number)
            if signatures and signatures.check(message, soas >= 2):
                sink(bytes(held))
                held.clear()
    except (IndexError, struct.error):
        raise Undone("a message ends too early") from None
    except Malformed as error:
        raise Undone(str(error)) from None
    except BadSignature as error:
        raise Refusal(str(error)) from None
    except Failure:
        if not signatures:
            sink(bytes(frames.rest))
        raise
    return count


def ask(
    connection: Stream, query: Query, key: Key | None, limits: Limits, sink: Callable[[bytes], object],
) -> int:
    """Sends a query and captures its answer. Returns how many messages came."""
    signatures = Signatures(key) if key else None
    message = signatures.signed(query.message()) if signatures else query.message()
    connection.sendall(struct.pack("!H", len(message)) + message)
    return capture(connection, query, signatures, limits, sink)
