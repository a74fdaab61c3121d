"""Signed transfers (TSIG, RFC 8945): keys, the signature of the query and those of its answer.

Nothing of a key but its name is ever printed.
"""
from __future__ import annotations

import base64
import hmac
import re
import struct
import time
from dataclasses import dataclass, field
from typing import NamedTuple

from .messages import ANY, TSIG, Malformed, after_name, records, whole_name
from .names import wire_name

FUDGE = 300  # seconds by which clocks may differ (RFC 8945 section 10)
UNSIGNED = 99  # messages that may lack a signature between two that have one (section 5.3.1)
ALGORITHMS = {  # the names of the key file and of the record (section 6), and Python's
    "hmac-md5": ("hmac-md5.sig-alg.reg.int", "md5"),
    **{f"hmac-{it}": (f"hmac-{it}", it) for it in ("sha1", "sha224", "sha256", "sha384", "sha512")},
}
KEY_ERRORS = {  # RFC 8945 section 3
    16: "BADSIG: it finds another signature, so the secrets differ",
    17: "BADKEY: it doesn't know this key with this algorithm",
    18: "BADTIME: its clock and this one differ too much",
    22: "BADTRUNC: it wants a longer signature",
}
TOKEN = re.compile(r'(?P<comment>/\*.*?\*/|(?://|#)[^\n]*)|"([^"]*)"|([{};]|[^\s{};"]+)', re.S)
STATEMENT = re.compile(r"key (\S+) { (\w+) (\S+) ; (\w+) (\S+) ; } ;(?: |$)")


class BadSignature(Exception):
    """What is wrong with the signatures."""


@dataclass(frozen=True)
class Key:
    """A key. Its secret is in no representation of it."""

    name: bytes  # in wire format, lower case
    algorithm: bytes  # in wire format
    digest: str
    secret: bytes = field(repr=False)

    def mac(self, octets: bytes) -> bytes:
        """Returns the signature of octets."""
        return hmac.new(self.secret, octets, self.digest).digest()

    def variables(self, timers: bytes, error: int = 0, other: bytes = b"") -> bytes:
        """Returns what is signed after a message (RFC 8945 section 4.3.3)."""
        end = struct.pack("!HH", error, len(other)) + other
        return self.name + struct.pack("!HI", ANY, 0) + self.algorithm + timers + end


def _key(name: str, stated: dict[str, str]) -> Key:
    if set(stated) != {"algorithm", "secret"}:
        raise ValueError("a key statement needs an algorithm and a secret")
    if stated["algorithm"].lower() not in ALGORITHMS:
        raise ValueError("its algorithm isn't " + ", ".join(ALGORITHMS))
    algorithm, digest = ALGORITHMS[stated["algorithm"].lower()]
    try:
        wire = wire_name(name.lower())
    except ValueError:
        raise ValueError("its name isn't one in ASCII") from None
    try:
        secret = base64.b64decode(stated["secret"], validate=True)
    except ValueError:
        raise ValueError("its secret isn't base64") from None
    key = Key(wire, wire_name(algorithm), digest, secret)
    key.mac(b"")  # fails if this Python lacks the digest
    return key


def keys_of(text: str) -> list[Key]:
    """Returns the keys of a key file, as `tsig-keygen` writes it. Raises ValueError, without any of its text."""
    tokens = " ".join(it[it.lastindex or 0] for it in TOKEN.finditer(text) if it.lastgroup != "comment")
    keys, at = [], 0
    while found := STATEMENT.match(tokens, at):
        keys.append(_key(found[1], {found[2]: found[3], found[4]: found[5]}))
        at = found.end()
    if not keys or at != len(tokens):
        raise ValueError("it isn't key statements with an algorithm and a secret")
    return keys


class Signature(NamedTuple):
    """What a TSIG record says (RFC 8945 section 4.2)."""

    begin: int  # where the record begins in its message
    key: bytes
    algorithm: bytes
    timers: bytes  # the time and by how much it may be off
    mac: bytes
    ident: bytes  # the ID that the message was signed with
    error: int
    other: bytes


def signature_at(message: bytes, begin: int) -> Signature:
    """Returns the TSIG record that begins there, and ends its message."""
    offset = after_name(message, begin)
    _, number, ttl, length = struct.unpack_from("!HHIH", message, offset)
    timers = after_name(message, offset + 10)
    (size,) = struct.unpack_from("!H", message, timers + 8)
    after = timers + 10 + size
    ident, error, more = struct.unpack_from("!2sHH", message, after)
    end = after + 6 + more
    if (number, ttl) != (ANY, 0) or not end == offset + 10 + length == len(message):
        raise BadSignature("a TSIG record is malformed")
    return Signature(
        begin, whole_name(message, begin), whole_name(message, offset + 10), message[timers : timers + 8],
        message[timers + 10 : after], ident, error, message[after + 6 : end])


def signature_of(message: bytes) -> Signature | None:
    """Returns the signature of a message: its last record, of the additional section."""
    every = list(records(message, 3))
    if all(kind != TSIG for _, _, kind in every):
        return None
    begin, section, kind = every[-1]
    if (section, kind) != (3, TSIG) or sum(it[2] == TSIG for it in every) > 1:
        raise BadSignature("a TSIG record isn't the last of its message")
    return signature_at(message, begin)


def key_error(message: bytes) -> str:
    """Returns the error code of a message's TSIG record with what it means; nothing if there is none."""
    try:
        signature = signature_of(message)
    except (IndexError, struct.error, BadSignature, Malformed):
        return ""
    return named(KEY_ERRORS, signature.error) if signature and signature.error else ""


def named(meanings: dict[int, str], number: int) -> str:
    """Returns an error code with what it means."""
    return f"error code {number}, {meanings[number]}" if number in meanings else f"error code {number}"


class Signatures:
    """The signatures of one query and its answer (RFC 8945 section 5.3)."""

    def __init__(self, key: Key) -> None:
        self.key, self.last, self.is_first = key, b"", True
        self.unsigned: list[bytes] = []

    def signed(self, message: bytes) -> bytes:
        """Returns the query with its signature."""
        now = int(time.time())
        timers = struct.pack("!HIH", now >> 32, now & 0xFFFFFFFF, FUDGE)
        self.last = self.key.mac(message + self.key.variables(timers))
        data = self.key.algorithm + timers + struct.pack("!H", len(self.last)) + self.last
        data += message[:2] + struct.pack("!HH", 0, 0)
        record = self.key.name + struct.pack("!HHIH", TSIG, ANY, 0, len(data)) + data
        return message[:10] + struct.pack("!H", 1) + message[12:] + record

    def check(self, message: bytes, is_last: bool) -> bool:
        """Returns whether a message has a signature, which is right and covers those before it too.

        A signature that is cut (section 5.2.2.1) is wrong here, since the query's was whole. Raises BadSignature.
        """
        signature = signature_of(message)
        if not signature:
            self.unsigned.append(message)
            if self.is_first or is_last or len(self.unsigned) > UNSIGNED:
                raise BadSignature("a message that must be signed isn't")
            return False
        if (signature.key, signature.algorithm) != (self.key.name, self.key.algorithm):
            raise BadSignature("a signature is by another key or algorithm")
        if not hmac.compare_digest(self.key.mac(self._covered(message, signature)), signature.mac):
            raise BadSignature("a signature is wrong: a message was altered, or secrets differ")
        if signature.error:
            raise BadSignature(f"a signature comes with {named(KEY_ERRORS, signature.error)}")
        must_be_timely(signature.timers)
        self.last, self.is_first, self.unsigned = signature.mac, False, []
        return True

    def _covered(self, message: bytes, signature: Signature) -> bytes:
        """Returns the octets that a signature covers (RFC 8945 sections 4.3 and 5.3.1)."""
        (additional,) = struct.unpack_from("!H", message, 10)
        before = struct.pack("!H", len(self.last)) + self.last + b"".join(self.unsigned)
        header = signature.ident + message[2:10] + struct.pack("!H", additional - 1)
        after = signature.timers
        if self.is_first:
            after = self.key.variables(signature.timers, signature.error, signature.other)
        return before + header + message[12 : signature.begin] + after


def must_be_timely(timers: bytes) -> None:
    """Refuses a signature whose time is off by more than it allows (RFC 8945 section 5.2.3)."""
    high, low, fudge = struct.unpack("!HIH", timers)
    if abs((high << 32) + low - time.time()) > fudge:
        raise BadSignature("the time of a signature is off: the clocks differ, or it is an old one")
