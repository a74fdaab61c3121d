"""Asks servers for many zones: one connection for each worker and server, the SOA before the transfer."""
from __future__ import annotations

import mmap
import os
import ssl
import struct
import time
from collections.abc import Callable, Iterator
from contextlib import contextmanager
from typing import TypeVar

from ..bounds import Clock, Limits, RanOut
from ..connections import Connection, Lost, Unreached, connect
from ..decoding import answers
from ..errors import Failure, Undone
from ..folding import after_name
from ..messages import SOA, Malformed
from ..names import class_name, shown_name, wire_name
from ..transfer import Frames, Query, ask, must_answer
from ..tsig import BadSignature, Key, Signatures
from .config import Server

T = TypeVar("T")
MOST_OF_REASON = 500
QUICK = 1.0  # seconds: a failure that came sooner costs little, and the server is asked again


class Together:
    """What the workers know of the servers together, in memory that they share: which ones are asked no more, and how many connections
    are open. Each worker writes its own count of answers."""

    def __init__(self, servers: list[Server], workers: int) -> None:
        self.workers, self.row = workers, 2 + MOST_OF_REASON + 5 * workers
        self.memory = mmap.mmap(-1, max(1, self.row * len(servers)))
        self.tokens = [os.pipe() if workers > it.connections else None for it in servers]
        for it, tokens in zip(servers, self.tokens):
            if tokens:
                os.write(tokens[1], bytes(it.connections))

    def reason(self, server: int) -> str | None:
        """Returns why a server is asked no more; None if it is asked."""
        at = server * self.row
        (length,) = struct.unpack_from("H", self.memory, at)
        return self.memory[at + 2 : at + 2 + length].decode("utf-8", "replace") if length else None

    def give_up(self, server: int, reason: str) -> None:
        """Asks a server no more."""
        text = reason.encode("utf-8", "replace")[:MOST_OF_REASON]
        self.memory[server * self.row + 2 : server * self.row + 2 + len(text)] = text
        struct.pack_into("H", self.memory, server * self.row, len(text))

    def _own(self, server: int, worker: int) -> int:
        return server * self.row + 2 + MOST_OF_REASON + 5 * worker

    def answered(self, server: int) -> int:
        """Returns how many queries of a server were answered."""
        return sum(struct.unpack_from("I", self.memory, self._own(server, it))[0] for it in range(self.workers))

    def answer(self, server: int, worker: int) -> None:
        """Counts an answer."""
        at = self._own(server, worker)
        struct.pack_into("I", self.memory, at, struct.unpack_from("I", self.memory, at)[0] + 1)

    def take(self, server: int, worker: int) -> None:
        """Waits until another connection to a server may be open."""
        if tokens := self.tokens[server]:
            os.read(tokens[0], 1)
            self.memory[self._own(server, worker) + 4] = 1

    def give_back(self, server: int, worker: int) -> None:
        """Says that a connection is closed, if this worker has one."""
        tokens, at = self.tokens[server], self._own(server, worker) + 4
        if tokens and self.memory[at]:
            self.memory[at] = 0
            os.write(tokens[1], b"\0")

    def ended(self, worker: int) -> None:
        """Says that a worker ended."""
        for server in range(len(self.tokens)):
            self.give_back(server, worker)


class Session:
    """How one worker asks one server."""

    def __init__(self, server: Server, number: int, worker: int, together: Together, max_size: int) -> None:
        self.server, self.number, self.worker, self.together = server, number, worker, together
        self.limits = Limits(max_size, server.timeout, server.deadline, 0)
        self.context: ssl.SSLContext | None = None
        self.connection: Connection | None = None

    @contextmanager
    def asked(self) -> Iterator[Clock]:
        """Starts the time of a pair. A server whose wait or deadline runs out, and that answered no other query meanwhile, is asked no
        more."""
        if reason := self.together.reason(self.number):
            raise Undone(reason)
        self.together.take(self.number, self.worker)
        before, began = self.together.answered(self.number), time.monotonic()
        try:
            yield self.limits.clock("the transfer")
        except (RanOut, Unreached) as failure:
            is_slow = isinstance(failure, RanOut) or time.monotonic() - began >= QUICK
            if is_slow and self.together.answered(self.number) == before:
                self.together.give_up(self.number, failure.text)
            raise
        except Failure:
            self.together.answer(self.number, self.worker)
            raise
        else:
            self.together.answer(self.number, self.worker)
        finally:
            if self.together.tokens[self.number]:
                self.close()
                self.together.give_back(self.number, self.worker)

    def close(self) -> None:
        """Closes the connection."""
        if self.connection:
            self.connection.socket.close()
            self.connection = None

    def _open(self, clock: Clock) -> Connection:
        if self.connection is None:
            it = self.server
            if it.tls and not self.context:
                self.context = it.trust.context("dot")
            host = it.address or ""
            self.connection = connect(host, it.port or (853 if it.tls else 53), it.tls_name or host, self.context, clock)
        self.connection.clock = clock
        return self.connection

    def _on_connection(self, work: Callable[[Connection], T], clock: Clock) -> T:
        """Returns what comes of a query. A connection that the server closed since the query before is opened anew."""
        is_kept = self.connection is not None
        try:
            found = work(self._open(clock))
            if self.connection and self.connection.rest:
                self.close()
            return found
        except BaseException as failure:
            self.close()
            if is_kept and isinstance(failure, Lost):
                return self._on_connection(work, clock)
            raise

    def soa(self, zone: str, key: Key | None, clock: Clock) -> list[str] | None:
        """Returns the SOA record as the fields of its canonical line; None where anything is wrong with the answer."""
        query = Query(wire_name(zone), self.server.rdclass, kind=SOA)

        def work(connection: Connection) -> list[str] | None:
            signatures = Signatures(key) if key else None
            message = signatures.signed(query.message()) if signatures else query.message()
            connection.sendall(struct.pack("!H", len(message)) + message)
            answer = Frames(connection).next()[2:]
            must_answer(answer, query)
            if signatures:
                signatures.check(answer, True)
            return _fields(answer, query)

        try:
            return self._on_connection(work, clock)
        except (RanOut, Unreached):
            raise
        except (Failure, Malformed, BadSignature, IndexError, struct.error):
            return None

    def transfer(self, zone: str, key: Key | None, clock: Clock) -> bytes:
        """Returns the messages of a transfer. Raises Failure."""
        query = Query(wire_name(zone), self.server.rdclass)

        def work(connection: Connection) -> bytes:
            kept = bytearray()
            ask(connection, query, key, self.limits, kept.extend)
            return bytes(kept)

        return self._on_connection(work, clock)


def _fields(answer: bytes, query: Query) -> list[str] | None:
    for it in answers(answer):
        if (it.kind, it.rdclass, it.owner.lower()) == (SOA, query.class_number, query.zone.lower()):
            names = [shown_name(it.data), shown_name(it.data[after_name(it.data, 0) :])]
            numbers = struct.unpack("!5L", it.data[-20:])
            return [shown_name(it.owner), str(it.ttl), class_name(it.rdclass), "SOA", *names, *map(str, numbers)]
    return None
