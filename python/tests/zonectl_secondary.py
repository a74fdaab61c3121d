"""A secondary on loopback that sends one zone under whatever name it is asked for; a label of the name says what it does otherwise."""
from __future__ import annotations

import contextlib
import socketserver
import struct
import threading
from collections import Counter
from collections.abc import Iterator

ZONE = "$TTL 1h\n@ SOA ns h 7 2 3 4 5\n@ NS ns\nns A 192.0.2.1\n"  # which it sends
HERE = b"\xc0\x0c"
SOA, AXFR = 6, 252


class Secondary(socketserver.ThreadingTCPServer):
    """The server, and how many queries of each type and connections it saw."""

    request_queue_size, daemon_threads, allow_reuse_address = 256, True, True

    def __init__(self, host: str = "127.0.0.1") -> None:
        super().__init__((host, 0), Asked)
        self.over, self.queries, self.names = threading.Event(), Counter[int](), Counter[bytes]()
        self.connections = self.busy = self.most = 0  # how many queries it answers, and answered at once
        self.lock = threading.Lock()

    @property
    def port(self) -> int:
        """Its port."""
        return int(self.server_address[1])

    def handle_error(self, request: object, client_address: object) -> None:
        """Says nothing: clients go away."""


class Asked(socketserver.BaseRequestHandler):
    """One connection."""

    server: Secondary

    def _received(self, count: int) -> bytes:
        octets = b""
        while len(octets) < count:
            piece = self.request.recv(count - len(octets))
            if not piece:
                return b""
            octets += piece
        return octets

    def handle(self) -> None:
        with self.server.lock:
            self.server.connections += 1
        with contextlib.suppress(OSError):
            while length := self._received(2):
                query = self._received(struct.unpack("!H", length)[0])
                with self.server.lock:
                    self.server.busy += 1
                    self.server.most = max(self.server.most, self.server.busy)
                if not self.answer(query):
                    break

    def answer(self, query: bytes) -> bool:
        """Answers a query. False: the connection ends."""
        end = 12
        while query[end]:
            end += 1 + query[end]
        name, (kind,) = query[12:end].lower(), struct.unpack_from("!H", query, end + 1)
        with self.server.lock:
            self.server.queries[kind] += 1
            self.server.names[name] += 1
        if b"silent" in name or kind == AXFR and b"stuck" in name:
            self.server.over.wait(20)
            return False
        if b"endless" in name and kind == AXFR:
            return self.endless(query[:2], query[12 : end + 5])
        message = answered(query[:2], name, query[12 : end + 5], kind)
        octets = struct.pack("!H", len(message)) + message
        with self.server.lock:
            self.server.busy -= 1
        if b"drips" in name:
            for octet in octets:
                if self.server.over.wait(0.05):
                    return False
                self.request.sendall(bytes([octet]))
            return True
        self.request.sendall(octets)
        return b"closes" not in name

    def endless(self, ident: bytes, question: bytes) -> bool:
        """Sends a transfer of a gibibyte."""
        first = ident + b"\x84\0" + struct.pack("!4H", 1, 1, 0, 0) + question + record(HERE, SOA, soa(7))
        self.request.sendall(struct.pack("!H", len(first)) + first)
        text = ident + b"\x84\0" + struct.pack("!4H", 0, 1, 0, 0) + record(b"\1x\0", 16, b"\xff" * 256 * 200)
        for _ in range((1 << 30) // len(text)):
            if self.server.over.is_set():
                return False
            self.request.sendall(struct.pack("!H", len(text)) + text)
        return False


def soa(serial: int) -> bytes:
    """Returns the data of an SOA record whose names end with the question's."""
    return b"\2ns" + HERE + b"\1h" + HERE + struct.pack("!5L", serial, 2, 3, 4, 5)


def record(owner: bytes, kind: int, data: bytes) -> bytes:
    """Returns a record."""
    return owner + struct.pack("!HHLH", kind, 1, 3600, len(data)) + data


def answered(ident: bytes, name: bytes, question: bytes, kind: int) -> bytes:
    """Returns the answer to a query."""
    code = b"\x84\x05" if b"refusing" in name or kind == SOA and b"nosoa" in name else b"\x84\x00"
    serial = 6 if b"behind" in name else 8 if b"ahead" in name else 7 + (1 << 31) if b"unordered" in name else 7
    first = record(HERE, SOA, soa(serial))
    records = [first]
    if kind == AXFR:
        records = [first, record(HERE, 2, b"\2ns" + HERE), record(b"\2ns" + HERE, 1, bytes([192, 0, 2, 2 if b"differs" in name else 1])), first]
        if b"broken" in name:
            records.insert(1, record(b"\2ns" + HERE, 1, b"\1"))
    if kind == SOA and b"wrongid" in name:
        ident = bytes([ident[0] ^ 1]) + ident[1:]
    count = 0 if code[1] else len(records)
    return ident + code + struct.pack("!4H", 1, count, 0, 0) + question + (b"" if code[1] else b"".join(records))


@contextlib.contextmanager
def secondary() -> Iterator[Secondary]:
    """Runs a secondary."""
    with Secondary() as server:
        threading.Thread(target=server.serve_forever, kwargs={"poll_interval": 0.02}, daemon=True).start()
        try:
            yield server
        finally:
            server.over.set()
            server.shutdown()
