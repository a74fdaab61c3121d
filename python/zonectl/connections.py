"""TCP and TLS connections of which every wait is bounded."""
from __future__ import annotations

import errno
import io
import socket
import ssl
import threading
from collections.abc import Iterator, Sequence
from contextlib import contextmanager
from typing import Any

from .bounds import Clock
from .errors import Undone, system_reason
from .texts import duration

REASONS = {
    errno.ECONNREFUSED: "the connection was refused",
    errno.ECONNRESET: "the connection was reset",
    errno.EPIPE: "the connection was closed",
    errno.EHOSTUNREACH: "there is no route to the host",
    errno.ENETUNREACH: "the network is unreachable",
    errno.ETIMEDOUT: "the connection timed out",
}


class Unreached(Undone):
    """Why a server can't be reached."""


class Lost(Undone):
    """A connection ended or broke."""


def network_reason(error: OSError) -> str:
    """Returns what went wrong with a connection, for people."""
    if isinstance(error, ssl.SSLCertVerificationError):
        return f"its certificate isn't trusted: {error.verify_message.rstrip('.')}"
    if isinstance(error, ssl.SSLError):
        reason = (error.reason or "").replace("_", " ").lower()
        return f"TLS failed: {reason}" if reason else "TLS failed: the connection ended"
    return REASONS.get(error.errno or 0) or system_reason(error)


class Connection(io.RawIOBase):
    """A connection to a server, which http.client takes for a socket and for its file."""

    def __init__(self, connected: socket.socket, clock: Clock) -> None:
        self.socket, self.clock = connected, clock
        self.rest = bytearray()  # what came and wasn't asked for yet

    @contextmanager
    def _waiting(self) -> Iterator[None]:
        self.socket.settimeout(self.clock.wait())
        try:
            yield
        except TimeoutError:
            raise self.clock.silence() from None
        except OSError as error:
            raise Lost(network_reason(error)) from None

    def recv(self, count: int) -> bytes:
        """Returns the next octets, at most `count`; none at the end."""
        with self._waiting():
            return self.socket.recv(count)

    def sendall(self, octets: bytes | bytearray | memoryview) -> None:
        """Sends octets."""
        with self._waiting():
            self.socket.sendall(octets)

    def makefile(self, _mode: str) -> io.BufferedReader:
        """Returns the connection as a file to read."""
        return io.BufferedReader(self)

    def readable(self) -> bool:
        """Returns True."""
        return True

    def readinto(self, room: Any) -> int:
        """Reads into a buffer, and returns how many octets came."""
        with self._waiting():
            return self.socket.recv_into(room)

    def close(self) -> None:
        """Closes nothing: http.client does so before the body is read."""


def addresses(host: str, port: int, clock: Clock) -> Sequence[tuple[Any, ...]]:
    """Returns the addresses of a host. A name is looked up in a thread, since nothing else bounds how long that takes."""
    found: list[Sequence[tuple[Any, ...]]] = []

    def look_up() -> None:
        try:
            found.append(socket.getaddrinfo(host, port, type=socket.SOCK_STREAM))
        except (OSError, UnicodeError):
            found.append([])

    thread = threading.Thread(target=look_up, daemon=True)
    thread.start()
    thread.join(clock.wait())
    if not found:
        raise clock.silence()
    if not found[0]:
        raise Unreached(f"the name {host} has no address")
    return found[0]


def _connected(address: tuple[Any, ...], name: str, context: ssl.SSLContext | None, clock: Clock) -> socket.socket:
    """Returns a socket that is connected to one address, over TLS if there is a context. Raises OSError."""
    family, kind, protocol, _, at = address
    made = socket.socket(family, kind, protocol)
    try:
        made.settimeout(clock.wait())
        made.connect(at)
        if context:
            made = context.wrap_socket(made, server_hostname=name, do_handshake_on_connect=False)
            made.settimeout(clock.wait())
            made.do_handshake()
    except BaseException:
        made.close()
        raise
    return made


def connect(host: str, port: int, name: str, context: ssl.SSLContext | None, clock: Clock) -> Connection:
    """Connects to a host: its addresses are tried in order. Raises Unreached, or what a deadline raises."""
    reason = ""
    for address in addresses(host, port, clock):
        try:
            return Connection(_connected(address, name, context, clock), clock)
        except TimeoutError:
            clock.check(early=0.01)
            reason = f"no answer within {duration(clock.limits.timeout)} (--timeout)"
        except OSError as error:
            reason = network_reason(error)
        except ValueError:  # of a name that TLS can't send
            reason = "its name isn't one that a certificate can have"
    raise Unreached(reason)


@contextmanager
def connected(host: str, port: int, name: str, context: ssl.SSLContext | None, clock: Clock) -> Iterator[Connection]:
    """Connects to a host as long as it is needed."""
    connection = connect(host, port, name, context, clock)
    try:
        yield connection
    finally:
        connection.socket.close()
