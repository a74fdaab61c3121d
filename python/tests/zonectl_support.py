"""What the tests of zonectl have in common: runs of the command, and servers on loopback that behave in many ways."""
from __future__ import annotations

import contextlib
import io
import json
import os
import re
import socket
import socketserver
import ssl
import struct
import subprocess
import sys
import tempfile
import threading
import unittest
from collections.abc import Callable, Iterator
from pathlib import Path
from typing import Any, NamedTuple

import zonectl
from zonectl.main import main

HERE = Path(__file__).resolve().parent
EXAMPLES = Path(os.environ.get("ZONENORM_EXAMPLES") or HERE.parents[1] / "examples")
TLS = HERE / "tls"
SMALL = "$ORIGIN x.\n@ 60 SOA n h 1 2 3 4 5\n@ 60 NS n\nn 60 A 192.0.2.1\n"
Behaviour = Callable[[socket.socket, bytes, "Server"], None]


class Ran(NamedTuple):
    """What came of a run."""

    status: int
    out: str
    err: str


def ran(*arguments: str) -> Ran:
    """Runs zonectl in this process."""
    out, err = (io.TextIOWrapper(io.BytesIO(), "utf-8", errors="zonectl", write_through=True) for _ in range(2))
    with contextlib.redirect_stdout(out), contextlib.redirect_stderr(err):
        status = main(list(arguments))
    texts = [stream.buffer.getvalue().decode("utf-8", "surrogateescape") for stream in (out, err)]  # type: ignore[attr-defined]
    return Ran(int(status), texts[0], texts[1])


def command(*arguments: str) -> list[str]:
    """Returns how zonectl is run as a process of its own."""
    return [sys.executable, "-m", "zonectl", *arguments]


def environment(**more: str) -> dict[str, str]:
    """Returns the environment of such a process."""
    path = os.pathsep.join([str(HERE.parent), *filter(None, [os.environ.get("PYTHONPATH")])])
    return {**os.environ, "PYTHONPATH": path, "PYTHONDONTWRITEBYTECODE": "1", "LC_ALL": "C.UTF-8", **more}


def run_alone(*arguments: str, given: bytes = b"", **more: str) -> Ran:
    """Runs zonectl as a process of its own."""
    it = subprocess.run(command(*arguments), input=given, capture_output=True, timeout=60, env=environment(**more))
    return Ran(it.returncode, it.stdout.decode("utf-8", "surrogateescape"), it.stderr.decode("utf-8", "surrogateescape"))


class InFolder(unittest.TestCase):
    """A test that runs in an empty folder of its own."""

    def setUp(self) -> None:
        room = tempfile.TemporaryDirectory(prefix="zonectl-")
        self.addCleanup(room.cleanup)
        self.addCleanup(os.chdir, os.getcwd())
        os.chdir(room.name)
        self.folder = Path(room.name)

    def write(self, name: str, text: str | bytes) -> str:
        """Writes a file, and returns its name."""
        path = self.folder / name
        path.parent.mkdir(parents=True, exist_ok=True)
        path.write_bytes(text.encode() if isinstance(text, str) else text)
        return name

    def example(self, name: str) -> str:
        """Copies an example, and returns its name."""
        return self.write(name, (EXAMPLES / name).read_bytes())

    def assert_failed(self, it: Ran, status: int, err: str) -> None:
        """Sees that a run ended with a status and just this line on standard error."""
        self.assertEqual((it.status, it.err), (status, err + "\n"))


def faults(value: Any, schema: Any, at: str = "") -> Iterator[str]:
    """Yields where a value isn't as a JSON Schema has it, for the words that the schemas of zonectl have."""
    kinds: dict[str, Any] = {"object": dict, "array": list, "string": str, "integer": int, "number": (int, float), "boolean": bool, "null": type(None)}
    names = schema.get("type", [])
    names = [names] if isinstance(names, str) else names
    if names and not any(isinstance(value, kinds[it]) and (it == "boolean" or not isinstance(value, bool)) for it in names):
        yield f"{at}: not of type {names}"
        return
    if "const" in schema and value != schema["const"] or "enum" in schema and value not in schema["enum"]:
        yield f"{at}: {value!r} isn't allowed"
    if "pattern" in schema and not re.search(schema["pattern"], value) or "minimum" in schema and value is not None and value < 0:
        yield f"{at}: {value!r} isn't right"
    if isinstance(value, dict):
        yield from (f"{at}.{name}: missing" for name in schema["required"] if name not in value)
        for name, it in value.items():
            yield from faults(it, schema["properties"][name], f"{at}.{name}")
    if isinstance(value, list):
        for number, it in enumerate(value):
            yield from faults(it, schema["items"], f"{at}[{number}]")


def see(test: unittest.TestCase, name: str, *arguments: str) -> Any:
    """Returns the object of a run, which has to be one line in ASCII and fit its schema."""
    it = ran(*arguments)
    test.assertTrue(it.out.isascii() and it.out.count("\n") == 1, it)
    found = json.loads(it.out)
    schema = json.loads((Path(zonectl.__file__).parent / f"schemas/{name}.json").read_text())
    test.assertEqual(schema["title"], f"zonectl-{name}/1")
    test.assertEqual(list(faults(found, schema)), [])
    test.assertEqual(found["status"], it.status)
    return found


def frames(octets: bytes) -> Iterator[bytes]:
    """Yields the messages of a stream."""
    at = 0
    while at < len(octets):
        (length,) = struct.unpack_from("!H", octets, at)
        yield octets[at + 2 : at + 2 + length]
        at += 2 + length


def framed(*messages: bytes) -> bytes:
    """Returns messages as a stream."""
    return b"".join(struct.pack("!H", len(it)) + it for it in messages)


def answers(stream: bytes, query: bytes) -> bytes:
    """Returns a captured transfer as the answer to a query: with its ID."""
    return framed(*(query[:2] + message[2:] for message in frames(stream)))


def sends(stream: bytes) -> Behaviour:
    """A server that sends a captured transfer."""
    return lambda connection, query, server: connection.sendall(answers(stream, query))


def drips(stream: bytes, seconds: float = 0.05) -> Behaviour:
    """A server that sends an octet at a time."""

    def behave(connection: socket.socket, query: bytes, server: Server) -> None:
        for octet in answers(stream, query):
            if server.over.wait(seconds):
                return
            connection.sendall(bytes([octet]))

    return behave


def silent(connection: socket.socket, query: bytes, server: Server) -> None:
    """A server that sends nothing."""
    server.over.wait(20)


def reset(connection: socket.socket, query: bytes, server: Server) -> None:
    """A server that resets the connection."""
    connection.setsockopt(socket.SOL_SOCKET, socket.SO_LINGER, struct.pack("ii", 1, 0))
    connection.close()


class Server(socketserver.ThreadingTCPServer):
    """A server on loopback. It reads one query and behaves."""

    daemon_threads = True
    request_queue_size = 64

    def __init__(self, behave: Behaviour, context: ssl.SSLContext | None = None, is_dns: bool = True, host: str = "127.0.0.1") -> None:
        self.address_family = socket.AF_INET6 if ":" in host else socket.AF_INET
        self.behave, self.context, self.is_dns, self.over = behave, context, is_dns, threading.Event()
        self.queries: list[bytes] = []
        super().__init__((host, 0), Handler)

    @property
    def port(self) -> int:
        """Its port."""
        return int(self.server_address[1])

    def handle_error(self, request: object, client_address: object) -> None:
        """Says nothing: clients go away."""


class Handler(socketserver.BaseRequestHandler):
    """One connection."""

    server: Server

    def handle(self) -> None:
        connection: socket.socket = self.request
        if self.server.context:
            connection = self.server.context.wrap_socket(connection, server_side=True)
        query = connection.recv(65537)
        if self.server.is_dns:
            while len(query) >= 2 and len(query) < 2 + struct.unpack_from("!H", query)[0]:
                query += connection.recv(65537)
            query = query[2:]
        self.server.queries.append(query)
        with contextlib.suppress(OSError):
            self.server.behave(connection, query, self.server)
        if self.server.context:
            connection.close()


@contextlib.contextmanager
def serving(
    behave: Behaviour, context: ssl.SSLContext | None = None, is_dns: bool = True, host: str = "127.0.0.1",
) -> Iterator[Server]:
    """Runs a server."""
    with Server(behave, context, is_dns, host) as server:
        thread = threading.Thread(target=server.serve_forever, kwargs={"poll_interval": 0.02}, daemon=True)
        thread.start()
        try:
            yield server
        finally:
            server.over.set()
            server.shutdown()


def tls_server() -> ssl.SSLContext:
    """Returns how a server on loopback speaks TLS, with the certificate of ns.example."""
    context = ssl.SSLContext(ssl.PROTOCOL_TLS_SERVER)
    context.load_cert_chain(TLS / "server.pem")
    context.set_alpn_protocols(["dot", "http/1.1"])
    return context
