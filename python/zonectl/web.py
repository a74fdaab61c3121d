"""What a web server has: a GET over TLS with verified certificates."""
from __future__ import annotations

import http.client
import urllib.parse

from .bounds import Clock, Limits
from .connections import Connection, connected
from .errors import Undone
from .trust import Trust

REDIRECTS = 5
MOVED = frozenset((301, 302, 303, 307, 308))
PIECE = 1 << 20


def download(url: str, limits: Limits, trust: Trust) -> bytes:
    """Returns the body of a URL. Redirects lead to https alone, 5 at most. Raises Undone."""
    clock, context = limits.clock("the download"), trust.context("http/1.1")
    for _ in range(1 + REDIRECTS):
        parts = urllib.parse.urlsplit(url)
        host = parts.hostname or ""
        with connected(host, parts.port or 443, host, context, clock) as connection:
            moved, body = _answer(connection, parts, limits)
        if moved is None:
            return body
        url = _led_to(url, moved)
    raise Undone(f"more than {REDIRECTS} redirects")


def _led_to(url: str, location: str) -> str:
    try:
        target = urllib.parse.urljoin(url, location)
        parts = urllib.parse.urlsplit(target)
        is_good = parts.scheme == "https" and parts.hostname and "@" not in parts.netloc and (parts.port or 443)
    except ValueError:
        is_good = None
    if not is_good or not target.isascii() or not target.isprintable() or " " in target:
        raise Undone("a redirect leads elsewhere than to a URL of https")
    return urllib.parse.urlunsplit(parts._replace(fragment=""))


def _answer(connection: Connection, parts: urllib.parse.SplitResult, limits: Limits) -> tuple[str | None, bytes]:
    """Returns where a redirect leads, or None and the body."""
    request = http.client.HTTPConnection(parts.netloc)
    request.sock = connection  # it has what is called
    target = urllib.parse.urlunsplit(("", "", parts.path or "/", parts.query, ""))
    try:
        request.request("GET", target, headers={"User-Agent": "zonectl", "Accept-Encoding": "identity", "Connection": "close"})
        with request.getresponse() as response:
            if response.status in MOVED and (location := response.getheader("Location")):
                return location, b""
            if response.status != 200:
                raise Undone(f"the server answers with status {response.status} {response.reason}".rstrip())
            return None, _body(response, limits, connection.clock)
    except http.client.HTTPException as error:
        raise Undone(f"the server's answer isn't one of HTTP: {type(error).__name__}") from None


def _body(response: http.client.HTTPResponse, limits: Limits, clock: Clock) -> bytes:
    found = bytearray()
    while piece := response.read1(PIECE):
        found += piece
        clock.check()
        if len(found) > limits.max_size:
            raise limits.too_large()
    if response.length:
        raise Undone("the connection ended before the whole body came")
    return bytes(found)
