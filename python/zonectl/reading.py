"""Reads the octets of a source, within its limits of size and time, and says what they are: a master file or a transfer."""
from __future__ import annotations

import io
import os
import re
import select
import stat
import zlib
from collections.abc import Callable
from dataclasses import dataclass, field
from typing import TYPE_CHECKING

from . import dig
from .bounds import Limits
from .errors import Refusal, Undone, Usage
from .names import wire_name
from .sources import File, Git, Server, Source, Standard, Web
from .trust import Trust

if TYPE_CHECKING:
    from .tsig import Key

PIECE = 1 << 20
GZIP = b"\x1f\x8b\x08"
BYTE_ORDER_MARK = b"\xef\xbb\xbf"
# First octets of what is no master file, what it is and what to do.
OTHER_FORMATS = (
    (rb"\xfd7zXZ\0", "it is xz: unpack it (xz -dc) and give it as -"),
    (rb"BZh[1-9](?:1AY&SY|\x17\x72\x45\x38)", "it is bzip2: unpack it (bzip2 -dc) and give it as -"),
    (rb"\x28\xb5\x2f\xfd", "it is zstd: unpack it (zstd -dc) and give it as -"),
    (rb"PK(?:\x03\x04|\x05\x06|\x07\x08)", "it is zip: unpack it (unzip -p) and give it as -"),
    (rb"\xd4\xc3\xb2\xa1|\xa1\xb2\xc3\xd4|\x4d\x3c\xb2\xa1|\xa1\xb2\x3c\x4d", "it is pcap: capture the transfer with zonectl fetch"),
    (rb"\x0a\x0d\x0d\x0a(?s:.{4})(?:\x4d\x3c\x2b\x1a|\x1a\x2b\x3c\x4d)", "it is pcapng: capture the transfer with zonectl fetch"),
    (rb"\xff\xfe|\xfe\xff", "it is UTF-16: convert it (iconv -f UTF-16 -t UTF-8) and give it as -"),
    (rb"\0\0\0[\x02\x03]\0\0\0[\0\x01]", "it is BIND's raw format: write it as text (named-compilezone -f raw -F text)"),
    (rb";BIND LOG V9", "it is a journal of BIND: call rndc sync and read the zone's file"),
)


@dataclass(frozen=True)
class Access:
    """How sources are reached: keys by name in wire format, what TLS trusts, and limits."""

    limits: Limits = field(default_factory=Limits)
    keys: dict[bytes, Key] = field(default_factory=dict)
    trust: Trust = field(default_factory=Trust)

    def key_of(self, server: Server) -> Key | None:
        """Returns the key that signs the query to a server: that of `KEY@`, or the only one. Raises Usage."""
        if server.key is not None:
            key = self.keys.get(wire_name(server.key).lower())
            if not key:
                raise Usage(f"no key file has the key {server.key} (--key FILE)", server.text)
            return key
        if len(self.keys) > 1:
            raise Usage("there are several keys: axfr://KEY@HOST/ZONE says which one signs", server.text)
        return next(iter(self.keys.values()), None)


@dataclass(frozen=True)
class Read:
    """What was read: a master file, or the messages of a transfer, each after its length."""

    octets: bytes
    is_transfer: bool = False
    has_mark: bool = False  # whether a byte order mark came before the octets


def read(source: Source, access: Access) -> Read:
    """Reads a source. Raises Failure or OSError."""
    if isinstance(source, Server):
        kept = bytearray()
        transferred(source, access, kept.extend)
        return Read(bytes(kept), True)
    octets = stored_octets(source, access)
    if octets.startswith(GZIP):
        octets = unpacked(octets, access.limits)
    form = source.form if isinstance(source, File) else ""
    return _recognised(octets, form)


def _recognised(octets: bytes, form: str) -> Read:
    if form == "capture":
        return Read(octets, True)
    for first, what in OTHER_FORMATS:
        if re.match(first, octets):
            raise Refusal(what)
    if form != "file" and form != "dig" and is_capture(octets):
        return Read(octets, True)
    text = octets.removeprefix(BYTE_ORDER_MARK)
    return Read(dig.master_file(text) if form == "dig" else text, has_mark=text != octets)


def is_capture(octets: bytes) -> bool:
    """Whether octets are messages after their lengths: QR is set, the opcode is 0 and there is at most one question."""
    return len(octets) > 7 and octets[4] & 0xF8 == 0x80 and octets[6] == 0 and octets[7] <= 1


def unpacked(octets: bytes, limits: Limits) -> bytes:
    """Returns what is in a gzip file, of all its members. Raises Refusal or Undone."""
    import gzip

    found, clock = bytearray(), limits.clock("unpacking")
    try:
        with gzip.GzipFile(fileobj=io.BytesIO(octets)) as file:
            while piece := file.read(PIECE):
                found += piece
                clock.check()
                if len(found) > limits.max_size:
                    raise limits.too_large()
    except EOFError:
        raise Refusal("the gzip file is cut off") from None
    except (gzip.BadGzipFile, zlib.error):
        raise Refusal("the gzip file is broken") from None
    if found.startswith(GZIP):
        raise Refusal("it is gzip inside gzip; one level is read")
    return bytes(found)


def stored_octets(source: Source, access: Access) -> bytes:
    """Returns the octets of a source that isn't a transfer, as they are. Raises Failure or OSError."""
    match source:
        case Standard():
            return from_descriptor(0, access.limits)
        case File(path=path):
            return from_path(path, access.limits)
        case Git():
            return from_git(source, access.limits)
        case Web():
            from .web import download  # http.client takes 20 ms

            return download(source.url, access.limits, access.trust)
    raise AssertionError(source)


def from_path(path: str, limits: Limits) -> bytes:
    """Returns the octets of a regular file or a pipe. Raises Undone or OSError."""
    descriptor = os.open(path, os.O_RDONLY | os.O_NONBLOCK | os.O_CLOEXEC | os.O_NOCTTY)
    try:
        mode = os.fstat(descriptor).st_mode
        if not stat.S_ISREG(mode) and not stat.S_ISFIFO(mode):
            raise Undone("it is a folder" if stat.S_ISDIR(mode) else "it is neither a file nor a pipe")
        return from_descriptor(descriptor, limits)
    finally:
        os.close(descriptor)


def from_descriptor(descriptor: int, limits: Limits) -> bytes:
    """Returns the octets of an open file. A pipe and a terminal may take until the deadline."""
    clock, found, status = limits.clock("reading"), bytearray(), os.fstat(descriptor)
    poll = None if stat.S_ISREG(status.st_mode) else select.poll()
    if poll:
        poll.register(descriptor, select.POLLIN)
    while True:
        while poll and not poll.poll(None if (left := clock.left()) is None else left * 1000 + 1):
            pass
        piece = os.read(descriptor, PIECE if poll else min(status.st_size + 1, PIECE))
        found += piece
        if len(found) > limits.max_size:
            raise limits.too_large()
        if not piece:
            return bytes(found)


def from_git(source: Git, limits: Limits) -> bytes:
    """Returns a blob of git. Raises Undone."""
    blob = f"{source.revision}:{source.path}"
    if int(git_output(["cat-file", "-s", blob], limits)) > limits.max_size:
        raise limits.too_large()
    return git_output(["cat-file", "blob", blob], limits)


def git_output(arguments: list[str], limits: Limits) -> bytes:
    """Returns what git writes. No shell runs, and git asks nothing. Raises Undone."""
    import subprocess

    environment, clock = {**os.environ, "GIT_TERMINAL_PROMPT": "0", "LC_ALL": "C"}, limits.clock("git")
    try:
        git = subprocess.run(
            ["git", *arguments], stdin=subprocess.DEVNULL, capture_output=True, env=environment, timeout=clock.left())
    except subprocess.TimeoutExpired:
        clock.check(early=1)
        raise
    except OSError:
        raise Undone("git can't be run: is it installed?") from None
    if git.returncode:
        lines = git.stderr.decode("utf-8", "surrogateescape").splitlines()
        raise Undone(lines[0].removeprefix("fatal: ").removeprefix("error: ") if lines else "git failed")
    return git.stdout


def transferred(source: Server, access: Access, sink: Callable[[bytes], object]) -> int:
    """Asks a server for a zone and hands the messages to `sink`. Returns how many came. Raises Failure."""
    from .connections import connected
    from .transfer import Query, ask

    key = access.key_of(source)
    context = access.trust.context("dot") if source.is_tls else None
    clock = access.limits.clock("the transfer")
    query = Query(wire_name(source.zone), source.class_number)
    with connected(source.host, source.port, access.trust.name or source.host, context, clock) as connection:
        return ask(connection, query, key, access.limits, sink)

