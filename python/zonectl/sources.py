"""SOURCE: what an argument of the command line means, by how it begins and never by what exists on disk."""
from __future__ import annotations

import re
from dataclasses import dataclass

from .errors import Usage
from .names import absolute, class_number

SCHEME = re.compile(r"([A-Za-z][A-Za-z0-9+.-]*)://")
PREFIX = re.compile(r"(git|file|capture|dig):", re.I)
# KEY, an IPv6 address, HOST, PORT, ZONE and CLASS
SERVER = re.compile(r"(?:([^@/]+)@)?(?:\[([^\[\]/@]+)\]|([^\[\]:/@]+))(?::([0-9]{1,5}))?/([^?]+)(?:\?class=(.+))?", re.S)


@dataclass(frozen=True)
class Source:
    """A source. `text` is the argument."""

    text: str


@dataclass(frozen=True)
class Standard(Source):
    """Standard input."""


@dataclass(frozen=True)
class File(Source):
    """A file or a pipe. `form` is `""` for what its octets say, or `file`, `capture` or `dig`."""

    path: str
    form: str = ""


@dataclass(frozen=True)
class Git(Source):
    """A file of a git revision; the index if `revision` is empty."""

    revision: str
    path: str


@dataclass(frozen=True)
class Server(Source):
    """A zone of a server, by a transfer."""

    host: str
    port: int
    zone: str  # as the engine prints it
    class_number: int
    key: str | None
    is_tls: bool


@dataclass(frozen=True)
class Web(Source):
    """What a web server has."""

    url: str


def source_of(text: str) -> Source:
    """Returns the source that an argument names. Raises Usage."""
    if not text:
        raise Usage("a source is empty; standard input is -")
    if "\0" in text:
        raise Usage("a source has an octet 0")
    if text == "-":
        return Standard(text)
    if scheme := SCHEME.match(text):
        return _of_url(text, scheme[1].lower(), text[scheme.end() :])
    if not (prefix := PREFIX.match(text)):
        return File(text, text)
    rest = text[prefix.end() :]
    if not rest:
        raise Usage(f"{prefix[0]} needs a path", text)
    if prefix[1].lower() == "git":
        return _of_git(text, rest)
    return File(text, rest, prefix[1].lower())


def _of_git(text: str, rest: str) -> Source:
    revision, colon, path = rest.partition(":")
    if not colon or not path:
        raise Usage("it isn't git:REV:PATH (git::PATH is the index)", text)
    if revision.startswith("-"):
        raise Usage("a revision doesn't begin with -", text)
    return Git(text, revision, path)


def _of_url(text: str, scheme: str, rest: str) -> Source:
    if scheme in ("axfr", "axfrs"):
        return _of_server(text, rest, scheme == "axfrs")
    if scheme == "https":
        return _of_web(text)
    if scheme == "http":
        raise Usage("http:// isn't read, since anybody on the way can change it; use https://", _without_user(text))
    known = "file:PATH takes a path" if scheme == "file" else "known are axfr://, axfrs:// and https://; a path is ./PATH"
    raise Usage(f"the scheme {scheme}:// isn't known: {known}")


def _of_web(text: str) -> Source:
    import urllib.parse

    try:
        parts = urllib.parse.urlsplit(text)
        parts.port  # noqa: B018  a port that isn't one is a ValueError
    except ValueError:
        raise Usage("it isn't a URL of https") from None
    if "@" in parts.netloc:
        raise Usage("a URL has no user name and no password")
    if not parts.hostname:
        raise Usage("the URL names no host", text)
    if not text.isascii() or re.search(r"[\x00-\x20\x7f]", text):
        raise Usage("a URL is ASCII without blanks; write other octets as %XX", text)
    return Web(text, urllib.parse.urlunsplit(parts._replace(fragment="")))


def _without_user(text: str) -> str:
    return re.sub(r"//[^/]*@", "//", text)


def _of_server(text: str, rest: str, is_tls: bool) -> Server:
    """Reads `[KEY@]HOST[:PORT]/ZONE[?class=CLASS]`. A secret in it is never repeated."""
    user, at, _ = rest.rpartition("@")
    if at and ":" in user.partition("/")[0]:
        raise Usage("KEY is the name of a key; its secret belongs into a file (--key FILE)")
    found = SERVER.fullmatch(rest)
    if not found or not (found[2] or found[3]).isascii():
        raise Usage("it isn't axfr://[KEY@]HOST[:PORT]/ZONE[?class=CLASS] (an IPv6 address is in brackets, the root is .)", text)
    key, six, host, port, zone, rdclass = found.groups()
    number = int(port or (853 if is_tls else 53))
    if not 1 <= number <= 65535:
        raise Usage("a port is 1 to 65535", text)
    try:
        return Server(text, six or host, number, _name(zone), class_number(rdclass or "IN"), _name(key) if key else None, is_tls)
    except ValueError as error:
        raise Usage(str(error), text) from None


def _name(escaped: str) -> str:
    """Returns the name that a part of a URL has, each `%XX` as its octet. Raises ValueError."""
    if re.search(r"%(?![0-9A-Fa-f]{2})", escaped):
        raise ValueError("a % isn't followed by two hexadecimal digits")
    return absolute(re.sub("%(..)", lambda it: chr(int(it[1], 16)), escaped))


def sources_of(texts: list[str]) -> list[Source]:
    """Returns the sources of a command line, of which at most one is standard input. Raises Usage."""
    sources = [source_of(text) for text in texts]
    if sum(isinstance(it, Standard) for it in sources) > 1:
        raise Usage("standard input (-) can be read once")
    return sources
