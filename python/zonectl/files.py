"""Which files are zone files, and which of them changed since a revision of git."""
from __future__ import annotations

import os
import re
from collections.abc import Callable, Iterator
from typing import NamedTuple

from .bounds import Limits
from .errors import Failure, Undone, Usage, about
from .origin import has_soa
from .reading import from_git, git_output
from .sources import Git

NAMED = re.compile(r"(?:.+\.(?:zone|db)|db\..+?)(?:\.gz)?", re.S)
SEARCHED = 64 << 10


class Change(NamedTuple):
    """A file that differs: its path from the top of the repository, its path here, and `added`, `removed` or `changed`."""

    path: str
    here: str
    how: str


def is_zone_file(path: str, octets: Callable[[], bytes]) -> bool:
    """Whether a file is one of a zone, by its name or by the beginning of its text."""
    return NAMED.fullmatch(os.path.basename(path)) is not None or has_soa(octets()[:SEARCHED])


def below(folder: str, limits: Limits) -> tuple[list[str], int]:
    """Returns the zone files below a folder, and how many files aren't: of those that git knows, or of all outside `.git`."""
    try:
        names = _names(git_output(["-C", folder, "ls-files", "-z"], limits))
    except Undone:
        names = list(_walked(folder))
    paths = [it for it in (os.path.normpath(os.path.join(folder, name)) for name in sorted(names)) if os.path.isfile(it)]
    found = [it for it in paths if is_zone_file(it, lambda: _start(it))]
    return found, len(paths) - len(found)


def _walked(folder: str) -> Iterator[str]:
    """Yields the files below a folder, outside of git's own."""
    for at, folders, files in os.walk(folder):
        folders[:] = [it for it in folders if it != ".git"]
        yield from (os.path.relpath(os.path.join(at, name), folder) for name in files)


def _start(path: str) -> bytes:
    try:
        with open(path, "rb") as file:
            return file.read(SEARCHED)
    except OSError:
        return b""


def _names(listed: bytes) -> list[str]:
    """Returns the names that git lists, each before an octet 0."""
    return listed.decode("utf-8", "surrogateescape").split("\0")[:-1]


def staged(paths: list[str], limits: Limits) -> tuple[list[Git], int]:
    """Returns the zone files that are staged below the current folder, and how many other files are. Raises Failure."""
    with about("git diff --cached"):
        names = _names(git_output(
            ["diff", "--cached", "--name-only", "--no-renames", "--diff-filter=AM", "--relative", "-z", "--", *paths], limits))
    sources = [Git(it, "", f"./{it}") for it in names]
    found = [it for it in sources if is_zone_file(it.text, lambda: _blob(it, limits))]
    return found, len(names) - len(found)


def prefix(limits: Limits) -> str:
    """Returns the path of the current folder from the top of its repository; nothing outside one."""
    try:
        return git_output(["rev-parse", "--show-prefix"], limits).decode("utf-8", "surrogateescape").rstrip("\n")
    except Undone:
        return ""


def changed_since(revision: str, paths: list[str], limits: Limits) -> list[Change]:
    """Returns the zone files of the working tree that differ from a revision. Raises Failure."""
    if revision.startswith("-") or not revision:
        raise Usage("a revision isn't empty and doesn't begin with -")
    with about(f"git diff {revision}"):
        up = git_output(["rev-parse", "--show-cdup"], limits).decode("utf-8", "surrogateescape").rstrip("\n")
        names = git_output(["diff", "--name-status", "--no-renames", "-z", revision, "--", *paths], limits)
    words = _names(names)
    found = []
    for status, path in zip(words[::2], words[1::2]):
        it = Change(path, up + path, {"A": "added", "D": "removed"}.get(status[:1], "changed"))
        if is_zone_file(path, lambda: _beginning(it, revision, limits)):
            found.append(it)
    return found


def _beginning(it: Change, revision: str, limits: Limits) -> bytes:
    """Returns the octets that say whether a file is one of a zone; none where it can't be read."""
    return _blob(Git(it.path, revision, it.path), limits) if it.how == "removed" else _start(it.here)


def _blob(source: Git, limits: Limits) -> bytes:
    try:
        return from_git(source, limits)
    except Failure:
        return b""
