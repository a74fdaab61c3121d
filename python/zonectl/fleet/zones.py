"""Which zones a fleet has: of a pattern of files, of a list and of a catalog; and parts of them."""
from __future__ import annotations

import glob
import hashlib
import os
import re
from collections.abc import Iterator
from typing import NamedTuple

from .. import origin
from ..errors import Failure, Undone, Usage
from ..names import absolute
from ..reading import from_path
from ..sources import File, Source, source_of
from ..texts import safe
from ..zones import Reader, file_name
from .config import FILES, Catalog, Config

MOST_PARTS = 999_999
MEMBER = r"(?:[^.\\]|\\.)+\.zones\."


class Zone(NamedTuple):
    """A zone and its file; or why it has none, as a line that names no zone. `is_told` if a list or a catalog names the zone."""

    name: str
    source: Source | None = None
    error: str | None = None
    place: str = ""  # where it is named
    is_told: bool = True


def zones_of(config: Config, reader: Reader) -> list[Zone]:
    """Returns all zones by name. One that is named twice is an error of that zone. Raises Failure."""
    found: dict[str, Zone] = {}
    for it in _named(config, reader):
        first = found.get(it.name)
        if first and not first.error:
            it = first._replace(error=f"the zone is named twice: by {safe(first.place)} and by {safe(it.place)}")
        found[it.name] = it
    kept = []
    for name in sorted(found):
        own = config.for_zone(name)
        if not own.skip:
            kept.append(found[name]._replace(source=source_of(own.file)) if own.file else found[name])
    if not kept:
        raise Undone("the configuration names no zone")
    return kept


def _named(config: Config, reader: Reader) -> Iterator[Zone]:
    if config.zones.glob:
        paths = [it for it in sorted(glob.glob(config.zones.glob, recursive=True)) if os.path.isfile(it)]
        yield from (_of_file(path, reader) for path in paths)
    if config.zones.list:
        yield from _listed(config.zones.list, reader, config.run.reference == FILES)
    if config.zones.catalog:
        yield from _of_catalog(config.zones.catalog, reader)


def _of_file(path: str, reader: Reader) -> Zone:
    """Returns the zone of a file. Its text is read if its name is no evidence; a worker sees whether both agree."""
    name = origin.by_name(path)
    try:
        if not name or origin.is_guess(name):
            name = origin.decided(name, origin.by_text(from_path(path, reader.access.limits)), None)
        return Zone(name, File(path, path), place=path, is_told=False)
    except (Failure, OSError) as error:
        return Zone(path, error=error.text if isinstance(error, Failure) else "it can't be read", place=path, is_told=False)


def _listed(path: str, reader: Reader, needs_files: bool) -> Iterator[Zone]:
    """Yields the zones of lines `ZONE SOURCE`. Raises Failure."""
    for number, line in reader.lines(path):
        name, _, source = line.strip().partition(" ")
        place = f"{path}:{number}"
        try:
            if needs_files and not source.strip():
                raise Usage("the line isn't a ZONE and a SOURCE")
            yield Zone(absolute(name), source_of(source.strip()) if source.strip() else None, place=place)
        except (ValueError, Usage) as error:
            yield Zone(place, error=str(error), place=place)


def _of_catalog(catalog: Catalog, reader: Reader) -> Iterator[Zone]:
    """Yields the members of a catalog (RFC 9432 section 4). Raises Failure."""
    copy = reader.copy(source_of(catalog.source))
    version = []
    targets: dict[str, str] = {}
    for line in copy.text.decode("ascii").split("\n")[:-1]:
        owner, _, _, kind, data = line.split(" ", 4)
        if (owner, kind) == (f"version.{copy.apex}", "TXT"):
            version.append(data)
        if kind == "PTR" and re.fullmatch(MEMBER + re.escape(copy.apex), owner):
            if owner in targets:
                raise Undone(f"the catalog is broken: {owner} has two PTR records", catalog.source)
            targets[owner] = data
    if version != ['"2"']:
        raise Undone("it is no catalog: it has no version 2 (RFC 9432)", catalog.source)
    for name in targets.values():
        source = source_of(at(catalog.files, name)) if catalog.files else None
        yield Zone(name, source, place=catalog.source)


def at(pattern: str, name: str) -> str:
    """Returns a pattern with the name of a zone, as that of a file, in the place of `{}`."""
    return pattern.replace("{}", file_name(name))


def digest(zones: list[Zone]) -> str:
    """Returns the digest of a list of zones."""
    lines = "\n".join(f"{it.name} {it.source.text if it.source else ''}" for it in zones)
    return hashlib.sha256(lines.encode("utf-8", "replace")).hexdigest()


def part(text: str) -> tuple[int, int]:
    """Returns the K and N of `K/N`. `auto` is the index of a task of Slurm or of an indexed job. Raises ValueError."""
    found = re.fullmatch("(auto|[0-9]{1,6})/([0-9]{1,6})", text)
    number = 0
    if found:
        number = _index() if found[1] == "auto" else int(found[1])
    if not found or not 1 <= number <= int(found[2]) <= MOST_PARTS:
        raise ValueError(f"not a part K/N, with K from 1 to N, or auto/N in a task: {text}")
    return number, int(found[2])


def _index() -> int:
    """Returns which task this is, from 1; 0 if it is none."""
    for name, first in (("SLURM_ARRAY_TASK_ID", os.environ.get("SLURM_ARRAY_TASK_MIN", "")), ("JOB_COMPLETION_INDEX", "0")):
        value = os.environ.get(name, "")
        if re.fullmatch("[0-9]{1,9}", value) and re.fullmatch("[0-9]{1,9}", first):
            return int(value) - int(first) + 1
    return 0
