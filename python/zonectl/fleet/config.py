"""The configuration of a fleet (TOML): which zones are compared, with which servers, and how."""
from __future__ import annotations

import hashlib
import json
import os
import tomllib
from collections.abc import Callable
from dataclasses import MISSING, dataclass, field, fields, replace
from fnmatch import fnmatchcase
from typing import TYPE_CHECKING, Any

from .. import bounds
from ..difference import Ignored, ignored
from ..errors import Usage, about
from ..names import class_number
from ..options import keys_of_file
from ..outputs import Output
from ..trust import Trust

if TYPE_CHECKING:
    from ..tsig import Key

Check = Callable[[Any], Any]  # returns a value as it is used; raises ValueError
FILES = "files"  # the reference, if it isn't a server
MOST_MEMORY = 1 << 40


def _of(kind: type, what: str) -> Check:
    def check(value: Any) -> Any:
        if type(value) is not kind or value == "":
            raise ValueError(f"it isn't {what}")
        return value

    return check


_text, _flag, _table, _list = _of(str, "a text"), _of(bool, "true or false"), _of(dict, "a table"), _of(list, "a list")


def _whole(least: int, most: int) -> Check:
    def number(value: Any) -> int:
        if type(value) is not int or not least <= value <= most:
            raise ValueError(f"it isn't a number from {least} to {most}")
        return value

    return number


def _time(value: Any) -> float:
    return bounds.seconds(str(value) if type(value) in (int, float) else _text(value))


def _memory(value: Any) -> str:
    bounds.octets(_text(value), MOST_MEMORY)
    return str(value)


def _pattern(value: Any) -> str:
    if "{}" not in _text(value):
        raise ValueError("it has no {} for the name of the zone")
    return str(value)


def _texts(value: Any) -> list[str]:
    return [_text(it) for it in _list(value)]


def _ignored(value: Any) -> Ignored:
    return ignored(",".join(_texts(value)))


def _keys(value: Any) -> dict[str, str]:
    return {name: _text(it) for name, it in _table(value).items()}


def _reads(made: type) -> Check:
    """Returns what reads a table whose keys are the fields of a class. A path of keys to a fault comes before it."""
    known = {it.metadata.get("name", it.name): it for it in fields(made) if it.metadata}

    def read(table: Any) -> Any:
        values = {}
        for name, value in _table(table).items():
            if name not in known:
                import difflib

                raise ValueError(f"{name} isn't a key here; the nearest is {difflib.get_close_matches(name, known, 1, 0)[0]}")
            try:
                values[known[name].name] = known[name].metadata["check"](value)
            except ValueError as error:
                raise ValueError(f"{name}{'' if str(error).startswith('[') else ': '}{error}") from None
        missing = [it.name for it in known.values() if it.default is it.default_factory is MISSING and it.name not in values]
        if missing:
            raise ValueError(f"it needs {' and '.join(missing)}")
        return made(**values)

    return read


def _each(check: Check) -> Check:
    def read(value: Any) -> list[Any]:
        found = []
        for number, it in enumerate(_list(value), 1):
            try:
                found.append(check(it))
            except ValueError as error:
                raise ValueError(f"[{number}]: {error}") from None
        return found

    return read


def _key(check: Check, default: Any = MISSING, name: str = "", empty: Callable[[], Any] | None = None) -> Any:
    """Returns a field that is a key of the configuration."""
    metadata: dict[str, Any] = {"check": check, **({"name": name} if name else {})}
    return field(metadata=metadata, default_factory=empty) if empty else field(metadata=metadata, default=default)


@dataclass(frozen=True, kw_only=True)
class Server:
    """A server, or captures that stand for it."""

    name: str = _key(_text)
    address: str | None = _key(_text, None)
    port: int | None = _key(_whole(1, 65535), None)
    rdclass: int = _key(lambda value: class_number(_text(value)), 1, "class")
    connections: int = _key(_whole(1, 1000), 4)
    capture: str | None = _key(_pattern, None)
    key: str | None = _key(_text, None)
    tls: bool = _key(_flag, False)
    tls_ca: str | None = _key(_text, None)
    tls_name: str | None = _key(_text, None)
    tls_client: str | None = _key(_text, None)
    tls_verify: bool = _key(_flag, True)
    ignore: Ignored = _key(_ignored, Ignored())
    exact: bool = _key(_flag, False)
    timeout: float = _key(_time, 30.0)
    deadline: float = _key(_time, 600.0)
    require_zonemd: bool = _key(_flag, False)

    @property
    def trust(self) -> Trust:
        """How it proves who it is."""
        return Trust(self.tls_ca, self.tls_name, self.tls_client, self.tls_verify)


@dataclass(frozen=True, kw_only=True)
class Override:
    """What is otherwise for the zones whose name, without its final dot, fits a pattern."""

    zone: str = _key(lambda value: _text(value).removesuffix(".").lower())
    servers: list[str] | None = _key(_texts, None)
    skip: bool | None = _key(_flag, None)
    file: str | None = _key(_text, None)
    ignore: Ignored | None = _key(_ignored, None)
    exact: bool | None = _key(_flag, None)
    key: str | None = _key(_text, None)


@dataclass(frozen=True, kw_only=True)
class Catalog:
    """A catalog zone (RFC 9432), and where the files of its members are."""

    source: str = _key(_text)
    files: str | None = _key(_pattern, None)


@dataclass(frozen=True, kw_only=True)
class Zones:
    """Where the zones are named."""

    glob: str | None = _key(_text, None)
    list: str | None = _key(_text, None)
    catalog: Catalog | None = _key(_reads(Catalog), None)


@dataclass(frozen=True, kw_only=True)
class Run:
    """How a run is done."""

    reference: str = _key(_text, FILES)
    jobs: int | None = _key(_whole(1, 1000), None)
    memory: str | None = _key(_memory, None)
    deadline: float = _key(_time, 3600.0)
    state: str | None = _key(_text, None)
    full_every: float = _key(_time, 7 * 86400.0)


@dataclass(frozen=True, kw_only=True)
class Written:
    """What is written."""

    html: str | None = _key(_text, None)
    metrics: str | None = _key(_text, None)
    results: str | None = _key(_text, None)
    lines: int = _key(_whole(0, 999_999_999), 200)


@dataclass(frozen=True, kw_only=True)
class Config:
    """A configuration. `digest` is that of all that decides what is compared."""

    version: int = _key(_whole(1, 1))
    zones: Zones = _key(_reads(Zones))
    server: list[Server] = _key(_each(_reads(Server)))
    keys: dict[str, str] = _key(_keys, empty=dict)
    override: list[Override] = _key(_each(_reads(Override)), empty=list)
    run: Run = _key(_reads(Run), Run())
    output: Written = _key(_reads(Written), Written())
    digest: str = ""

    def for_zone(self, zone: str) -> Override:
        """Returns what is otherwise for a zone: of overrides that fit, later ones win."""
        found: dict[str, Any] = {}
        for it in self.override:
            if fnmatchcase(zone.removesuffix("."), it.zone):
                found |= {name: value for name, value in vars(it).items() if value is not None}
        return replace(Override(zone=zone), **{**found, "zone": zone})

    def keys_read(self, output: Output) -> dict[str, Key]:
        """Returns the keys by their names in the configuration. A file of systemd's credentials comes first. Raises Failure."""
        found, folder = {}, os.environ.get("CREDENTIALS_DIRECTORY")
        for name, path in self.keys.items():
            given = os.path.join(folder, os.path.basename(path)) if folder else path
            keys = keys_of_file(given if os.path.exists(given) else path, output)
            if len(keys) != 1:
                raise Usage("it has more than one key", path)
            found[name] = keys[0]
        return found


def read(path: str) -> Config:
    """Returns a configuration. Raises Failure."""
    with about(path):
        try:
            with open(path, "rb") as file:
                stated = tomllib.load(file)
            found: Config = _reads(Config)(stated)
            _must_agree(found)
        except (tomllib.TOMLDecodeError, UnicodeDecodeError) as error:
            raise Usage(f"it isn't TOML: {error}") from None
        except ValueError as error:
            raise Usage(str(error)) from None
    decides = json.dumps({**stated, "output": None, "run": found.run.reference}, sort_keys=True, default=str)
    return replace(found, digest=hashlib.sha256(decides.encode()).hexdigest())


def _must_agree(it: Config) -> None:
    """Raises ValueError where keys that are right by themselves don't go together."""
    names = [server.name for server in it.server]
    if not names or len(set(names)) != len(names) or FILES in names:
        raise ValueError("server: at least one is needed, each with a name of its own, which isn't \"files\"")
    if not any(vars(it.zones).values()):
        raise ValueError("zones: one of glob, list and catalog is needed")
    if it.run.reference != FILES and (it.run.reference not in names or len(names) < 2):
        raise ValueError(f"run: reference: no server is named {it.run.reference}, or it is the only one")
    if it.zones.catalog and not it.zones.catalog.files and it.run.reference == FILES:
        raise ValueError("zones: catalog: files is needed, as in \"/var/lib/bind/{}.zone\"")
    for number, server in enumerate(it.server, 1):
        if (server.address is None) == (server.capture is None):
            raise ValueError(f"server[{number}]: it needs address or capture, one of them")
    keys = [("server", server.key) for server in it.server] + [("override", override.key) for override in it.override]
    for what, key in keys:
        if key is not None and key not in it.keys:
            raise ValueError(f"{what}: key: [keys] has no {key}")
    for number, override in enumerate(it.override, 1):
        for name in override.servers or ():
            if name not in names:
                raise ValueError(f"override[{number}]: servers: no server is named {name}")
