"""Inputs for tools/gate/library_same: those of examples/, the rows of the tables of tests, and drawn ones, damaged ones too."""
from __future__ import annotations

import importlib.util
import random
import re
import sys
from collections.abc import Iterator
from importlib.machinery import SourceFileLoader
from pathlib import Path
from types import ModuleType

sys.dont_write_bytecode = True  # of scripts without a suffix
TOP = Path(__file__).resolve().parents[2]
TABLE = re.compile(r'(?:const|static) \w+: &(?:\'static )?str = "((?:[^"\\]|\\.)*)";', re.DOTALL)
ESCAPES = {"n": "\n", "r": "\r", "t": "\t", "0": "\0"}
ESCAPE = re.compile(r"\\(?:\n\s*|x([0-9a-f]{2})|u\{(\w+)\}|(.))", re.DOTALL)
# The notation of crates/test_support/src/notation.rt for messages: its named parts, and the numbers of its mnemonics.
NAMED = {
    "QUESTION": "question x. AXFR IN", "OPENING": "@12 3600 IN SOA n@12 h@12 1 2 3 4 5", "SERVER": "@12 3600 IN NS @31",
    "CLOSING": "@12 3600 IN SOA @31 @35 1 2 3 4 5",
}
CODES = {"A": 1, "IN": 1, "NS": 2, "CH": 3, "SOA": 6, "TXT": 16, "SRV": 33, "NAPTR": 35, "OPT": 41, "AXFR": 252}
HEAD = b"$TTL 60\n@ SOA n h 1 2 3 4 5\n@ NS n\n"

Case = tuple[str, str, bytes]  # what it is, the origin of a master file, and the octets


def script(name: str) -> ModuleType:
    """A script of tools/trials as a module."""
    loader = SourceFileLoader(name, str(TOP / "tools/trials" / name))
    spec = importlib.util.spec_from_loader(name, loader)
    assert spec
    module = importlib.util.module_from_spec(spec)
    loader.exec_module(module)
    return module


def examples() -> Iterator[Case]:
    """The files of examples/ that hold zones."""
    for path in sorted((TOP / "examples").iterdir()):
        if path.suffix in (".zone", ".canonical", ".axfr", ".words", ".dig"):
            yield path.name, "example.", path.read_bytes()


def unescaped(text: str) -> str:
    """The value of a string literal of Rattle."""
    def one(found: re.Match[str]) -> str:
        digits, point, letter = found.groups()
        if digits or point:
            return chr(int(digits or point, 16))
        return ESCAPES.get(letter, letter) if letter else ""

    return ESCAPE.sub(one, text)


def number(code: str) -> int:
    """The number of a type or a class."""
    return CODES[code] if code in CODES else int(re.sub(r"^(?:CLASS|TYPE)", "", code))


def field(item: str, is_wide: bool) -> bytes:
    """The octets of an item of a message: digits, a name or a number."""
    if item.startswith("#"):
        return bytes.fromhex(item[1:])
    if "@" in item or "." in item:
        labels, at, offset = item.partition("@")
        octets = b"".join(bytes([len(it)]) + it.encode() for it in labels.split(".") if it)
        return octets + ((0xC000 | int(offset)).to_bytes(2, "big") if at else b"\0")
    return int(item).to_bytes(4 if is_wide else 2, "big")


def part(text: str) -> bytes:
    """The octets of a part of a message."""
    first, *items = NAMED.get(text, text).split(" ")
    if first == "header":
        return b"".join(int(it, 16).to_bytes(2, "big") for it in items)
    if first == "question":
        return field(items[0], False) + b"".join(number(it).to_bytes(2, "big") for it in items[1:])
    if not items:
        return field(first, False)
    ttl, rdclass, rdtype, *data = items
    octets = b"".join(field(it, rdtype == "SOA") for it in data)
    front = field(first, False) + number(rdtype).to_bytes(2, "big") + number(rdclass).to_bytes(2, "big")
    return front + field(ttl, True) + len(octets).to_bytes(2, "big") + octets


def stream(notation: str) -> bytes:
    """The octets of a stream in notation: each message after its length, or octets as they are."""
    out = b""
    for line in notation.splitlines():
        if line.startswith("#"):
            out += bytes.fromhex(line[1:])
        else:
            message = b"".join(map(part, line.split("; ")))
            out += len(message).to_bytes(2, "big") + message
    return out


def stated(row: str) -> Iterator[Case]:
    """The inputs that a row of a table states, as far as it may state some: a file, or a stream in notation."""
    head, _, rest = row.partition("\n")
    name, _, origin = head.partition(" ")
    if rest.startswith("header "):
        try:
            yield name, "x.", stream(rest)
        except (ValueError, KeyError, OverflowError):
            pass
    elif re.fullmatch(r"\w+ \S*\.", head):
        yield name, origin, rest.encode()
    yield head, "x.", row.encode()


def tested() -> Iterator[Case]:
    """The inputs in the tables of tests. A line of a table of records is an entry of a file of its own."""
    for path in sorted(TOP.glob("crates/*_tests/src/tests/**/*.rt")):
        for found in TABLE.finditer(path.read_text()):
            table = unescaped(found[1])
            if table.startswith("== "):
                for row in table.removeprefix("== ").split("\n== "):
                    yield from stated(row.partition("=>")[0])
            else:
                for line in table.splitlines():
                    yield line[:60], "Example.", HEAD + line.partition(" => ")[0].encode() + b"\n"


def drawn(seed: int, count: int) -> Iterator[Case]:
    """Zones drawn from a seed, whole and damaged: as files, as transfers, and as files with further types."""
    zones, types, damage = script("random_tests"), script("try_words"), script("compare_programs").damage
    table = (TOP / "crates/type_data/specs/Table.antt").read_text()
    kinds = [kind for _, kind in types.ROW.findall(table)]
    generator = types.Generator(seed)
    for at in range(count):
        rng = random.Random(f"library {seed} {at}")
        zone = zones.Zone(rng)
        origin = rng.choice((zone.apex, zone.apex[1:], [b"other"]))
        name = zones.Text(random.Random(0), []).name(origin).decode()
        match at % 3:
            case 0:
                octets = zones.Text(rng, origin).file(zone.records)
            case 1:
                octets = zones.stream_of(rng, zone)
            case _:
                records = [generator.record(kinds) for _ in range(rng.choice((1, 1, 4)))]
                octets = HEAD + b"".join(f"r{it} {kind} {data}\n".encode() for it, (kind, data) in enumerate(records))
        yield f"drawn {at}", name, octets
        yield f"damaged {at}", name, damage(rng, octets)


def cases(seed: int, count: int) -> Iterator[Case]:
    """All inputs: `count` zones are drawn, and as many damaged."""
    yield from examples()
    yield from tested()
    yield from drawn(seed, count)
