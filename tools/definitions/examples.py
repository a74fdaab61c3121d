"""The examples on which definitions are run: files of lines, each with what an RFC or another program says."""
from collections.abc import Callable, Iterator
from dataclasses import dataclass
from functools import partial
from pathlib import Path

from machine import Machine, labels_of, raw_items, record, text, tokens_in, touching_items, truth, zone
from steps import settled
from values import Fields, Made, Value, front_of, list_of, octets_of

FOLDER = Path(__file__).resolve().parent / "examples"
DATA, PRINTED, TABLE = "type_data.specs.Data", "type_data.specs.PrintedData", "type_data.specs.Table"
DIGEST, VERDICT = "zone_digest.specs.Digest", "zone_digest.specs.Verdict"
ALGORITHMS = {"1": "Sha384", "2": "Sha512"}


class Differs(Exception):
    """The definitions say something else than what an example needs on its way."""


@dataclass
class Example:
    """What is said, and whether definitions say the same."""

    name: str
    said: Callable[[Machine], bool]

    def agrees(self, machine: Machine) -> bool:
        try:
            return self.said(machine)
        except Differs:
            return False


def lines_of(file: str) -> list[str]:
    return [line for line in (FOLDER / file).read_text().splitlines() if line and not line.startswith("#")]


def altered(octets: bytes) -> bytes:
    return octets[:-1] + bytes([octets[-1] ^ 1])


# ---- further types

@dataclass
class Row:
    """What the registry says of a type: its mnemonic, its number, and whether it is one of class IN alone."""

    mnemonic: str
    number: int
    in_internet: bool

    def fields(self, machine: Machine) -> Value:
        """The fields that the table of types has for it."""
        rows = [row.parts for row in machine.rows(f"{TABLE}.further_types")]
        found = [row for row in rows if octets_of(row["mnemonic"]) == self.mnemonic.encode()]
        wanted = (self.number, truth(self.in_internet))
        if [(row["number"], row["in_internet_alone"]) for row in found] != [wanted]:
            raise Differs(f"another row of {self.mnemonic}")
        return found[0]["fields"]


def read(row: Row, items: str, octets: bytes, fits: bool, machine: Machine) -> bool:
    """The items state these octets, and no others: all that they state is found, or others are tried."""
    fields, given = row.fields(machine), touching_items(items)
    front = [labels_of("."), machine.of(f"{TABLE}.fields_in", fields, given), machine.of(f"{DATA}.in_order", fields), given]
    if fits:
        return machine.holds(f"{DATA}.StatesData", *front, text(octets)) \
            and not machine.holds(f"{DATA}.StatesData", *front, text(altered(octets)))
    return [octets_of(value) for value in machine.found(f"{DATA}.StatesData", *front)] == [octets]


def printed(row: Row, items: str, octets: bytes, machine: Machine) -> bool:
    given = [row.fields(machine), touching_items(items)]
    return machine.holds(f"{PRINTED}.PrintsData", *given, text(octets)) \
        and not machine.holds(f"{PRINTED}.PrintsData", *given, text(altered(octets)))


def further_types() -> Iterator[Example]:
    for line in lines_of("types.txt"):
        kind, section, items, stated, shown = [part.strip() for part in line.split(" | ")]
        mnemonic, number, classes = kind.split(" ")
        fits, octets = stated.startswith("fits "), bytes.fromhex(stated.removeprefix("fits "))
        name = f"{mnemonic} {items} ({section})"

        row = Row(mnemonic, int(number), classes == "IN")
        yield Example(f"what is stated by {name}", partial(read, row, items, octets, fits))
        if shown != "-":
            yield Example(f"what is printed for {name}", partial(printed, row, items if shown == "=" else shown, octets))


# ---- records

def canonical(machine: Machine, kind: int, octets: bytes) -> Value:
    """The octets that a zone keeps for those of a message."""
    laid = machine.of("zone_rdata.specs.Layout.layout", 1, kind)
    found = machine.found("zone_rdata.specs.Spelling.IsCanonicalOf", laid, text(octets))
    if len(found) != 1:
        raise Differs(f"{len(found)} canonical forms of data of type {kind}")
    return found[0]


def stated_data(kind: int, items: str, octets: bytes, machine: Machine) -> bool:
    origin = labels_of("example.")
    kept = octets_of(canonical(machine, kind, octets))
    found = machine.found("zone_rdata.specs.Spelling.States", origin, 1, kind, raw_items(items))
    return [octets_of(value) for value in found] == [kept]


def has_line(line: str, kind: int, octets: bytes, machine: Machine) -> bool:
    """The line is that of a record of this data, whose owner and TTL it has at its beginning."""
    owner, ttl = line.split(" ")[:2]
    made = record(owner, int(ttl), kind, canonical(machine, kind, octets))
    return machine.octets("zone_print.specs.Canonical.line", made).decode() == line + "\n"


def records() -> Iterator[Example]:
    for line in lines_of("records.txt"):
        section, kind, items, stated, shown = [part.strip() for part in line.split(" | ")]
        octets = bytes.fromhex(stated)
        yield Example(f"what is stated by {items} ({section})", partial(stated_data, int(kind), items, octets))
        yield Example(f"the line {shown} ({section})", partial(has_line, shown, int(kind), octets))


# ---- master files

TEXT = "zone_text.specs"


def states_lines(origin: str, file: str, lines: list[str], machine: Machine) -> bool:
    """The file is cut into tokens, and its entries state the records of these lines."""
    tokens = tokens_in(file)
    if not machine.holds(f"{TEXT}.Tokens.Cuts", text(file), tokens):
        return False
    entries = machine.of(f"{TEXT}.Entries.entries_of", tokens)
    stated = machine.found(f"{TEXT}.File.EntriesState", labels_of(origin), list_of([]), entries)
    if len(stated) != 1:
        return False
    records = [placed.parts["rr"] for placed in front_of(stated[0])[0]]
    return [machine.octets("zone_print.specs.Canonical.line", record).decode() for record in records] == lines


def files() -> Iterator[Example]:
    for line in lines_of("files.txt"):
        origin, file, lines = line.split(" | ")
        wanted = [f"{one}\n" for one in lines.split(" // ")]
        yield Example(f"the file {file}", partial(states_lines, origin, file.replace("\\n", "\n"), wanted))


def order() -> Iterator[Example]:
    """Names in the order of RFC 4034 6.1, each before all that follow it."""
    names = lines_of("order.txt")
    for before, after in zip(names, names[1:]):
        yield Example(f"{before} is before {after} (RFC 4034 6.1)", partial(is_before, before, after))


def is_before(before: str, after: str, machine: Machine) -> bool:
    a, b = [machine.of("zone_name.specs.Name.folded", labels_of(name)) for name in (before, after)]
    return bool(machine.of("zone_name.specs.Order.name_cmp", a, b) == Made("Less")) \
        and bool(machine.of("zone_name.specs.Order.name_cmp", b, a) == Made("Greater"))


# ---- digests

@dataclass
class Digested:
    """A zone with what is said of it."""

    name: str
    records: list[tuple[str, int, int, bytes]]
    said: list[list[str]]

    def made(self, machine: Machine) -> Value:
        kept = [record(owner, ttl, kind, canonical(machine, kind, octets)) for owner, ttl, kind, octets in self.records]
        return zone("example.", kept)


def digested_zones() -> list[Digested]:
    zones: list[Digested] = []
    for line in lines_of("digests.txt"):
        words = line.split(" ")
        if words[0] == "zone":
            zones.append(Digested(line.removeprefix("zone "), [], []))
        elif words[0].endswith("."):
            octets = b"" if words[3] == "-" else bytes.fromhex(words[3])
            zones[-1].records.append((words[0], int(words[1]), int(words[2]), octets))
        else:
            zones[-1].said.append(words)
    return zones


def agrees(of: Digested, words: list[str], machine: Machine) -> bool:
    made = of.made(machine)
    if words[0] == "digest":
        algorithm = Made(f"zone_digest.specs.declared.algorithm.Algorithm.{ALGORITHMS[words[1]]}")
        found = machine.found(f"{DIGEST}.IsDigest", made, algorithm)
        return [octets_of(value.parts[0]) for value in found] == [bytes.fromhex(words[2])]
    zonemd = [r for r in front_of(made.parts["records"])[0] if r.parts["kind"] == 63]
    verdicts = machine.found(f"{VERDICT}.IsVerdictOn", made, zonemd[int(words[2]) if len(words) > 2 else 0])
    return [value.name.rsplit(".", 1)[1] for value in verdicts] == [words[1]]


def digests() -> Iterator[Example]:
    for of in digested_zones():
        for words in of.said:
            yield Example(f"{words[0]} {words[1]} of {of.name}", partial(agrees, of, words))


# ---- zones

def chosen(records: list[Value], word: str) -> Value:
    """The record of a number, perhaps with another field."""
    number, _, change = word.partition(":")
    name, _, value = change.partition("=")
    if not name:
        return records[int(number)]
    return Fields({**records[int(number)].parts, name: labels_of(value) if name == "owner" else int(value)})


def is_zone(words: list[str], wanted: bool, machine: Machine) -> bool:
    records = front_of(digested_zones()[0].made(machine).parts["records"])[0]
    made = zone("example.", [chosen(records, word) for word in words])
    return machine.holds("zone_set.specs.Zone.IsZone", made) == wanted


def zones() -> Iterator[Example]:
    for line in lines_of("zones.txt"):
        said, words, why = line.split(" | ")
        yield Example(f"{said}: {words} ({why})", partial(is_zone, words.split(" "), said == "a zone"))


# ---- $GENERATE

GENERATE = "zone_generate.specs"


def stands_for(items: str, wanted: str, machine: Machine) -> bool:
    return generated(machine, items) == wanted


def generated(machine: Machine, items: str) -> str:
    """The lines that an entry stands for, or its fault."""
    machine.begin()
    answer = settled(machine.of(f"{GENERATE}.Entry.generation_in", raw_items(items)))
    if answer.name == "Err":
        return str(answer.parts[0].name.rsplit(".", 1)[1])
    made = answer.parts[0].parts
    lines = [settled(machine.of(f"{GENERATE}.Lines.line_of", made["templates"], value)) for value in front_of(made["values"])[0]]
    said = [octets_of(line.parts[0]) if line.name == "Some" else None for line in lines]
    return " ; ".join("nothing" if line is None else line.decode().removesuffix("\n") for line in said)


def generations() -> Iterator[Example]:
    for line in lines_of("generate.txt"):
        items, wanted = line.split(" | ")
        yield Example(f"$GENERATE {items}", partial(stands_for, items, wanted))


def every() -> list[Example]:
    return [*order(), *records(), *files(), *further_types(), *digests(), *zones(), *generations()]
