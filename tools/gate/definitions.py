"""The definitions of a file of specs/: its head comment, its definitions with theirs, and what it brings in from other files."""
import re
from collections.abc import Iterator
from dataclasses import dataclass, field
from pathlib import Path

TOP = Path(__file__).resolve().parents[2]
USE = re.compile(r"^(?:pub |ghost )?use ")
BEGIN = re.compile(r"^(?:abbrev |unfoldable |pub |record |data )*([A-Za-z_][\w'-]*)")
NAME = re.compile(r"(?<![\w.'-])[A-Za-z_][\w'-]*(?:\.[A-Za-z_][\w'-]*)*")
CASE = re.compile(r"^\s+([A-Za-z_][\w'-]*)\s*:")


@dataclass
class Definition:
    """A definition of a file: the line at which it begins, the comment above it, and its own lines."""

    number: int
    comment: list[str]
    lines: list[str] = field(default_factory=list)

    @property
    def is_public(self) -> bool:
        return re.match(r"(?:[a-z]+ )*pub ", self.lines[0]) is not None


    @property
    def is_type(self) -> bool:
        """Whether it says of what kind things are, and nothing of them."""
        return re.search(r"^[^:(]* : Type \d(?: where)?$", self.lines[0]) is not None


class File:
    """The definitions of a file, and the names that it brings in."""

    def __init__(self, path: Path) -> None:
        self.path = path
        self.names: dict[str, tuple[str, str]] = {}
        self.files: dict[str, str] = {}
        self.made: dict[str, Definition] = {}
        self.cases: dict[str, str] = {}
        comment: list[str] = []
        current = None
        for number, line in enumerate(path.read_text().splitlines(), 1):
            if line.startswith("--"):
                comment, current = [*comment, line], None
            elif not line.strip() or USE.match(line):
                self.names.update(brought(line))
                self.files.update(renamed(line))
                comment, current = [], None
            elif not line.startswith("pub mod "):
                begun = line[0] != " " and BEGIN.match(line)
                if begun:
                    current = begun.group(1)
                    if current not in self.made:
                        self.made[current] = Definition(number, comment)
                        comment = []
                if current:
                    self.add(current, line)

    def add(self, name: str, line: str) -> None:
        """A line of a definition, which may name a case of it."""
        lines = self.made[name].lines
        lines.append(line)
        case = CASE.match(line)
        if case and "data " in lines[0].split("(")[0]:
            self.cases[case.group(1)] = name

    @property
    def head(self) -> list[str]:
        """The comment at the head of the file."""
        lines = self.path.read_text().splitlines()
        return lines[: next(n for n, it in enumerate(lines) if not it.startswith("--"))]

    @property
    def imports(self) -> set[str]:
        """The files that it brings names in from."""
        return {module for module, _ in self.names.values()} | set(self.files.values())


def brought(line: str) -> Iterator[tuple[str, tuple[str, str]]]:
    """The names that a line brings in, each with its file and its name there."""
    some = re.search(r"use Rattle\.([\w.]+?)\.\{(.*)\}", line)
    for part in some.group(2).split(",") if some else []:
        words = part.strip().split(" as ")
        yield words[-1].strip(), (some.group(1) if some else "", words[0].strip())


def renamed(line: str) -> dict[str, str]:
    """The name under which a line brings in a file."""
    whole = re.search(r"use Rattle\.([\w.]+) as ([\w-]+)", line)
    return {whole.group(2): whole.group(1)} if whole else {}


def read() -> dict[str, File]:
    """The files of all crates, by their modules, as `zone_name.specs.Name`."""
    files = {}
    for path in sorted(TOP.glob("crates/*/specs/**/*.antt")):
        module = ".".join(path.relative_to(TOP / "crates").with_suffix("").parts)
        files[module] = File(path)
    return files


def words_of(comment: list[str]) -> str:
    """What a comment says, in one line."""
    return " ".join(line.removeprefix("--").strip() for line in comment)


def first_sentence(text: str) -> str:
    return re.sub(r"(?<=\.) (?=[A-Z`]).*", "", text)
