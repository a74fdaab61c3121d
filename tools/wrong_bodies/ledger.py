"""The ledger of wrong bodies that were refused, and the keys under which they were.

A key is made of all that decides whether a body is refused: its record, its function with contract, attributes and proof files, the
contracts of what that calls, the definitions and types that its file reaches by its `ghost use`s, and the toolchain's line. It depends on
no machine and no path. A function that is called is known by its name alone, so a key may change for nothing. A key that stays where it
shouldn't is found within some commits: a seventh of the bodies that the ledger spares is tried with each, by the commit's hash.
"""
import hashlib
import re
import subprocess
from functools import cache
from pathlib import Path
from threading import Lock
from typing import NamedTuple

from crate_source import FUNCTION, functions_of, source_files
from libraries import TOP, Libraries
from parts import Outcome
from records import WrongBody
from trial import proof_of

LEDGER = TOP / "tools/wrong_bodies/ledger.txt"
# What a definition or a `ghost use` names: a crate's definitions, or those of a type, which its source declares.
NAMED = re.compile(r"\bRattle\.(?P<crate>\w+)\.specs\.(?P<path>[\w.]+)")
CALLED = re.compile(r"\b([a-z_]\w*)(?:::<[^(]*>)?\(")
COMMENT_OR_USE = re.compile(r"^ *(?://|use |pub use |--).*\n", re.M)


class Line(NamedTuple):
    """What the ledger says of a body: the key under which it was refused, and whether an answer of its function alone refused it."""

    key: str
    by_answer: bool


class Keys:
    """Makes the keys of wrong bodies, by what the crates say."""

    def __init__(self) -> None:
        self.uses = Libraries().uses
        self.toolchain = subprocess.run(["rt", "version"], stdout=subprocess.PIPE, text=True, check=True).stdout

    def of(self, body: WrongBody) -> str:
        """The key of a body."""
        function, crate = body.function, body.crate
        proofs = [Path(crate, "proofs", *it) for it in dict.fromkeys([(*function.owner, function.name), proof_of(function)])]
        parts = [self.toolchain, body.record, function.attributes, COMMENT_OR_USE.sub("", function.text)]
        parts += [file.read_text() for it in proofs for file in sorted(it.rglob("*.antt"))]
        names = set(CALLED.findall(body.text)) | set(CALLED.findall(function.text))
        for name in [crate.name, *(it for it in self.uses[crate.name] if it in self.uses)]:
            heads = heads_of(TOP / "crates" / name)
            parts += [it for called in sorted(names) for it in heads.get(called, [])]
        parts += [text_of(it) for it in sorted(reached(crate / function.file))]
        return hashlib.sha256("\0".join(parts).encode()).hexdigest()[:24]


@cache
def heads_of(crate: Path) -> dict[str, list[str]]:
    """The functions of a crate up to their bodies, by name: signatures and contracts."""
    heads: dict[str, list[str]] = {}
    for file in source_files(crate):
        source = file.read_text()
        for found in FUNCTION.finditer(source):
            head = re.split(rf"\n{found['indent']}\{{|;\n| \{{\n| ?\{{\}}\n", source[found.start() :], maxsplit=1)[0]
            heads.setdefault(found["name"], []).append(head)
    return heads


@cache
def text_of(file: Path) -> str:
    """A file of definitions; or of a source file what isn't in functions: types with their invariants, constants and traits."""
    text = file.read_text()
    for function in functions_in(file) if file.suffix == ".rt" else ():
        text = text.replace(function, "")
    return COMMENT_OR_USE.sub("", text)


def functions_in(file: Path) -> list[str]:
    """The texts of the functions of a source file."""
    crate = TOP / Path(*file.relative_to(TOP).parts[:2])
    return texts_in(crate).get(file.relative_to(crate).as_posix(), [])


@cache
def texts_in(crate: Path) -> dict[str, list[str]]:
    """The texts of the functions of a crate, by file."""
    texts: dict[str, list[str]] = {}
    for function in functions_of(crate):
        texts.setdefault(function.file, []).append(function.text)
    return texts


@cache
def named_in(file: Path) -> frozenset[Path]:
    """The files of definitions and types that a file names."""
    found = {file_of(it["crate"], it["path"].rstrip(".").split(".")) for it in NAMED.finditer(file.read_text())}
    return frozenset(it for it in found if it)


def file_of(crate: str, path: list[str]) -> Path | None:
    """The file that a path of definitions leads to, if the repository has it."""
    folder, suffix = (Path("src"), ".rt") if path[0] == "declared" else (Path("specs"), ".antt")
    parts = path[1:] if path[0] == "declared" else path
    files = (TOP / "crates" / crate / folder / Path(*parts[:count]).with_suffix(suffix) for count in range(len(parts), 0, -1))
    return next((it for it in files if it.is_file()), None)


def reached(file: Path) -> set[Path]:
    """A file and all files of definitions and types that it names, and that these name."""
    seen, left = set[Path](), [file]
    while left:
        if (one := left.pop()) not in seen:
            seen.add(one)
            left += named_in(one)
    return seen


def is_turn(commit: str, name: str) -> bool:
    """Whether a body is of the seventh that is tried at a commit although the ledger has it."""
    return int(hashlib.sha256(f"{commit} {name}".encode()).hexdigest(), 16) % 7 == 0


def commit_here() -> str:
    """The hash of the commit that is checked out."""
    words = ["git", "-C", str(TOP), "rev-parse", "HEAD"]
    return subprocess.run(words, stdout=subprocess.PIPE, text=True, check=True).stdout.strip()


class Ledger:
    """The lines of a file, by the bodies' full names."""

    def __init__(self, file: Path) -> None:
        rows = (it.split() for it in file.read_text().splitlines()) if file.is_file() else ()
        self.file, self.lock = file, Lock()
        self.lines = {name: Line(key, bool(rest)) for name, key, *rest in rows}

    def spares(self, body: WrongBody, key: str, commit: str) -> bool:
        """Whether a body was refused under a key and isn't tried anew at a commit."""
        line = self.lines.get(body.full_name)
        return line is not None and line.key == key and not is_turn(commit, body.full_name)

    def take(self, done: Outcome, keys: dict[WrongBody, str]) -> None:
        """Takes the bodies that were refused, each with its key, and drops those that weren't."""
        with self.lock:
            self.lines.update({it.full_name: Line(keys[it], it in done.by_answer) for it in done.refused})
            for body in done.survivors:
                self.lines.pop(body.full_name, None)
            self.write()

    def keep(self, names: set[str]) -> None:
        """Drops the lines of bodies that aren't there any more."""
        self.lines = {name: line for name, line in self.lines.items() if name in names}

    def write(self) -> None:
        """Writes the lines, sorted."""
        kept = sorted(self.lines.items())
        self.file.write_text("".join(f"{name} {line.key}{' answer' if line.by_answer else ''}\n" for name, line in kept))
