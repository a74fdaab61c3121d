"""What the sources of a crate say: its functions, with the paths that the prover's check gives them.

Sources are laid out by `rt fmt`: a function begins on a line of its own, and a brace that stands as deep ends it.
"""
import re
from collections.abc import Iterator
from dataclasses import dataclass
from pathlib import Path

FUNCTION = re.compile(r"""^(?P<indent> *)(?:pub(?:\([a-z]+\))? )?(?:const |extern "C" )?fn (?P<name>\w+)""", re.M)
BLOCK = re.compile(r"^(?:impl|(?:pub )?trait)\b[^{]*", re.M)
TYPE = re.compile(r"^(?:pub(?:\([a-z]+\))? )?(?:struct|enum) (\w+)", re.M)
# Of an `impl`: its trait, the trait's arguments and its type.
IMPL = re.compile(
    r"impl\b(?:<[^{]*?>)? (?:(?P<trait>[\w:]+)(?P<arguments><[^{]*?>)? for )?(?P<type>[^{]*?)(?: where\b.*)? ?$"
)


@dataclass(frozen=True)
class Function:
    """A function of a crate that has a body."""

    crate: str
    file: str  # below the crate's folder
    owner: tuple[str, ...]  # its modules and, of a method, the type
    name: str
    start: int  # where its text begins in the file, after comments and attributes
    end: int  # where it ends, with the line of its last brace
    attributes: str  # the lines of its attributes
    text: str
    is_of_trait: bool  # whether it is a method of a trait, declared there or in an `impl` of it

    @property
    def path(self) -> str:
        """Its path as a check writes it."""
        return "::".join([self.crate, *self.owner, self.name])

    @property
    def calls_itself(self) -> bool:
        """Whether its body calls a function of its name, on itself if it is a method."""
        call = rf"(?:\bself\.|\bSelf::){self.name}\(" if self.is_method else rf"(?<![.:\w]){self.name}\("
        return re.search(call, self.text.partition("{\n")[2]) is not None

    @property
    def cycle(self) -> str | None:
        """The name of the cycle of calls that it is in, if it calls one that calls it."""
        found = re.search(r"#\[cycle\((\w+)\)\]", self.attributes)
        return found[1] if found else None

    @property
    def is_method(self) -> bool:
        return self.text.startswith(" ")

    @property
    def body(self) -> int | None:
        """Where the brace of its body stands in its file; `None` where nothing is in it."""
        if self.text.endswith("{}\n"):
            return None
        indent = self.text[: len(self.text) - len(self.text.lstrip())]
        found = re.search(rf"^{indent}\{{$", self.text, re.M) or re.search(r"\{$", self.text, re.M)
        return self.start + found.end() - 1 if found else None


def functions_of(crate: Path) -> Iterator[Function]:
    """The functions of a crate but its tests, by the folder of the crate."""
    types = types_of(crate)
    for file in source_files(crate):
        source = file.read_text()
        for found in FUNCTION.finditer(source):
            indent = found["indent"]
            end = end_of(source, found.start(), indent)
            if end is None:
                continue
            owner, is_of_trait = module_of(file.relative_to(crate / "src")), False
            if indent:
                block = [it for it in BLOCK.finditer(source, 0, found.start())][-1][0].replace("\n", " ")
                is_of_trait = " for " in block or "trait " in block
                owner = owner_of(block, owner, types) or owner
            above = source[source.rfind("\n\n", 0, found.start()) + 1 : found.start()]
            yield Function(
                crate=crate.name,
                file=str(file.relative_to(crate)),
                owner=tuple(owner),
                name=found["name"],
                start=found.start(),
                end=end,
                attributes="".join(re.findall(rf"^{indent}#\[[^\n]*\n", above, re.M)),
                text=source[found.start() : end],
                is_of_trait=is_of_trait,
            )


def end_of(source: str, start: int, indent: str) -> int | None:
    """Where the function ends that begins there and stands so deep; `None` of one without a body."""
    has_body, place = False, start
    for line in source[start:].splitlines(keepends=True):
        place += len(line)
        has_body = has_body or line.startswith(f"{indent}{{") or line.endswith(" {\n")
        if line in (f"{indent}}}\n", f"{indent}{{}}\n") or line.endswith(" {}\n") and line.startswith(f"{indent}") and not line.startswith(f"{indent} "):
            return place
        if line.endswith(";\n") and not has_body:
            return None
    return None


def source_files(crate: Path) -> list[Path]:
    """The source files of a crate but its tests."""
    return [it for it in sorted(crate.glob("src/**/*.rt")) if "tests" not in it.relative_to(crate).with_suffix("").parts]


def module_of(file: str | Path) -> list[str]:
    """The modules that a source file, by its path below src, stands for."""
    parts = Path(file).with_suffix("").parts
    return [] if parts in (("lib",), ("main",)) else [*parts]


def types_of(crate: Path) -> dict[str, list[str]]:
    """The modules of each type of a crate."""
    return {name: module_of(it.relative_to(crate / "src")) for it in source_files(crate) for name in TYPE.findall(it.read_text())}


def owner_of(block: str, module: list[str], types: dict[str, list[str]]) -> list[str] | None:
    """The modules and the type, as a check has them, of the methods of an `impl`; `None` of a trait's own block."""
    found = IMPL.match(block.strip())
    if not found:
        return None
    words = words_in(found["type"])
    if not found["trait"]:
        return [*types.get(words[0], module), words[0]]
    # A method of a trait has the module of the `impl`, and after the words of the type those of the trait.
    arguments = words_in(found["arguments"] or "")
    return [*module, "".join([*words, found["trait"].rsplit("::", 1)[-1], *arguments])]


def words_in(text: str) -> list[str]:
    """The words of a type, as a check has them in a name: without its parameters, and a parameter alone is `Any`. Before those of a
    tuple is how many it has."""
    text = re.sub(r"\(([^()]+)\)", lambda tuple_: f"Tuple{tuple_[1].count(',') + 1} {tuple_[1]}", text)
    words = re.findall(r"[A-Za-z]\w*", re.sub(r"'\w+|\w+::", "", text))
    if len(words) == 1 and is_parameter(words[0]):
        return ["Any"]
    return [it[0].upper() + it[1:] for it in words if not is_parameter(it)]


def is_parameter(word: str) -> bool:
    """Whether a word is a type parameter's name."""
    return re.fullmatch(r"[A-Z]\d?", word) is not None
