"""The definitions of all crates by their names: what each file defines and brings in, and the types of the code."""
import re
from dataclasses import dataclass, field
from functools import cache
from pathlib import Path
from typing import Any, cast

import builtin
import definitions
import numerals  # noqa: F401
import prelude
from syntax import Shape, Tree, Unreadable, items_of, read_definition
from values import CONS, NIL, Goal, Refused


@dataclass
class Constructor:
    name: str
    arity: int
    family: str
    types: list[Tree] = field(default_factory=list)
    scope: Any = None


@dataclass
class Definition:
    """A definition of a file, read when it is first cited."""

    module: str
    name: str
    shape: Shape
    scope: "Scope"
    constant: Any = None

    @property
    def whole(self) -> str:
        return f"{self.module}.{self.name}"

    @property
    def arity(self) -> int:
        if self.shape.kind == "function":
            return len(self.shape.clauses[0].patterns)
        return len(self.shape.parameters) + self.indices

    @property
    def indices(self) -> int:
        """How many arguments data has after its parameters."""
        return getattr(self.shape, "indices", 0)


def arguments_of(tree: Tree) -> list[Tree]:
    """The types before the last of a function's type."""
    if tree[0] == "all":
        return [kind for _, kind in tree[1]] + arguments_of(tree[2])
    if tree[0] == "apply" and tree[1] == ("name", "→"):
        return [tree[2][0], *arguments_of(tree[2][1])]
    return []


PLAIN = {NIL: ("List", 0), CONS: ("List", 2), "zero": ("ℕ", 0), "suc": ("ℕ", 1), "true": ("Bool", 0), "false": ("Bool", 0),
         "None": ("Option", 0), "Some": ("Option", 1), "Ok": ("Result", 1), "Err": ("Result", 1),
         "Less": ("Ordering", 0), "Equal": ("Ordering", 0), "Greater": ("Ordering", 0)}


class Scope:
    """What names mean in a file."""

    def __init__(self, program: "Program", module: str, file: definitions.File) -> None:
        self.program, self.module, self.file = program, module, file
        self.aliases = file.files
        self.found: dict[str, Any] = {}

    def find(self, name: str) -> Any:
        if name not in self.found:
            self.found[name] = self.look_up(name)
        return self.found[name]

    def look_up(self, name: str) -> Any:
        if name in self.file.made:
            return self.program.definition(self.module, name)
        if name in self.file.cases:
            return self.program.case(self.module, self.file.cases[name], name)
        if name in self.file.names:
            return self.program.brought(*self.file.names[name])
        if "◌" + name + "◌" in self.file.names:
            return self.program.brought(*self.file.names["◌" + name + "◌"])
        return self.program.plain(name)

    def find_in(self, alias: str, name: str) -> Any:
        return self.program.brought(self.aliases[alias], name)

    def is_constructor(self, name: str) -> bool:
        try:
            return isinstance(self.find(name), Constructor)
        except Refused:
            return False


class Text:
    """A text in place of a file."""

    def __init__(self, text: str) -> None:
        self.text = text

    def read_text(self) -> str:
        return self.text


READ: dict[str, definitions.File] = {}


def known_files() -> dict[str, definitions.File]:
    """The files of all crates, which are read once."""
    if not READ:
        READ.update(definitions.read())
    return dict(READ)


class Program:
    """All definitions, with words of std in `builtin`."""

    def __init__(self, changed: dict[str, str] | None = None) -> None:
        self.files = known_files()
        self.scopes: dict[str, Scope] = {}
        self.known: dict[tuple[str, str], Definition] = {}
        for module, text in (changed or {}).items():
            self.files[module] = definitions.File(cast(Path, Text(text)))

    def scope(self, module: str) -> Scope:
        if module not in self.scopes:
            self.scopes[module] = Scope(self, module, self.files[module])
        return self.scopes[module]

    def definition(self, module: str, name: str) -> Definition:
        if (module, name) not in self.known:
            try:
                lines = self.files[module].made[name].lines
                shape = read_definition(lines)
            except Unreadable as e:
                raise Refused(f"{module}.{name}: {e}") from e
            made = Definition(module, name, shape, self.scope(module))
            if shape.kind == "data":
                made.shape.indices = self.indices_of(lines)  # type: ignore[attr-defined]
            self.known[module, name] = made
        return self.known[module, name]

    def indices_of(self, lines: list[str]) -> int:
        head = " ".join(" ".join(lines).split(" where")[0].split())
        return head.rsplit(": ", 1)[1].count("→") if ": " in head else 0

    def case(self, module: str, data: str, name: str) -> Constructor:
        d = self.definition(module, data)
        types = arguments_of(dict(d.shape.cases)[name])
        return Constructor(f"{module}.{name}", len(types), f"{module}.{data}", types, d.scope)

    def brought(self, module: str, name: str) -> Any:
        name = name.strip("◌") if name.startswith("◌") else name
        if ".specs.declared." in module and not module.startswith("std."):
            return self.declared(module, name)
        if module in self.files:
            return self.scope(module).find(name)
        return self.plain(name)

    def plain(self, name: str) -> Any:
        """A word of std, which `builtin` has."""
        name = prelude.ALIKE.get(name, name)
        if name in PLAIN:
            return Constructor(name, PLAIN[name][1], PLAIN[name][0])
        if name in builtin.NAMES:
            return builtin.NAMES[name]
        if name in self.prelude().file.made:
            return self.definition("prelude", name)
        raise Refused(f"the word {name} of std")

    @cache
    def prelude(self) -> Scope:
        self.files["prelude"] = definitions.File(cast(Path, Text(prelude.prelude())))
        return self.scope("prelude")

    # ---- types that the code declares

    def declared(self, module: str, name: str) -> Any:
        place = module.removesuffix(".TheVariants")
        if module.endswith(".TheVariants"):
            arity = dict(self.variants(place))[name]
            return Constructor(f"{place}.{name}", arity, place)
        return Goal("declared", (place,))

    @cache
    def variants(self, place: str) -> list[tuple[str, int]]:
        """The variants of an enum of the code, and how many fields each has."""
        body = self.body(place, "enum")
        found = re.findall(r"^    ([A-Z]\w*)(\(([^)]*(?:\([^)]*\))?[^)]*)\))?,?$", body, re.MULTILINE)
        return [(name, len([p for p in inner.split(",") if p.strip()])) for name, _, inner in found]

    @cache
    def fields_of(self, place: str) -> list[str]:
        return re.findall(r"^    (?:pub(?:\([^)]*\))? )?(\w+): ", self.body(place, "struct"), re.MULTILINE)

    def body(self, place: str, kind: str) -> str:
        crate, parts = place.split(".specs.declared.")[0], place.split(".specs.declared.")[1].split(".")
        path = definitions.TOP / "crates" / crate / "src" / Path(*parts[:-1])
        text = path.with_suffix(".rt").read_text()
        found = re.search(rf"^(?:pub(?:\([^)]*\))? )?{kind} {parts[-1]}\b[^{{;]*{{\n(.*?)^}}", text, re.MULTILINE | re.DOTALL)
        return found.group(1) if found else ""

    def family(self, name: str) -> list[Constructor]:
        """The constructors of a kind of values."""
        if ".specs.declared." in name:
            return [Constructor(f"{name}.{variant}", arity, name) for variant, arity in self.variants(name)]
        if "." in name:
            module, data = name.rsplit(".", 1)
            return [self.case(module, data, case) for case, _ in self.definition(module, data).shape.cases]
        return [Constructor(c, arity, family) for c, (family, arity) in PLAIN.items() if family == name]


__all__ = ["Constructor", "Definition", "Program", "Scope", "items_of"]
