"""The public calls of a crate as its sources have them: docstring, clauses, and the definitions that these cite.

A call is public where `lib.rt` exports it, its type or its trait. Sources are laid out by `rt fmt`.
"""
import re
from collections.abc import Iterator
from dataclasses import dataclass, replace
from pathlib import Path

from crate_source import BLOCK, FUNCTION, IMPL, module_of, source_files

CLAUSE = re.compile(r"\bensures(?: (?P<name>\w+))? \{")
MEMBER = re.compile(r"^ {4}ghost (?P<name>output|cmp) = \{", re.M)  # what a type shows, and how it is ordered
EXPORT = re.compile(r"^pub (?:mod (?P<module>\w+);|use (?P<path>[\w:]+)::(?:\{(?P<names>[^}]*)\}|(?P<name>\w+));)", re.M)
IMPORT = re.compile(r"ghost use Rattle\.(?P<module>\w+\.specs\.[\w.]+?)(?:\.\{(?P<names>[^}]*)\}| as (?P<other>[\w-]+));")
ITEM = re.compile(r"^pub (?:const )?(?:fn|struct|enum|trait|type) (\w+)", re.M)
WORD = re.compile(r"(?<![\w.'-])[A-Za-z_][\w'-]*(?:\.[A-Za-z_][\w'-]*)?")

Cited = tuple[str, str]  # the module of a definition, as `zone_name.specs.Name`, and its name
Exports = dict[tuple[tuple[str, ...], str], str]  # the module and the name of an item, and the path before its name


@dataclass(frozen=True)
class Clause:
    """What a call ensures."""

    name: str  # empty for a clause without a name
    cited: tuple[Cited, ...]  # the definitions that it names, in their order


@dataclass(frozen=True)
class Call:
    """A public call of a crate, a public trait, or what a public type is as a trait of std."""

    owner: str  # the type or trait that it belongs to; empty where there is none
    name: str
    path: str  # as a caller writes it after the crate's name
    doc: str
    clauses: tuple[Clause, ...]

    @property
    def is_law(self) -> bool:
        return self.path.startswith("laws::")


def calls_of(crate: Path) -> list[Call]:
    """The public calls of a crate, by its folder, in the order of its exports; none of a program."""
    if not (crate / "src/lib.rt").exists():
        return []
    exported = exports_of(crate / "src", ())
    owners = {name: (module, name) for module, name in exported if name[0].isupper()}
    ranks = {key: rank for rank, key in enumerate(exported)}
    found = []
    for file in source_files(crate):
        module = tuple(module_of(file.relative_to(crate / "src")))
        for call in calls_in(file.read_text()):
            key = owners.get(call.owner) if call.owner else (module, call.name)
            if key in exported:
                found.append((ranks[key], replace(call, path=exported[key] + call.path)))
    return [call for _, call in sorted(found, key=lambda it: it[0])]


def exports_of(src: Path, module: tuple[str, ...]) -> Exports:
    """The items that a module exports."""
    text = (src / (f"{'/'.join(module)}.rt" if module else "lib.rt")).read_text()
    before = "".join(f"{it}::" for it in module)
    found: Exports = {}
    for it in EXPORT.finditer(text):
        if it["module"]:
            found.update(exports_of(src, (*module, it["module"])))
        else:
            there = (*module, *it["path"].split("::"))
            found.update({home_of(src, there, name): before for name in re.findall(r"\w+", it["names"] or it["name"])})
    found.update({(module, name): before for name in ITEM.findall(text)})
    return found


def home_of(src: Path, module: tuple[str, ...], name: str) -> tuple[tuple[str, ...], str]:
    """The module that defines what another one has under a name: itself, or one below that it passes on."""
    file = src / f"{'/'.join(module)}.rt"
    text = file.read_text() if file.exists() else ""
    below = re.search(rf"^pub(?:\(\w+\))? use (\w+)::(?:\{{[^}}]*\b{name}\b[^}}]*\}}|{name});", text, re.M)
    return home_of(src, (*module, below[1]), name) if below and name not in ITEM.findall(text) else (module, name)


def calls_in(text: str) -> Iterator[Call]:
    """The calls of a file that its crate may export."""
    imported = imports_of(text)
    blocks, heads = [*BLOCK.finditer(text)], [*FUNCTION.finditer(text)]
    for block in blocks:
        if call := call_of_block(text, block, imported):
            yield call
    for head, after in zip(heads, [*heads[1:], None]):
        above = [it[0] for it in blocks if head["indent"] and it.start() < head.start()]
        owner = owner_of(above[-1]) if above else ""
        if owner is None or not (re.match(r"""\s*pub (?:extern "C" )?fn""", head[0]) or above and "trait " in above[-1]):
            continue
        own = text[head.start() : after.start() if after else len(text)]
        path = f"{owner}::{head['name']}" if owner else head["name"]
        yield Call(owner, head["name"], path, doc_above(text, head.start()), clauses_of(own, CLAUSE, imported))


def call_of_block(text: str, block: re.Match[str], imported: dict[str, Cited]) -> Call | None:
    """A trait, or what a type is as a trait of std, where a docstring says it."""
    head, doc = " ".join(block[0].split()), doc_above(text, block.start())
    declared, of_type = re.match(r"(?:pub )?trait (\w+)", head), IMPL.match(head)
    if not doc or not (declared or of_type and of_type["trait"]):
        return None
    if declared:
        return Call(declared[1], "", declared[1], doc, ())
    assert of_type
    owner, trait = type_in(of_type["type"]), of_type["trait"].split("::")[-1]
    own = text[block.start() : text.find("\n}\n", block.start())]
    return Call(owner, trait, f"{owner} as {trait}", doc, clauses_of(own, MEMBER, imported))


def owner_of(block: str) -> str | None:
    """The type or trait whose public functions a block has; `None` of an `impl` of a trait."""
    head = " ".join(block.split())
    if declared := re.match(r"(?:pub )?trait (\w+)", head):
        return declared[1]
    found = IMPL.match(head)
    return None if not found or found["trait"] else type_in(found["type"])


def type_in(words: str) -> str:
    """The name of a type without its parameters."""
    return str(re.findall(r"(?<!')\b[A-Za-z]\w*", words)[0])


def doc_above(text: str, start: int) -> str:
    """The docstring above an item, in one line: its examples aside, and its errors after their word."""
    above = text[text.rfind("\n\n", 0, start) + 1 : start]
    lines = [it.strip()[3:].strip() for it in above.splitlines() if it.strip().startswith("///")]
    doc = re.sub(r"# Examples?\n.*?(?=\n# |\Z)|```.*?```", "", "\n".join(lines), flags=re.S)
    doc = re.sub(r"\[(`[^`]+`)\](?:\([\w:]+\))?", r"\1", re.sub(r"^# Errors$", "Errors:", doc, flags=re.M))
    return " ".join(doc.split())


def clauses_of(own: str, begin: re.Pattern[str], imported: dict[str, Cited]) -> tuple[Clause, ...]:
    """The clauses of a function's text, or the members of a block's."""
    return tuple(Clause(it["name"] or "", cited_in(own, it.end(), imported)) for it in begin.finditer(own))


def cited_in(text: str, start: int, imported: dict[str, Cited]) -> tuple[Cited, ...]:
    """The definitions that a clause names, up to the brace that ends it."""
    depth, end = 1, start
    while depth:
        depth += (text[end] == "{") - (text[end] == "}")
        end += 1
    words = [it if it in imported else it.partition(".")[0] for it in WORD.findall(text[start:end])]
    return tuple(dict.fromkeys(imported[it] for it in words if it in imported))


def imports_of(text: str) -> dict[str, Cited]:
    """The definitions that a file brings in, by the names that they have there."""
    found: dict[str, Cited] = {}
    for it in IMPORT.finditer(text):
        if ".declared." in it["module"] or it["module"].startswith("std."):
            continue
        for part in (it["names"] or "").split(","):
            words = part.strip().split(" as ")
            found[words[-1].strip()] = it["module"], words[0].strip()
        if it["other"]:
            qualified = re.findall(rf"(?<![\w.'-]){re.escape(it['other'])}\.([A-Za-z_][\w'-]*)", text)
            found.update({f"{it['other']}.{name}": (it["module"], name) for name in qualified})
    return found
