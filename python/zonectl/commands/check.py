"""`zonectl check`: what is wrong with zone files, and which servers refuse them."""
from __future__ import annotations

import argparse
import dataclasses
import os
from collections.abc import Iterator
from typing import Any, NamedTuple

from .. import lint, spelling
from ..bounds import whole
from ..errors import Failure, Status, Undone, Usage, about
from ..faults import Finding, faults_of, source_line
from ..files import below, prefix, staged
from ..names import absolute
from ..options import Parser, add_jobs, add_output, add_sources, at_once, form_of, reader_of
from ..outputs import Output
from ..reading import Read, read
from ..sources import File, Git, Source, source_of, sources_of
from ..texts import counted
from ..zones import Copy, Reader

ABOUT = """\
Prints what is wrong with zone files, each fault with its line: of a folder, or of the current one, with those that git knows; or, outside
a repository, with all. A file that denotes a zone may still be refused by servers: lint says by which."""
MOST = 20
FORMATS = ("text", "json", "github")


class Asked(NamedTuple):
    """A source that is checked, with its zone if a list states that; `is_found` in a folder."""

    source: Source
    zone: str | None = None
    is_found: bool = False


class Came(NamedTuple):
    """What came of a source."""

    findings: list[Finding]
    included: frozenset[str] = frozenset()

    @property
    def status(self) -> int:
        """The status of this source."""
        return Status.REFUSED if any(it.level == "error" for it in self.findings) else Status.SAME


def servers(text: str) -> list[str]:
    """Returns the servers that a list names. Raises ValueError."""
    known = {it.lower(): it for it in lint.SERVERS}
    names = [known.get(it.lower(), "") for it in text.split(",")]
    if "" in names:
        raise ValueError(f"not servers: {text} ({','.join(known)})")
    return names


def parser() -> Parser:
    """Returns the parser."""
    made = Parser("check", "[OPTION].. [SOURCE|FOLDER..]\n       zonectl check [OPTION].. {--list FILE|--staged [PATH..]}", ABOUT)
    made.alone["--lint"] = ",".join(lint.SERVERS).lower()
    made.option("--lint", type=servers, metavar="SERVERS", help="what any of these refuses or warns of: bind,nsd,knot; all of them if "
                "none is named (--lint=bind); without this option what all three refuse")
    made.option("--no-lint", action="store_true", help="faults alone")
    made.option("--strict", action="store_true", help="warnings are errors")
    made.option("--format", choices=FORMATS, metavar="FORMAT", help="text, json or github (annotations)")
    made.option("--staged", action="store_true", help="check what is staged in git")
    made.option("--list", metavar="FILE", help="check the lines ZONE SOURCE of FILE (- is standard input)")
    made.option("--max-faults", type=whole(999_999), default=MOST, metavar="N", help=f"report so many of a file ({MOST})")
    add_jobs(made)
    add_output(made)
    add_sources(made)
    return made


def run(given: argparse.Namespace, output: Output) -> int:
    """Checks files."""
    form = form_of(given)
    if given.lint and given.no_lint:
        raise Usage("--lint and --no-lint don't go together")
    if given.list and (given.operands or given.staged):
        raise Usage("--list goes neither with --staged nor with operands")
    reader = reader_of(given, output)
    asked, skipped = which(given, reader)
    if given.origin and len(asked) > 1:
        raise Usage("--origin goes with one zone")
    if not asked and given.staged:
        output.note(f"no zone file is staged: {counted(skipped, 'file')} skipped")
        return Status.SAME
    if not asked:
        folders = " and ".join(given.operands) or "."
        raise Undone(f"no zone file found below {folders}: {counted(skipped, 'file')} skipped" if not given.list else "the list is empty")
    came = list(zip(asked, at_once(asked, given.jobs, Checker(reader, given).came, output, lambda it: it.source.text)))
    included = frozenset(path for _, it in came if isinstance(it, Came) for path in it.included)
    came = [(it, what) for it, what in came if not (it.is_found and os.path.realpath(it.source.text) in included)]
    bad = sum(bool(what.status) for _, what in came)
    status = max(int(what.status) for _, what in came)
    found = [it for _, what in came if isinstance(what, Came) for it in what.findings[: given.max_faults]]
    counts = {"read": len(came), "good": len(came) - bad, "bad": bad, "included": len(included), "skipped": skipped}
    output.answer(shown(found, form, status, counts, reader), status, given.output)
    for it, what in came:
        if isinstance(what, Failure):
            output.failed(what)
        elif len(what.findings) > given.max_faults:
            output.note("more faults (--max-faults)", it.source.text)
    output.note(f"{counted(len(came), 'file')}: {counts['good']} good, {bad} bad; {len(included)} included, {skipped} skipped", by="")
    return status


def shown(found: list[Finding], form: str, status: int, counts: dict[str, int], reader: Reader) -> str | dict[str, Any]:
    """Returns what is printed."""
    if form == "json":
        return {"format": "zonectl-check/1", "status": status, "files": counts, "findings": [it.object() for it in found]}
    if form == "github":
        top = prefix(reader.access.limits)
        return "".join(it.command(top) for it in found)
    return "".join(it.lines() for it in found)


def which(given: argparse.Namespace, reader: Reader) -> tuple[list[Asked], int]:
    """Returns what is checked, and how many files of folders aren't zone files. Raises Failure."""
    limits = reader.access.limits
    if given.list:
        return list(listed(given.list, reader)), 0
    if given.staged:
        sources, skipped = staged(given.operands, limits)
        return [Asked(it) for it in sources], skipped
    asked: dict[str, Asked] = {}
    skipped = 0
    for source in sources_of(given.operands or ["."]):
        if isinstance(source, File) and not source.form and os.path.isdir(source.path):
            paths, others = below(source.path, limits)
            skipped += others
            for path in paths:
                asked.setdefault(path, Asked(File(path, path), is_found=True))
        else:
            asked[source.text] = Asked(source)
    return list(asked.values()), skipped


def listed(path: str, reader: Reader) -> Iterator[Asked]:
    """Yields the lines `ZONE SOURCE` of a file. Raises Failure."""
    for number, line in reader.lines(path):
        zone, _, source = line.strip().partition(" ")
        try:
            yield Asked(source_of(source.strip()), absolute(zone))
        except (ValueError, Usage) as error:
            raise Undone(str(error), path, line=number) from None


class Checker:
    """How a source is checked."""

    def __init__(self, reader: Reader, given: argparse.Namespace) -> None:
        self.reader, self.most, self.is_strict = reader, given.max_faults, given.strict
        self.servers: list[str] | None = given.lint
        self.has_lint = not given.no_lint

    def came(self, asked: Asked) -> Came:
        """Checks a source. Raises Failure."""
        source, reader = asked.source, dataclasses.replace(self.reader, origin=asked.zone or self.reader.origin)
        with about(source.text):
            it = read(source, reader.access)
            if it.is_transfer:
                return Came(list(self._linted(source, it, reader.judged(source, it), "")))
            origin = reader.origin_of(source, it.octets)
            found = faults_of(it.octets, origin, source.text, self.most + 1)
            findings = list(self._of_mark(source, it)) + found.faults
            if found.text is not None:
                linted = self._linted(source, it, reader.under(source, found.text, origin), origin)
                findings += sorted(linted, key=lambda it: it.line or 0)
            return Came(findings, found.included)

    def _of_mark(self, source: Source, it: Read) -> Iterator[Finding]:
        if it.has_mark:
            yield from self._finding(source, it, 1, lint.Problem("byte-order-mark", "", "the file begins with a byte order mark", []))

    def _linted(self, source: Source, it: Read, copy: Copy, origin: str) -> Iterator[Finding]:
        """Yields what lint finds in a zone."""
        if not self.has_lint or copy.rdclass != "IN":
            return
        places: spelling.Places | None = None
        for problem in lint.problems(copy, self.servers is None):
            if lint.judged(problem.rule, self.servers):
                if not it.is_transfer:
                    places = places or spelling.Places(it.octets, origin)
                yield from self._finding(source, it, places.last(problem.records) if places else None, problem)
        if not it.is_transfer:
            for line, problem in spelling.problems(it.octets, origin):
                yield from self._finding(source, it, line, problem)

    def _finding(self, source: Source, it: Read, line: int | None, problem: lint.Problem) -> Iterator[Finding]:
        if found := lint.judged(problem.rule, self.servers):
            level, names = found
            yield Finding(
                file=source.text, line=line, level="error" if self.is_strict else level, rule=problem.rule.removesuffix("-host"),
                text=f"{problem.owner}: {problem.text}" if problem.owner else problem.text, servers=names,
                source=source_line(it.octets, line) if line else None, does="refused by" if level == "error" else "a warning of")
