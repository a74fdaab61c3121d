"""`zonectl diff`: how two copies of a zone differ."""
from __future__ import annotations

import argparse
import os
import re
from typing import Any

from ..diff_text import github_of, json_of, json_of_one, text_of
from ..difference import Difference, Ignored, difference_of, ignored
from ..errors import Failure, Status, Undone, Usage
from ..files import Change, changed_since
from ..nsupdate import parts_of
from ..options import Parser, add_output, add_sources, form_of, reader_of
from ..outputs import Output
from ..patch import patch_of
from ..sources import File, Git, sources_of
from ..texts import coloured, safe
from ..zones import Copy

ABOUT = """\
Prints how two copies of a zone differ, RRset by RRset. The first line is DIFFERENT UNDER ONE SERIAL N if other data is under one
serial, since no secondary will notice then. Names in RDATA compare without letter case (RFC 4343)."""
LINES = 200
FORMATS = ("text", "json", "patch", "nsupdate", "github")


def lines(text: str) -> int:
    """Returns how many lines are shown; -1 for all. Raises ValueError."""
    if text == "all":
        return -1
    if not re.fullmatch("[0-9]{1,9}", text):
        raise ValueError(f"not a number of lines, nor all: {text}")
    return int(text)


def parser() -> Parser:
    """Returns the parser."""
    made = Parser("diff", "[OPTION].. A B\n       zonectl diff [OPTION].. --since REV [PATH..]", ABOUT)
    made.option("--since", metavar="REV", help="compare the zone files of the working tree with those of a git revision")
    made.option("-i", "--ignore", type=ignored, default=Ignored(), metavar="LIST",
                help="leave out, separated by commas: serial, ttl, dnssec (what a signer adds), or types as CAA or TYPE257")
    made.option("-e", "--exact", action="store_true", help="compare names in RDATA with their letter case")
    made.option("-z", "--require-zonemd", action="store_true", help="refuse a transfer that its ZONEMD records don't verify")
    made.option("-n", "--lines", type=lines, metavar="N", help=f"show so many lines of a difference ({LINES}), or all")
    made.option("--format", choices=FORMATS, metavar="FORMAT",
                help="text, json, patch (a unified diff, always exact), nsupdate (commands that make A into B) or github (Markdown)")
    made.option("--parts", metavar="DIR", help="write each part of --format=nsupdate as DIR/0001, ..")
    made.option("-p", "--presentation", action="store_true", help="further types in presentation format, in a patch")
    add_output(made)
    add_sources(made)
    return made


def run(given: argparse.Namespace, output: Output) -> int:
    """Compares two copies, or the working tree with a revision."""
    form = form_of(given)
    if given.parts and form != "nsupdate":
        raise Usage("--parts goes with --format=nsupdate")
    if given.since is not None:
        if given.origin or given.output or form == "nsupdate":
            raise Usage("--since doesn't go with --origin, --output and --format=nsupdate")
        return since(form, given, output)
    sources = sources_of(given.operands)
    if len(sources) != 2:
        raise Usage("it takes two sources, A and B")
    return compared(*reader_of(given, output).pair(*sources), form, given, output)


def compared(a: Copy, b: Copy, form: str, given: argparse.Namespace, output: Output, title: str = "") -> int:
    """Prints how two copies differ, under a title, and returns the status."""
    if form == "patch":
        text = patch_of(a, b, given.presentation)
        return output.answer(text, Status.DIFFERENT if text else Status.SAME, given.output)
    found = difference_of(a, b, given.exact, given.ignore)
    status = Status.DIFFERENT if found.rrsets else Status.SAME
    if form == "nsupdate":
        return updates(found, status, given, output)
    most = None if given.lines == -1 else given.lines
    if form == "json":
        return output.answer(json_of(found, most), status, given.output)
    most = LINES if given.lines is None else most
    text = github_of(found, most) if form == "github" else title + text_of(found, most)
    has_colours = output.has_colours and form == "text" and not given.output
    return output.answer(coloured(text) if has_colours else text, status, given.output)


def since(form: str, given: argparse.Namespace, output: Output) -> int:
    """Compares the zone files of the working tree with those of a revision, one after another."""
    reader, worst = reader_of(given, output), 0
    changes = changed_since(given.since, given.operands, reader.access.limits)
    if not changes:
        output.note(f"no zone file differs from {given.since}")
    for it in changes:
        old, new = Git(f"git:{given.since}:{it.path}", given.since, it.path), File(it.here, it.here)
        try:
            if it.how == "changed":
                status: int = compared(*reader.pair(old, new), form, given, output, f"== {safe(it.path)}\n")
            else:
                copy = reader.copy(old if it.how == "removed" else new) if form == "json" else None
                status = output.answer(one_sided(it, form, copy), Status.DIFFERENT)
        except Failure as failure:
            status = output.failed(failure)
        worst = max(worst, status)
    return worst


def one_sided(it: Change, form: str, copy: Copy | None) -> str | dict[str, Any]:
    """Returns what is printed of a file that was added or removed."""
    if copy:
        return json_of_one(copy, is_added=it.how == "added")
    return {"text": f"== {safe(it.path)}: {it.how}\n", "github": f"### {safe(it.path)}: {it.how}\n"}.get(form, "")


def updates(found: Difference, status: Status, given: argparse.Namespace, output: Output) -> int:
    """Writes the parts of an update."""
    parts = parts_of(found, output.note)
    if not given.parts:
        return output.answer("".join(parts), status, given.output)
    if len(parts) > 9999:
        raise Undone("the update has more than 9999 parts")
    for number, part in enumerate(parts, 1):
        output.result(part, os.path.join(given.parts, f"{number:04d}"))
    return status
