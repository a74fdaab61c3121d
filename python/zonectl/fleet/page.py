"""A page of HTML on a run, which needs nothing beside it and has no script."""
from __future__ import annotations

import html
import re
import time
from collections.abc import Iterator

from ..texts import counted
from .comparing import Pair
from .results import WORDS, Results

BEGIN = """<!DOCTYPE html>
<html lang="en">
<head>
<meta charset="utf-8">
<meta name="viewport" content="width=device-width, initial-scale=1">
<meta http-equiv="Content-Security-Policy"
  content="default-src 'none'; style-src 'unsafe-inline'; img-src data:">
<link rel="icon" href="data:,">
<title>Zones compared</title>
<style>
:root { color-scheme: light dark; --line: #8886; --quiet: #667;
  --good: #1a7f37; --bad: #b42318; --odd: #9a5b00; }
@media (prefers-color-scheme: dark) {
  :root { --quiet: #99a; --good: #4cc26b; --bad: #ff7b72; --odd: #e3a33b; }
}
body { font: 1rem/1.45 system-ui, sans-serif; max-width: 75rem; margin: auto; padding: 1rem; }
h1 { font-size: 1.5rem; margin: 0; overflow-wrap: anywhere; }
h2 { font-size: 1.1rem; margin: 2rem 0 .3rem; overflow-wrap: anywhere; }
p { margin: .3rem 0 1rem; overflow-wrap: anywhere; }
table { border-collapse: collapse; width: 100%%; }
th, td { border-bottom: 1px solid var(--line); padding: .3rem .6rem; text-align: left;
  vertical-align: top; }
tbody th { font-weight: normal; min-width: 14rem; overflow-wrap: anywhere; }
.number { text-align: right; font-variant-numeric: tabular-nums; }
.result { font-weight: 600; border-left: .3rem solid; padding-left: .5rem; white-space: nowrap; }
.same { color: var(--good); }
.different .result { color: var(--odd); }
.alarm .result { color: var(--bad); }
summary { cursor: pointer; }
details p { columns: 14rem; }
pre { overflow-x: auto; border: 1px solid var(--line); padding: .6rem; margin: .5rem 0; }
.gone, .come { display: block; padding: 0 .3rem; }
.gone { background: #ffb2002e; }
.come { background: #2f81f72e; }
.quiet { color: var(--quiet); font-weight: normal; white-space: normal; }
section { scroll-margin-top: 1rem; }
section:target h2 { outline: 2px solid; outline-offset: .2rem; }
@media (max-width: 45rem) {
  pre { white-space: pre-wrap; overflow-wrap: anywhere; }
  thead { position: absolute; left: -99rem; }
  tr { display: block; border-bottom: 1px solid var(--line); padding: .5rem 0; }
  tbody th, td { display: block; border: 0; padding: .05rem 0; }
  tbody th { font-weight: 600; }
  td.number { display: inline-block; padding-right: 1rem; text-align: left; }
  td[data-name]::before { content: attr(data-name) ": "; color: var(--quiet); }
  td:empty { display: none; }
}
@media print {
  body { max-width: none; padding: 0; font-size: 9pt; }
  pre { white-space: pre-wrap; overflow-wrap: anywhere; }
  .gone, .come { print-color-adjust: exact; -webkit-print-color-adjust: exact; }
  tr, h2 { break-inside: avoid; }
  h2 { break-after: avoid; }
  a { color: inherit; text-decoration: none; }
  .back { display: none; }
}
</style>
</head>
<body>
<h1>Zones compared</h1>
<p>%(summary)s<br><span class="quiet">%(time)s</span></p>
<table id="zones">
<thead><tr><th scope="col">Zone<th scope="col">Server<th scope="col">Result%(columns)s</tr></thead>
<tbody>
"""
COLUMNS = {"Serial, reference": ("serials", "reference"), "Serial, server": ("serials", "server"),
           "Records, reference": ("records", "reference"), "Records, server": ("records", "server")}
KINDS = {"one-serial": ("alarm", "different under one serial"), "different": ("different", "different")}
LEGEND = """<p><span class="gone">- what the reference has alone</span>
<span class="come">+ what the server has alone</span></p>
"""
END = "</body>\n</html>\n"


def page(found: Results) -> str:
    """Returns the page: what is different under one serial, different, refused, not compared, and the same, in this order."""
    return "".join(_pieces(found))


def _pieces(found: Results) -> Iterator[str]:
    times = [it["at"] for it in found.pairs]
    columns = "".join(f'<th scope="col" class="number">{it}' for it in COLUMNS)
    yield BEGIN % {"columns": columns, "summary": html.escape(found.summary()), "time": _span(times)}
    differing = [it for kind in KINDS for it in found.pairs if it["result"] == kind]
    yield from (_row(number, it) for number, it in enumerate(differing))
    for (result, server, reason), zones in found.failures().items():
        yield _group(WORDS[result], server, reason, zones)
    yield "</tbody>\n</table>\n"
    for server in found.servers:
        same = [it["zone"] for it in found.pairs if it["result"] == "same" and it["server"] == server]
        if same:
            yield f'<p class="same">{html.escape(server)}:</p>\n' + _folded(f"{counted(len(same), 'zone')} the same", same) + "\n"
    if any(it["text"] for it in differing):
        yield LEGEND
    yield from (_section(number, it) for number, it in enumerate(differing) if it["text"])
    yield END


def _span(times: list[int]) -> str:
    """Returns when the first and the last zone were compared."""
    if not times:
        return ""
    first, last = (time.strftime("%Y-%m-%d %H:%M UTC", time.gmtime(it)) for it in (min(times), max(times)))
    return first if first == last else f"{first} to {last}"


def _row(number: int, it: Pair) -> str:
    kind, word = KINDS[it["result"]]
    name = html.escape(it["zone"])
    if it["text"]:
        name = f'<a href="#z{number}">{name}</a>'
    values = {column: it[pair][side] for column, (pair, side) in COLUMNS.items()}
    cells = "".join(f'<td class="number" data-name="{column}">{"" if value is None else value}' for column, value in values.items())
    reason = f'<br><span class="quiet">{html.escape(it["reason"])}</span>' if it["reason"] else ""
    return f'<tr class="{kind}"><th scope="row">{name}<td>{html.escape(it["server"])}<td class="result">{word}{reason}{cells}</tr>\n'


def _group(word: str, server: str, reason: str, zones: list[str]) -> str:
    name = html.escape(zones[0]) if len(zones) == 1 else _folded(counted(len(zones), "zone"), zones)
    text = f'<td class="result">{word}<td colspan="{len(COLUMNS)}">{html.escape(reason)}'
    return f'<tr class="alarm"><th scope="row">{name}<td>{html.escape(server)}{text}</tr>\n'


def _folded(summary: str, zones: list[str]) -> str:
    names = "<br>".join(map(html.escape, zones))
    return f"<details><summary>{summary}</summary><p>{names}</p></details>"


def _section(number: int, it: Pair) -> str:
    title = f"{html.escape(it['zone'])} at {html.escape(it['server'])}"
    lines = "".join(map(_line, it["text"].splitlines()))
    back = '<p class="back"><a href="#zones">All zones</a></p>'
    return f'<section id="z{number}">\n<h2>{title}</h2>\n<pre>{lines}</pre>\n{back}\n</section>\n'


def _line(line: str) -> str:
    side = re.match(r"(?:---|  -)()|(?:\+\+\+|  \+)()", line)
    kind = {1: "gone", 2: "come"}.get(side.lastindex or 0) if side else None
    return f'<span class="{kind}">{html.escape(line)}</span>' if kind else f"{html.escape(line)}\n"
