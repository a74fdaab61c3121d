"""The difference of two copies as text for people, as Markdown and as JSON."""
from __future__ import annotations

import re
from collections.abc import Iterator
from typing import Any

from .difference import Difference, RRset, by_owner, soa_changes
from .texts import alarm, counted, safe
from .zones import Copy

ORDER = {"equal": "", "unordered": "; the serials can't be ordered (RFC 1982)"}


def same_line(found: Difference) -> str:
    """Returns the line of two zones that are equal."""
    ignored = f" (ignoring {','.join(found.ignored.names)})" if found.ignored.names else ""
    a, b = found.a, found.b
    serials = f"serial {a.serial}" if a.serial == b.serial else f"serials {a.serial} and {b.serial}"
    records = counted(a.records, "record") if a.records == b.records else f"{a.records} and {b.records} records"
    case = f"; letter case differs in {counted(found.other_case, 'record')} (--exact shows them)" if found.other_case else ""
    return f"same{ignored}, {serials}, {records}{case}"


def changes(it: RRset) -> Iterator[str]:
    """Yields the lines of an RRset that differs."""
    if it.kind == "SOA" and it.removed and it.added:
        yield from (f"  ~ SOA {name} {old} -> {new}" for name, old, new in soa_changes(it))
        return
    if it.is_ttl_changed:
        yield f"  ~ {it.shown} TTL {it.ttl_a} -> {it.ttl_b}"
    for sign, rows in (("-", it.gone), ("+", it.come)):
        yield from (f"  {sign} {ttl} {kind} {data}".rstrip() for ttl, kind, data in rows)


def head(found: Difference) -> Iterator[str]:
    """Yields the first lines of a difference."""
    if found.is_alarm:
        yield alarm(found.a.serial)
    for sign, copy in (("---", found.a), ("+++", found.b)):
        yield f"{sign} {safe(copy.source)}: serial {copy.serial}, {counted(copy.records, 'record')}"


def last_line(found: Difference) -> str:
    """Returns how much differs, and which serial is newer."""
    a, b = safe(found.a.source), safe(found.b.source)
    number = len(found.rrsets)
    what = "RRset differs" if number == 1 else "RRsets differ"
    newer = ORDER.get(found.order, f"; {b} is {found.order}")
    return f"{number} {what}: {counted(found.only_a, 'record')} only in {a}, {found.only_b} only in {b}{newer}"


def text_of(found: Difference, most: int | None) -> str:
    """Returns the difference as text; `most` lines between head and last line, None for all."""
    if not found.rrsets:
        return same_line(found) + "\n"
    body: list[str] = []
    for owner, rrsets in by_owner(found.rrsets):
        body.append(owner)
        body += [line for it in rrsets for line in changes(it)]
    shown = body if most is None else body[:most]
    more = [f".. {counted(len(body) - len(shown), 'more line')} (--lines all shows them)"] if len(body) > len(shown) else []
    return "".join(f"{line}\n" for line in [*head(found), *shown, *more, last_line(found)])


def github_of(found: Difference, most: int | None) -> str:
    """Returns the difference as Markdown for a comment."""
    number, text = len(found.rrsets), text_of(found, most)
    title = f"### {found.a.apex}: " + (f"{number} RRset{'s' * (number != 1)} differ{'s' * (number == 1)}" if number else "the same")
    fence = "`" * max(3, 1 + max((len(it) for it in re.findall("`+", text)), default=0))
    return f"{title}\n\n{fence}diff\n{text}{fence}\n"


def json_of(found: Difference, most: int | None) -> dict[str, Any]:
    """Returns the difference as an object, with at most `most` RRsets."""
    shown = found.rrsets if most is None else found.rrsets[:most]
    return {
        "format": "zonectl-diff/1", "status": 1 if found.rrsets else 0, "zone": found.a.apex, "class": found.a.rdclass,
        "alarm": "one-serial" if found.is_alarm else None, "serials": found.order, "exact": found.is_exact,
        "ignored": list(found.ignored.names), "a": _side(found.a, found.only_a), "b": _side(found.b, found.only_b),
        "rrsets": [_rrset(it) for it in shown],
        "omitted": len(found.rrsets) - len(shown),
    }


def json_of_one(copy: Copy, is_added: bool) -> dict[str, Any]:
    """Returns the object of a zone that one side alone has; what the other would say is null."""
    side = _side(copy, copy.records)
    return {
        "format": "zonectl-diff/1", "status": 1, "zone": copy.apex, "class": copy.rdclass, "alarm": None, "serials": None, "exact": None,
        "ignored": [], "a": None if is_added else side, "b": side if is_added else None, "rrsets": [], "omitted": 0,
    }


def _side(copy: Copy, only: int) -> dict[str, Any]:
    return {"source": copy.source, "serial": copy.serial, "records": copy.records, "only": only, "decoder": copy.decoder}


def _rrset(it: RRset) -> dict[str, Any]:
    return {
        "owner": it.owner, "type": it.shown, "covered": it.covered_shown, "ttl": {"a": it.ttl_a, "b": it.ttl_b},
        "removed": [data for _, _, data in it.gone], "added": [data for _, _, data in it.come],
    }
