"""A unified diff of two canonical texts, which `patch` takes."""
from __future__ import annotations

from collections.abc import Iterator
from itertools import groupby

from . import engine
from .texts import safe
from .zones import Copy

CONTEXT = 3
Line = tuple[str, int, int]  # the sign, and the places in both texts


def _merged(a: list[bytes], b: list[bytes]) -> Iterator[Line]:
    """Yields the lines of both texts. Both are in one order, so what they share is in both in that order too."""
    in_a, in_b = set(a), set(b)
    i = j = 0
    while i < len(a) or j < len(b):
        if i < len(a) and a[i] not in in_b:
            yield "-", i, j
            i += 1
        elif j < len(b) and b[j] not in in_a:
            yield "+", i, j
            j += 1
        else:
            yield " ", i, j
            i, j = i + 1, j + 1


def _hunks(lines: list[Line]) -> Iterator[list[Line]]:
    """Yields the lines that differ, with their context."""
    changed = [at for at, line in enumerate(lines) if line[0] != " "]
    shown = sorted({near for at in changed for near in range(max(0, at - CONTEXT), min(len(lines), at + CONTEXT + 1))})
    for _, run in groupby(enumerate(shown), lambda it: it[1] - it[0]):  # which is one number for neighbours
        yield [lines[at] for _, at in run]


def _range(first: int, count: int) -> str:
    return f"{first + 1}" if count == 1 else f"{first + bool(count)},{count}"


def patch_of(a: Copy, b: Copy, is_presented: bool) -> str:
    """Returns the unified diff; nothing for equal texts. It is always exact."""
    if a.text == b.text:
        return ""
    texts = [it.text.split(b"\n")[:-1] for it in (a, b)]
    shown = [engine.presentation(it.text).split(b"\n")[:-1] for it in (a, b)] if is_presented else texts
    out = [f"--- {safe(a.source)}", f"+++ {safe(b.source)}"]
    for hunk in _hunks(list(_merged(*texts))):
        counts = [sum(sign in signs for sign, _, _ in hunk) for signs in (" -", " +")]
        out.append(f"@@ -{_range(hunk[0][1], counts[0])} +{_range(hunk[0][2], counts[1])} @@")
        out += [sign + shown[sign == "+"][j if sign == "+" else i].decode("ascii") for sign, i, j in hunk]
    return "".join(f"{it}\n" for it in out)
