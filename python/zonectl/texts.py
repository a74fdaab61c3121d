"""Texts for people: octets from outside made safe, numbers, colours.

Names, paths, URLs and messages come from outside. They pass `safe` on their way to a terminal.
"""
from __future__ import annotations

import codecs
import re

# The colours of a difference's lines, by how they begin: red, green, yellow, and bold red for the alarm.
COLOURED = re.compile("^(?:(---|  -)|(\\+\\+\\+|  \\+)|(  ~)|(DIFFERENT UNDER)) .*", re.M)
COLOURS = ("31", "32", "33", "1;31")


def _escaped(octets: bytes) -> str:
    return "".join(f"\\x{octet:02x}" for octet in octets)


def safe(text: str | bytes) -> str:
    r"""Returns a text that is safe on a terminal.

    Printable characters stay. Every other octet, control and format character becomes `\xHH`. What the encoding of the output lacks
    becomes that too, by the error handler `zonectl`.

    >>> safe("a\x1b[31m\u202e")
    'a\\x1b[31m\\xe2\\x80\\xae'
    """
    if isinstance(text, bytes):
        text = text.decode("utf-8", "surrogateescape")
    return text if text.isprintable() else "".join(map(_shown, text))


def _shown(character: str) -> str:
    if character.isprintable():
        return character
    is_octet = "\udc80" <= character <= "\udcff"  # one that isn't UTF-8
    return _escaped(character.encode("utf-8", "surrogateescape" if is_octet else "surrogatepass"))


def _not_encoded(error: UnicodeError) -> tuple[str, int]:
    if not isinstance(error, UnicodeEncodeError):
        raise error
    return "".join(_escaped(it.encode("utf-8", "surrogatepass")) for it in error.object[error.start : error.end]), error.end


codecs.register_error("zonectl", _not_encoded)


def one_field(text: str) -> str:
    r"""Returns a text for the last field of a line that a program reads: backslash and control octets as `\xHH`."""
    return "".join(_escaped(b"\\") if it == "\\" else _shown(it) for it in text)


def counted(number: int, what: str) -> str:
    """Returns a number with its noun: `1 record`, `2 records`."""
    return f"{number} {what}{'s' * (number != 1)}"


def alarm(serial: int) -> str:
    """Returns the line of two copies that differ under one serial."""
    return f"DIFFERENT UNDER ONE SERIAL {serial}"


def size(octets: int) -> str:
    """Returns a number of octets with a decimal unit: `1.2 MB`."""
    amount, unit = float(octets), "octets"
    for larger in ("kB", "MB", "GB"):
        if amount < 1000:
            break
        amount, unit = amount / 1000, larger
    return counted(octets, "octet") if unit == "octets" else f"{amount:.1f} {unit}"


def duration(seconds: float) -> str:
    """Returns a time: `0.42 s`, `30 s`, `3m20s`."""
    if seconds < 60:
        return f"{seconds:.0f} s" if seconds and seconds == int(seconds) else f"{seconds:.2f} s"
    minutes, rest = divmod(round(seconds), 60)
    hours, minutes = divmod(minutes, 60)
    return f"{hours}h{minutes:02d}m{rest:02d}s" if hours else f"{minutes}m{rest:02d}s"


def coloured(text: str) -> str:
    """Returns the text of a difference in colours."""
    return COLOURED.sub(lambda it: f"\x1b[{COLOURS[(it.lastindex or 1) - 1]}m{it[0]}\x1b[0m", text)
