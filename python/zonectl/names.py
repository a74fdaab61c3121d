"""Domain names in presentation format and in wire format (RFC 1035 3.1, 5.1), and classes."""
from __future__ import annotations

import re

LABEL = re.compile(r"(?:[^.\\]|\\(?:25[0-5]|2[0-4]\d|[01]\d\d|\D))+", re.A | re.S)
NAME = re.compile(rf"\.|{LABEL.pattern}(?:\.{LABEL.pattern})*\.?", re.A | re.S)
ESCAPE = re.compile(r"\\(?:(\d{3})|(.))", re.A | re.S)
# Each octet of a label as the engine prints it.
SHOWN = [f"\\{it:03d}" if not 33 <= it <= 126 else f"\\{chr(it)}" if it in b'"$().;@\\' else chr(it) for it in range(256)]
CLASSES = {"IN": 1, "CS": 2, "CH": 3, "HS": 4}


def wire_name(text: str) -> bytes:
    r"""Returns the octets of a name in presentation format: each label after its length, and the root.

    A missing final dot is added. Raises ValueError.

    >>> wire_name("a\\.b.example")
    b'\x03a.b\x07example\x00'
    """
    if not text.isascii():
        raise ValueError(f"not a name in ASCII: {text} (write an internationalised name in its xn-- form)")
    if not NAME.fullmatch(text):
        raise ValueError(f"not a domain name: {text}")
    labels = [ESCAPE.sub(lambda it: it[2] or chr(int(it[1])), it) for it in LABEL.findall(text)]
    if any(len(it) > 63 for it in labels):
        raise ValueError(f"a label of more than 63 octets: {text}")
    name = b"".join(bytes([len(it)]) + it.encode("latin-1") for it in labels) + b"\0"
    if len(name) > 255:
        raise ValueError(f"a name of more than 255 octets: {text}")
    return name


def labels_of(name: bytes) -> list[bytes]:
    """Returns the labels of a name in wire format, the root left out."""
    labels, at = [], 0
    while length := name[at]:
        labels.append(name[at + 1 : at + 1 + length])
        at += 1 + length
    return labels


def shown_name(name: bytes) -> str:
    r"""Returns a name in wire format as the engine prints it: absolute, in lower case.

    >>> shown_name(b"\x03a.B\x00")
    'a\\.b.'
    """
    return "".join(f"{''.join(SHOWN[octet] for octet in label)}." for label in labels_of(name.lower())) or "."


def absolute(text: str) -> str:
    """Returns a name as the engine prints it. Raises ValueError."""
    return shown_name(wire_name(text))


def canonical_order(name: str) -> list[bytes]:
    """Returns the key by which names are in canonical order (RFC 4034 6.1): their labels from the right."""
    return labels_of(wire_name(name))[::-1]


def class_number(text: str) -> int:
    """Returns the number of a class, from its mnemonic or from CLASS and a number (RFC 3597 5). Raises ValueError."""
    mnemonic = text.upper()
    digits = re.fullmatch(r"CLASS([0-9]{1,5})", mnemonic)
    number = int(digits[1]) if digits else CLASSES.get(mnemonic, 0)
    if not 1 <= number <= 65535:
        raise ValueError(f"not a class: {text}")
    return number


def class_name(number: int) -> str:
    """Returns a class as the engine prints it."""
    return next((name for name, it in CLASSES.items() if it == number), f"CLASS{number}")
