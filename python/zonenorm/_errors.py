"""The exceptions of the module."""
from __future__ import annotations


class ZonenormError(Exception):
    """Base class of the errors of this module; by itself, a status that the module doesn't know."""


class OriginError(ZonenormError, ValueError):
    """The origin is no absolute name in presentation format, with its final dot."""


class FileWanted(ZonenormError):
    """An input includes files that weren't given. The attribute `names` lists them, the first that is needed first."""

    def __init__(self, names: list[str]) -> None:
        super().__init__(names)
        self.names = names

    def __str__(self) -> str:
        return f"the input includes {', '.join(self.names)}"


class Refused(ZonenormError, ValueError):
    """An input denotes no zone.

    The attributes are

    - `text`: the line that the program prints, which is `str(error)` too
    - `number`: the number of the fault (docs/FAULTS.md); 0 if an entry states no data of its type
    - `line`: the line of a master file, or None
    - `message`, `offset`: the message of a transfer and an offset in it, or None
    - `which`: the refused one of two inputs, 1 or 2, or None
    - `field`: the type and the field that an entry doesn't state, as in "DNSKEY, public key", or None
    - `file`: the included file, or None
    - `value`: the value of the `$GENERATE` whose line has the fault, or None
    """

    def __init__(
        self, text: str, number: int = 0, line: int | None = None, message: int | None = None, offset: int | None = None,
        which: int | None = None, field: str | None = None, file: str | None = None, value: int | None = None,
    ) -> None:
        super().__init__(text, number, line, message, offset, which, field, file, value)
        self.text, self.number, self.line = text, number, line
        self.message, self.offset, self.which = message, offset, which
        self.field, self.file, self.value = field, file, value

    def __str__(self) -> str:
        return self.text
