"""The calls of the library."""
from __future__ import annotations

import mmap
from collections.abc import Mapping, Sequence
from ctypes import byref
from typing import Final, NamedTuple

from . import _ffi
from ._errors import FileWanted, OriginError, Refused, ZonenormError

Buffer = bytes | bytearray | memoryview | mmap.mmap
TRANSFER: Final = "transfer"
VERDICTS: Final[tuple[str, ...]] = (
    "malformed", "other serial", "unknown scheme", "unknown algorithm", "repeated", "differs", "verified")
_ALGORITHMS = {"SHA384": 1, "SHA512": 2}
MOST_OCTETS: Final = 1 << 30


class Comparison(NamedTuple):
    """Whether two inputs denote one zone, and otherwise the first line at which their canonical texts differ.

    It has no truth value, since either reading would surprise: use `same`.
    """

    same: bool
    line: int | None

    def __bool__(self) -> bool:
        raise TypeError("a Comparison has no truth value: use its attribute `same`")


class _Given(_ffi.Lending):
    """An input that is lent to the library."""

    __slots__ = ("input", "names")

    def __init__(
        self, data: Buffer, origin: str, words: bool, max_octets: int | None, files: Mapping[str, bytes] | None = None, directory: str = "",
    ) -> None:
        if max_octets is not None and max_octets < 1:
            raise ValueError("max_octets is less than 1")
        try:
            name = origin.encode("ascii")
        except UnicodeEncodeError:
            raise OriginError(f"{origin!r} is no absolute name") from None
        super().__init__(data)
        kind = _ffi.TRANSFER if origin == TRANSFER else _ffi.ALL_TYPES if words else _ffi.FILE
        limit = min(max_octets or 0, MOST_OCTETS)
        given = _ffi.Input(kind, 0, limit, _ffi.Lent(name, len(name)), _ffi.Lent(self.at, self.len))
        self.names = list(files or ())
        if files is not None and kind != _ffi.TRANSFER:
            folder, count = directory.encode(), len(files)
            given.kind, given.directory, given.names_count, given.files_count = _ffi.FILES, _ffi.Lent(folder, len(folder)), count, count
            given.names, given.files = _table([it.encode() for it in files]), _table([*files.values()])
        self.input = byref(given)


def _table(items: list[bytes]) -> object:
    """Return octets that are lent, one after the other."""
    return (_ffi.Lent * len(items))(*(_ffi.Lent(it, len(it)) for it in items))


def _refused(answer: _ffi.Answer, text: bytes, field: str | None = None, names: Sequence[str] = ()) -> Refused:
    """Return the exception for an input that is refused."""
    line, is_message = answer.line, answer.place == _ffi.MESSAGE
    return Refused(
        text.decode("ascii", "backslashreplace") or f"F{answer.fault}", answer.fault,
        line=line if answer.place == _ffi.LINE else None, message=line if is_message else None,
        offset=answer.offset if is_message else None, which=answer.input or None, field=field,
        file=names[answer.file - 1] if answer.file else None, value=answer.value if b" value " in text else None)


def _check(answer: _ffi.Answer, text: bytes, names: Sequence[str] = ()) -> None:
    """Raise the exception that an answer stands for, if it has no result."""
    status = answer.status
    if status in (_ffi.OK, _ffi.DIFFERENT):
        return
    if status == _ffi.REFUSED:
        raise _refused(answer, text, names=names)
    if status == _ffi.WANTS_FILE:
        raise FileWanted(text.decode().split("\n")[:-1])
    if status == _ffi.BAD_ORIGIN:
        raise OriginError("the origin is no absolute name in presentation format, with its final dot")
    if status == _ffi.NO_MEMORY:
        raise MemoryError("out of memory")
    raise ZonenormError(f"the library answered status {status}")


def _call(name: str, *arguments: object, names: Sequence[str] = ()) -> tuple[bytes, _ffi.Answer]:
    """Call an export that hands out one text."""
    text, answer = _ffi.Octets(), _ffi.Answer()
    getattr(_ffi.LIBRARY, name)(*arguments, byref(text), byref(answer))
    octets = _ffi.taken(text)
    _check(answer, octets, names)
    return octets, answer


def normalise(
    data: Buffer, origin: str, *, words: bool = True, max_octets: int | None = None, files: Mapping[str, bytes] | None = None,
    directory: str = "",
) -> bytes:
    r"""Return the canonical text of the zone that an input denotes.

    The input is a master file and its origin, with the final dot, or a zone transfer and the origin TRANSFER. With words=False
    only ten types may be in presentation format, as with the command `zonenorm`; otherwise further types too. More than
    max_octets octets are refused; the default is 1 GiB.

    With files, $INCLUDE and $GENERATE are read too, and words means nothing: files has the octets of included files by their names,
    as FileWanted lists them, and directory is the one that they are below.

    Raises Refused, OriginError or MemoryError, and FileWanted if files lacks one.

    >>> file = b"$TTL 1h\n@ SOA ns1 hostmaster 1 2h 30m 2w 1h\n NS NS1\nns1 A 192.0.2.1\n"
    >>> print(normalise(file, "example.").decode(), end="")
    example. 3600 IN SOA ns1.example. hostmaster.example. 1 7200 1800 1209600 3600
    example. 3600 IN NS ns1.example.
    ns1.example. 3600 IN A 192.0.2.1
    """
    with _Given(data, origin, words, max_octets, files, directory) as it:
        return _call("zonenorm_normalise", it.input, names=it.names)[0]


def expand(data: Buffer, origin: str, files: Mapping[str, bytes], *, directory: str = "", max_octets: int | None = None) -> bytes:
    r"""Return a master file with the files that it includes in the place of each $INCLUDE, and lines in the place of each $GENERATE.

    The files are those of normalise. Raises Refused, OriginError, MemoryError or FileWanted.

    >>> print(expand(b"$GENERATE 1-2 host-$ A 192.0.2.$\n$INCLUDE b.db\n", "x.", {"b.db": b"b A 192.0.2.9\n"}).decode(), end="")
    host-1 A 192.0.2.1
    host-2 A 192.0.2.2
    $ORIGIN x.
    b A 192.0.2.9
    $ORIGIN x.
    """
    with _Given(data, origin, True, max_octets, files, directory) as it:
        return _call("zonenorm_expand", it.input, names=it.names)[0]


def compare(
    data: Buffer, origin: str, other: Buffer, other_origin: str, *, words: bool = True, max_octets: int | None = None,
) -> Comparison:
    r"""Compare two inputs: do they denote one zone?

    Raises Refused, whose attribute `which` is 1 or 2, OriginError or MemoryError.

    >>> file = b"$TTL 1h\n@ SOA ns1 hostmaster 1 2h 30m 2w 1h\n NS NS1\n"
    >>> compare(file, "example.", file.lower(), "Example.")
    Comparison(same=True, line=None)
    >>> compare(file, "example.", file + b"www A 192.0.2.2\n", "example.")
    Comparison(same=False, line=3)
    """
    with _Given(data, origin, words, max_octets) as first, _Given(other, other_origin, words, max_octets) as second:
        answer = _call("zonenorm_compare", first.input, second.input)[1]
    return Comparison(answer.status == _ffi.OK, answer.line if answer.status else None)


def changes(text: bytes, other: bytes, fold_names: bool) -> tuple[bytes, bytes]:
    """Return the lines of one canonical text of which another has no equal, and those of the other of which it has none."""
    removed, added, answer = _ffi.Octets(), _ffi.Octets(), _ffi.Answer()
    flags = _ffi.FOLD_NAMES if fold_names else 0
    with _Given(text, ".", False, None) as first, _Given(other, ".", False, None) as second:
        _ffi.LIBRARY.zonenorm_diff(first.input, second.input, flags, byref(removed), byref(added), byref(answer))
    gone, come = _ffi.taken(removed), _ffi.taken(added)
    _check(answer, gone)
    return gone, come


def verify(data: Buffer, origin: str, *, words: bool = True, max_octets: int | None = None) -> tuple[bool, list[str]]:
    r"""Verify a zone against its ZONEMD records (RFC 8976).

    Return whether one of them verifies the zone, and the verdict on each of those at the apex, one of VERDICTS.
    Raises Refused, OriginError or MemoryError.

    >>> verify(b"@ 60 SOA ns h 1 2 3 4 5\n", "example.")
    (False, [])
    """
    with _Given(data, origin, words, max_octets) as it:
        verdicts, answer = _call("zonenorm_verify", it.input)
    return answer.status == _ffi.OK, [VERDICTS[number] for number in verdicts]


def digest(
    data: Buffer, origin: str, *, algorithm: str = "SHA384", words: bool = True, max_octets: int | None = None,
) -> bytes:
    r"""Return the canonical line of the ZONEMD record that states the digest of a zone (RFC 8976).

    The algorithm is "SHA384" or "SHA512". Raises Refused, OriginError, MemoryError, or ValueError for another algorithm.

    >>> digest(b"@ 60 SOA ns h 1 2 3 4 5\n", "example.")[:34]
    b'example. 60 IN TYPE63 \\# 54 000000'
    """
    if algorithm not in _ALGORITHMS:
        raise ValueError(f"unknown algorithm: {algorithm!r}")
    with _Given(data, origin, words, max_octets) as it:
        return _call("zonenorm_digest", it.input, _ALGORITHMS[algorithm])[0]


def generic(data: Buffer, origin: str, *, max_octets: int | None = None) -> bytes:
    r"""Return a master file with the data of further types in the generic form (RFC 3597), line by line.

    Raises Refused, with number 0 and the attribute `field`, if an entry states no data of its type; OriginError or MemoryError.

    >>> generic(b"@ 60 CAA 0 issue ca.example\n", "example.")
    b'@ 60 TYPE257 \\# 17 0005697373756563612e6578616d706c65\n'
    >>> generic(b"@ 60 CAA 0 issue\n", "example.")
    Traceback (most recent call last):
    zonenorm.Refused: line 1: CAA, value: nothing left
    """
    text, reason, answer = _ffi.Octets(), _ffi.Octets(), _ffi.Answer()
    with _Given(data, origin, True, max_octets) as it:
        _ffi.LIBRARY.zonenorm_generic(it.input, byref(text), byref(reason), byref(answer))
    octets, why = _ffi.taken(text), _ffi.taken(reason)
    if answer.status == _ffi.REFUSED and not answer.fault:
        parts = why.decode("ascii", "backslashreplace").split(": ", 2)
        raise _refused(answer, why, parts[1] if len(parts) == 3 else None)
    _check(answer, why)
    return octets


def words(text: Buffer) -> bytes:
    r"""Return a canonical text, or a diff of two, with the data of further types in presentation format.

    Raises MemoryError.

    >>> words(rb"example. 60 IN TYPE257 \# 17 0005697373756563612e6578616d706c65" + b"\n")
    b'example. 60 IN CAA 0 issue "ca.example"\n'
    """
    with _ffi.Lending(text) as lent:
        return _call("zonenorm_words", lent.at, lent.len)[0]


def records(data: Buffer, origin: str, *, words: bool = True, max_octets: int | None = None) -> bytes:
    r"""Return the records of a zone in canonical order, each as an uncompressed message has it (RFC 1035 3.2.1).

    Raises Refused, OriginError or MemoryError.

    >>> records(b"@ 60 SOA . . 1 2 3 4 5\n", ".")[:11].hex(" ")
    '00 00 06 00 01 00 00 00 3c 00 16'
    """
    with _Given(data, origin, words, max_octets) as it:
        return _call("zonenorm_records", it.input)[0]
