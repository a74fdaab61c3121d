"""The declarations of zonenorm.h for ctypes. tools/gate/library_declarations compares them with it."""
from __future__ import annotations

import ctypes
import os
from ctypes import POINTER, Structure, byref, c_char_p, c_int, c_size_t, c_ssize_t, c_uint32, c_uint64, c_void_p, py_object
from typing import Any, Self

ABI = 1
FILE, TRANSFER, ALL_TYPES, FILES = range(4)
OK, DIFFERENT, BAD_ORIGIN, REFUSED, NO_MEMORY, UNSUPPORTED, WANTS_FILE = range(7)
WHOLE, LINE, MESSAGE = range(3)
WIRE, FOLD_NAMES = 1, 2


class Octets(Structure):
    _fields_ = [("at", c_void_p), ("len", c_size_t)]


class Lent(Structure):
    """Octets that are lent: `at` is their address, or bytes, which the structure keeps alive."""

    _fields_ = [("at", c_char_p), ("len", c_size_t)]


class Input(Structure):
    _fields_ = [
        ("kind", c_uint32), ("reserved", c_uint32), ("limit", c_uint64), ("origin", Lent), ("octets", Lent),
        ("directory", Lent), ("names", POINTER(Lent)), ("names_count", c_size_t), ("files", POINTER(Lent)),
        ("files_count", c_size_t),
    ]


class Answer(Structure):
    _fields_ = [
        ("status", c_uint32), ("input", c_uint32), ("fault", c_uint32), ("place", c_uint32), ("line", c_uint64),
        ("offset", c_uint64), ("count", c_uint64), ("file", c_uint32), ("reserved", c_uint32), ("value", c_uint64),
    ]


_IN, _TEXT, _ANSWER = POINTER(Input), POINTER(Octets), POINTER(Answer)
SIGNATURES: dict[str, tuple[Any, list[Any]]] = {
    "zonenorm_abi": (c_uint32, []),
    "zonenorm_normalise": (None, [_IN, _TEXT, _ANSWER]),
    "zonenorm_normalise_into": (c_size_t, [_IN, c_void_p, c_size_t, _ANSWER]),
    "zonenorm_records": (None, [_IN, _TEXT, _ANSWER]),
    "zonenorm_records_into": (c_size_t, [_IN, c_void_p, c_size_t, _ANSWER]),
    "zonenorm_compare": (None, [_IN, _IN, _TEXT, _ANSWER]),
    "zonenorm_diff": (None, [_IN, _IN, c_uint32, _TEXT, _TEXT, _ANSWER]),
    "zonenorm_expand": (None, [_IN, _TEXT, _ANSWER]),
    "zonenorm_verify": (None, [_IN, _TEXT, _ANSWER]),
    "zonenorm_digest": (None, [_IN, c_uint32, _TEXT, _ANSWER]),
    "zonenorm_generic": (None, [_IN, _TEXT, _TEXT, _ANSWER]),
    "zonenorm_words": (None, [c_void_p, c_size_t, _TEXT, _ANSWER]),
}


class _View(Structure):
    """A `Py_buffer` of Python's stable ABI."""

    _fields_ = [
        ("buf", c_void_p), ("obj", c_void_p), ("len", c_ssize_t), ("itemsize", c_ssize_t), ("readonly", c_int), ("ndim", c_int),
        ("format", c_char_p), ("shape", c_void_p), ("strides", c_void_p), ("suboffsets", c_void_p), ("internal", c_void_p),
    ]


def load() -> ctypes.CDLL:
    """Load the library: that of ZONENORM_LIBRARY, the one in this package, or the system's."""
    beside = os.path.join(os.path.dirname(__file__), "libzonenorm.so.1")
    path = os.environ.get("ZONENORM_LIBRARY") or (beside if os.path.exists(beside) else "libzonenorm.so.1")
    try:
        library = ctypes.CDLL(path)
        for name, (result, arguments) in SIGNATURES.items():
            function = getattr(library, name)
            function.restype, function.argtypes = result, arguments
    except (OSError, AttributeError) as error:
        raise ImportError(f"libzonenorm can't be loaded: {error}") from error
    if library.zonenorm_abi() != ABI:
        raise ImportError(f"libzonenorm has ABI {library.zonenorm_abi()}, this module needs {ABI}")
    return library


LIBRARY = load()
_free = ctypes.CDLL(None).free
_free.argtypes, _free.restype = [c_void_p], None
_get_buffer, _release_buffer = ctypes.pythonapi.PyObject_GetBuffer, ctypes.pythonapi.PyBuffer_Release
_get_buffer.argtypes, _get_buffer.restype = [py_object, POINTER(_View), c_int], c_int
_release_buffer.argtypes, _release_buffer.restype = [POINTER(_View)], None


def taken(text: Octets) -> bytes:
    """Return a text as bytes, and free it."""
    if not text.len:
        return b""
    try:
        return ctypes.string_at(text.at, text.len)
    finally:
        _free(text.at)


class Lending:
    """The octets of an object with a buffer, lent without a copy unless they aren't contiguous."""

    __slots__ = ("at", "len", "_view")

    def __init__(self, data: object) -> None:
        self.at: bytes | int | None
        self._view: _View | None = None
        if not isinstance(data, bytes):
            view = memoryview(data)  # type: ignore[arg-type]
            if view.c_contiguous:
                self._view = _View()
                _get_buffer(view, byref(self._view), 0)
                self.at, self.len = self._view.buf, self._view.len
                return
            data = view.tobytes()
        self.at, self.len = data, len(data)

    def __enter__(self) -> Self:
        return self

    def __exit__(self, *raised: object) -> None:
        if self._view is not None:
            _release_buffer(byref(self._view))
