r"""DNS zones in their one canonical text, by the proved engine of zonenorm.

An input is a master file and its origin, or a zone transfer as it came over TCP, with the origin TRANSFER. Two inputs have the
same canonical text if and only if they denote the same zone.

>>> import zonenorm
>>> file = b"$TTL 1h\n@ SOA ns1 hostmaster 7 2h 30m 2w 1h\n NS NS1\nns1 A 192.0.2.1\n"
>>> zone = zonenorm.Zone(file, "example.")
>>> zone.apex, zone.serial, len(zone)
('example.', 7, 3)
>>> zonenorm.compare(file, "example.", zone.text, ".").same
True
>>> zonenorm.normalise(file + b"@ 5m NS ns2\n", "example.")
Traceback (most recent call last):
zonenorm.Refused: F41 DifferingTtl at line 5: the TTL differs from that of its record set

All functions may be called from many threads at once: they release the GIL, and keep nothing between calls. Octets may be bytes,
a bytearray, a memoryview or an mmap; they aren't copied if they are contiguous, and mustn't change during a call.
"""
from typing import Final

from ._calls import (
    TRANSFER, VERDICTS, Buffer, Comparison, compare, digest, expand, generic, normalise, records, verify, words)
from ._errors import FileWanted, OriginError, Refused, ZonenormError
from ._ffi import ABI as _ABI
from ._zone import Difference, Record, Zone, diff

__all__ = [
    "ABI", "TRANSFER", "VERDICTS", "Buffer", "Comparison", "Difference", "FileWanted", "OriginError", "Record", "Refused", "Zone",
    "ZonenormError", "compare", "diff", "digest", "expand", "generic", "normalise", "records", "verify", "words",
]
__version__: Final = "0.1.0"
ABI: Final = _ABI
for _name in ("Comparison", "Difference", "FileWanted", "OriginError", "Record", "Refused", "Zone", "ZonenormError"):
    globals()[_name].__module__ = __name__
del _name
