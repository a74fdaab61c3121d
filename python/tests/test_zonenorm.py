"""Tests of the module, with the files of examples/ and the examples of its docstrings."""
from __future__ import annotations

import doctest
import mmap
import os
import pickle
import threading
import unittest
from collections.abc import Callable
from pathlib import Path

import zonenorm
from zonenorm import _calls, _zone

TOP = Path(__file__).resolve().parents[2]
EXAMPLES = Path(os.environ.get("ZONENORM_EXAMPLES") or TOP / "examples")


def load_tests(loader: unittest.TestLoader, tests: unittest.TestSuite, pattern: str | None) -> unittest.TestSuite:
    """Add the examples of docstrings."""
    for module in (zonenorm, _calls, _zone):
        names = {name: getattr(zonenorm, name) for name in zonenorm.__all__}
        tests.addTests(doctest.DocTestSuite(module, extraglobs=names))
    return tests


def octets(name: str) -> bytes:
    """The octets of an example."""
    return (EXAMPLES / name).read_bytes()


def refusal(call: Callable[[], object]) -> zonenorm.Refused:
    """The refusal that a call raises."""
    try:
        call()
    except zonenorm.Refused as error:
        return error
    raise AssertionError("not refused")


class Texts(unittest.TestCase):
    def test_a_file_and_a_transfer_have_one_text(self) -> None:
        canonical = octets("example.canonical")
        self.assertEqual(zonenorm.normalise(octets("example.zone"), "example."), canonical)
        self.assertEqual(zonenorm.normalise(octets("example.zone"), "EXAMPLE."), canonical)
        self.assertEqual(zonenorm.normalise(octets("example.zone"), "example.", words=False), canonical)
        self.assertEqual(zonenorm.normalise(octets("example.axfr"), zonenorm.TRANSFER), canonical)

    def test_further_types_in_presentation_format(self) -> None:
        canonical = octets("signed.canonical")
        self.assertEqual(zonenorm.normalise(octets("signed.zone"), "example."), canonical)
        self.assertEqual(zonenorm.normalise(zonenorm.generic(octets("signed.zone"), "example."), "example.", words=False), canonical)
        self.assertEqual(zonenorm.words(canonical), octets("signed.words"))

    def test_included_files(self) -> None:
        main, folder = octets("files/example.zone"), str(EXAMPLES / "files")
        name = f"{folder}/parts/web.db"
        with self.assertRaises(zonenorm.FileWanted) as wanted:
            zonenorm.normalise(main, "example.", files={}, directory=folder)
        self.assertEqual(wanted.exception.names, [name])
        files = {name: octets("files/parts/web.db")}
        self.assertEqual(zonenorm.normalise(main, "example.", files=files, directory=folder), octets("files/example.canonical"))
        self.assertEqual(zonenorm.expand(main, "example.", files, directory=folder), octets("files/example.expanded"))
        zone = zonenorm.Zone.from_file(EXAMPLES / "files/example.zone", "example.", directory=folder)
        self.assertEqual(zone.text, octets("files/example.canonical"))
        with self.assertRaises(FileNotFoundError):
            zonenorm.Zone.from_file(EXAMPLES / "files/missing.zone", "example.", directory=folder)

    def test_a_fault_in_an_included_file(self) -> None:
        main, files = octets("files/refused-included.zone"), {"parts/bad.db": octets("files/parts/bad.db")}
        error = refusal(lambda: zonenorm.normalise(main, "example.", files=files))
        self.assertEqual((error.number, error.file, error.line, error.value), (9, "parts/bad.db", 3, None))
        self.assertEqual(error.text, "F9 BadRdata at parts/bad.db:3: the data doesn't fit its type")
        error = refusal(lambda: zonenorm.normalise(octets("files/refused-data.zone"), "example.", files={}))
        self.assertEqual((error.number, error.file, error.line, error.value), (9, None, 3, 256))

    def test_each_kind_of_buffer(self) -> None:
        data, canonical = octets("example.zone"), octets("example.canonical")
        many = memoryview(b"".join(bytes([octet, 0]) for octet in data))
        kinds: list[zonenorm.Buffer] = [
            bytearray(data), memoryview(data), memoryview(bytearray(data)), memoryview(b"; " + data)[2:], many[::2]]
        for it in kinds:
            self.assertEqual(zonenorm.normalise(it, "example."), canonical)
            self.assertEqual(zonenorm.words(it), zonenorm.words(data))
        with open(EXAMPLES / "example.zone", "rb") as file, mmap.mmap(file.fileno(), 0, access=mmap.ACCESS_READ) as mapped:
            self.assertEqual(zonenorm.normalise(mapped, "example."), canonical)
            self.assertEqual(zonenorm.normalise(memoryview(mapped)[:], "example."), canonical)

    def test_a_buffer_is_released(self) -> None:
        data = bytearray(octets("example.zone"))
        zonenorm.normalise(data, "example.")
        data.append(10)  # a bytearray whose buffer is held can't grow
        with self.assertRaises(zonenorm.Refused):
            zonenorm.normalise(data, "example.", max_octets=1)
        data.append(10)

    def test_no_octets(self) -> None:
        for it in (b"", bytearray(), memoryview(b"")):
            self.assertEqual(refusal(lambda: zonenorm.normalise(it, ".")).number, 42)
            self.assertEqual(zonenorm.words(it), b"")

    def test_other_objects_are_refused(self) -> None:
        with self.assertRaises(TypeError):
            zonenorm.normalise("text", "example.")  # type: ignore[arg-type]


class Refusals(unittest.TestCase):
    def test_a_line(self) -> None:
        error = refusal(lambda: zonenorm.normalise(octets("refused-differing-ttl.zone"), "example."))
        self.assertEqual((error.number, error.line, error.message, error.offset, error.which), (41, 4, None, None, None))
        self.assertEqual(str(error), "F41 DifferingTtl at line 4: the TTL differs from that of its record set")
        self.assertEqual(str(pickle.loads(pickle.dumps(error))), str(error))

    def test_a_message(self) -> None:
        error = refusal(lambda: zonenorm.normalise(octets("refused-by-the-server.axfr"), zonenorm.TRANSFER))
        self.assertEqual((error.number, error.line, error.message, error.offset), (26, None, 1, 0))

    def test_the_input_as_a_whole(self) -> None:
        error = refusal(lambda: zonenorm.normalise(octets("example.zone"), "example.", max_octets=10))
        self.assertEqual((error.number, error.line, error.message), (45, None, None))
        self.assertEqual(refusal(lambda: zonenorm.Zone.from_file(EXAMPLES / "example.zone", "example.", max_octets=10)).number, 45)
        with self.assertRaises(ValueError):
            zonenorm.normalise(b"", ".", max_octets=0)

    def test_which_of_two(self) -> None:
        file, cut_off = (octets("example.zone"), "example."), (octets("refused-cut-off.axfr"), zonenorm.TRANSFER)
        self.assertEqual(refusal(lambda: zonenorm.compare(*file, *cut_off)).which, 2)
        self.assertEqual(refusal(lambda: zonenorm.compare(*cut_off, *file)).which, 1)

    def test_types_without_presentation_format(self) -> None:
        error = refusal(lambda: zonenorm.normalise(octets("signed.zone"), "example.", words=False))
        self.assertEqual((error.number, error.line), (7, 10))

    def test_an_entry_that_states_no_data(self) -> None:
        error = refusal(lambda: zonenorm.generic(octets("refused-base64.zone"), "example."))
        self.assertEqual((error.number, error.line, error.field), (0, 5, "DNSKEY, public key"))
        self.assertEqual(str(error), "line 5: DNSKEY, public key: not base64")

    def test_origins(self) -> None:
        for origin in ("example", "..", "", "a b", "é.", "a" * 64 + "."):
            with self.assertRaises(zonenorm.OriginError):
                zonenorm.normalise(b"", origin)


class Comparisons(unittest.TestCase):
    def test_one_zone(self) -> None:
        file = octets("example.zone"), "example."
        self.assertEqual(zonenorm.compare(*file, octets("example.axfr"), zonenorm.TRANSFER), (True, None))

    def test_two_zones(self) -> None:
        file = octets("example.zone"), "example."
        other = zonenorm.compare(*file, octets("example.changed.zone"), "example.")
        self.assertFalse(other.same)
        texts = [zonenorm.normalise(octets(name), "example.").split(b"\n") for name in ("example.zone", "example.changed.zone")]
        self.assertEqual(other.line, next(at for at, (a, b) in enumerate(zip(*texts), 1) if a != b))
        with self.assertRaises(TypeError):
            bool(other)


class Zones(unittest.TestCase):
    def test_a_zone(self) -> None:
        zone = zonenorm.Zone.from_file(EXAMPLES / "first.zone", "example.")
        self.assertEqual((len(zone), len(list(zone)), zone.apex, zone.rdclass, zone.serial), (4, 4, "example.", "IN", 2026112401))
        self.assertEqual(repr(zone), "<Zone example. serial 2026112401, 4 records>")
        self.assertEqual("".join(f"{record}\n" for record in zone), zone.text.decode())
        self.assertEqual(zonenorm.Zone.from_transfer(octets("example.axfr")).text, octets("example.canonical"))

    def test_equal_zones(self) -> None:
        zone = zonenorm.Zone(octets("example.zone"), "example.")
        again, other = zonenorm.Zone(zone.text, "."), zonenorm.Zone(octets("example.changed.zone"), "example.")
        self.assertEqual((zone, hash(zone)), (again, hash(again)))
        self.assertNotEqual(zone, other)
        self.assertNotEqual(zone, zone.text)

    def test_records(self) -> None:
        zone = zonenorm.Zone(octets("first.zone"), "example.")
        record = zonenorm.Record("www.example.", 300, "IN", "CNAME", "example.")
        self.assertEqual(zone.records("WWW.example."), [record])
        self.assertEqual((zone.records("www.example.", "a"), zone.records("other.")), ([], []))
        self.assertEqual(zone.records("www.example.", "cname"), [record])
        self.assertIn(record._replace(owner="WWW.example."), zone)
        for other in (record._replace(ttl=301), record._replace(owner="www"), tuple(record)[:4], "www.example."):
            self.assertNotIn(other, zone)
        with self.assertRaises(ValueError):
            zone.records("www")

    def test_difference(self) -> None:
        zone, other = (zonenorm.Zone(octets(it), "example.") for it in ("example.zone", "example.changed.zone"))
        difference = zonenorm.diff(zone, other)
        self.assertTrue(difference)
        self.assertFalse(zonenorm.diff(zone, zone))
        self.assertEqual(difference, zonenorm.diff(other, zone)[::-1])
        self.assertEqual(set(zone) - set(difference.removed) | set(difference.added), set(other))
        self.assertEqual([it for it in zone if it in set(difference.removed)], difference.removed)

    def test_difference_but_for_letters(self) -> None:
        soa = b"@ 60 SOA . . 1 2 3 4 5\n"
        zone = zonenorm.Zone(soa + b"d DNAME New\nk KX 10 A.\nk KX 10 B.\nt TXT a\ns 60 SVCB 1 A.\n", "x.")
        other = zonenorm.Zone(soa + b"d DNAME new\nk KX 10 b.\nk KX 10 c.\nt TXT A\ns 61 SVCB 1 a.\n", "x.")
        exact, folded = zonenorm.diff(zone, other), zonenorm.diff(zone, other, fold_names=True)
        self.assertEqual(exact.removed, zone - other)
        self.assertEqual(exact.added, other - zone)
        self.assertEqual([(it.owner, it.ttl, it.rdata[-4:]) for it in folded.removed], [
            ("k.x.", 60, "4100"), ("s.x.", 60, "4100"), ("t.x.", 60, '"a"')])
        self.assertEqual([(it.owner, it.ttl, it.rdata[-4:]) for it in folded.added], [
            ("k.x.", 60, "6300"), ("s.x.", 61, "6100"), ("t.x.", 60, '"A"')])
        self.assertEqual(folded, zonenorm.diff(other, zone, fold_names=True)[::-1])

    def test_difference_of_two_classes(self) -> None:
        zone = zonenorm.Zone(b"@ 60 IN SOA . . 1 2 3 4 5\na 60 IN TXT a\n", "x.")
        other = zonenorm.Zone(b"@ 60 CH SOA . . 1 2 3 4 5\na 60 CH TXT a\n", "x.")
        self.assertEqual(zonenorm.diff(zone, other), ([*zone], [*other]))

    def test_wire(self) -> None:
        zone, count, at = zonenorm.Zone(octets("example.zone"), "example."), 0, 0
        wire = zone.wire()
        self.assertEqual(wire, zonenorm.records(octets("example.axfr"), zonenorm.TRANSFER))
        while at < len(wire):
            while wire[at]:
                at += 1 + wire[at]
            at += 11 + int.from_bytes(wire[at + 9:at + 11], "big")
            count += 1
        self.assertEqual((count, at), (len(zone), len(wire)))


class Digests(unittest.TestCase):
    def test_a_signed_zone(self) -> None:
        data = octets("signed-by-knot.axfr")
        self.assertEqual(zonenorm.verify(data, zonenorm.TRANSFER), (True, ["verified"]))
        zonemd = next(it for it in zonenorm.Zone.from_transfer(data) if it.rdtype == "TYPE63")
        self.assertEqual(zonenorm.digest(data, zonenorm.TRANSFER).decode(), f"{zonemd}\n")

    def test_a_zone_without_a_digest(self) -> None:
        self.assertEqual(zonenorm.verify(octets("first.zone"), "example."), (False, []))
        self.assertEqual(len(zonenorm.digest(octets("first.zone"), "example.", algorithm="SHA512").split()[-1]), 140)
        with self.assertRaises(ValueError):
            zonenorm.digest(b"", ".", algorithm="MD5")


class Threads(unittest.TestCase):
    def test_many_at_once(self) -> None:
        texts: list[bytes] = []
        data = octets("example.zone")
        threads = [
            threading.Thread(target=lambda: texts.extend(zonenorm.normalise(data, "example.") for _ in range(200)))
            for _ in range(4)]
        for thread in threads:
            thread.start()
        for thread in threads:
            thread.join()
        self.assertEqual((len(texts), set(texts)), (800, {octets("example.canonical")}))


if __name__ == "__main__":
    unittest.main()
