"""zonectl and servers on loopback: kind ones, and those that are silent, drip, lie or never end."""
from __future__ import annotations

import os
import signal
import socket
import struct
import subprocess
import time
import unittest

from zonectl_support import (
    EXAMPLES, HERE, TLS, Behaviour, InFolder, Ran, Server, command, drips, environment, framed, frames, ran, reset, sends, serving,
    silent, tls_server)

from zonectl import transfer, tsig
from zonectl.bounds import Limits
from zonectl.names import wire_name

AXFR = (EXAMPLES / "example.axfr").read_bytes()
CANONICAL = (EXAMPLES / "example.canonical").read_text()
MESSAGES = list(frames(AXFR))
SECRET = "c2VjcmV0IHNlY3JldCBzZWNyZXQgc2VjcmV0IQ=="
KEY = f'key "transfer" {{\n\talgorithm hmac-sha256;\n\tsecret "{SECRET}";\n}};\n'


def with_header(message: bytes, at: int, octets: bytes) -> bytes:
    """Returns a message with other octets in its header."""
    return message[:at] + octets + message[at + len(octets) :]


def raw(make: bytes) -> Behaviour:
    """A server that sends just these octets."""
    return lambda connection, query, server: connection.sendall(make)


def soa(serial: int) -> bytes:
    """Returns an SOA record of example. for an answer whose question is at octet 12."""
    data = b"\2ns\xc0\x0c\1h\xc0\x0c" + struct.pack("!5L", serial, 2, 3, 4, 5)
    return b"\xc0\x0c" + struct.pack("!HHLH", 6, 1, 60, len(data)) + data


def answer(query: bytes, *records: bytes) -> bytes:
    """Returns a message with the question of a query and records."""
    return query[:2] + b"\x84\0" + struct.pack("!4H", 1, len(records), 0, 0) + query[12:].partition(b"\0\0\xfc\0\1")[0] \
        + b"\0\0\xfc\0\1" + b"".join(records)


def endless(connection: socket.socket, query: bytes, server: Server) -> None:
    """A server whose transfer never ends."""
    a = b"\xc0\x0c" + struct.pack("!HHLH", 16, 1, 60, 60001) + b"\xff" + bytes(60000)
    connection.sendall(framed(answer(query, soa(1))))
    while not server.over.is_set():
        connection.sendall(framed(answer(query, a)))


def two_soas(connection: socket.socket, query: bytes, server: Server) -> None:
    """A server whose zone changes during the transfer."""
    connection.sendall(framed(answer(query, soa(1)), answer(query, soa(2))))


def two_equal(connection: socket.socket, query: bytes, server: Server) -> None:
    """A server whose zones have an SOA alone."""
    connection.sendall(framed(answer(query, soa(1), soa(1))))


class Hostile(InFolder):
    def fetched(self, behave: Behaviour, *options: str, is_dns: bool = True) -> tuple[Ran, str]:
        """Returns what comes of a fetch, and the URL. No file may be left behind."""
        with serving(behave, is_dns=is_dns) as server:
            url = f"axfr://127.0.0.1:{server.port}/example"
            it = ran("fetch", *options, "-o", "sent", url)
        if it.status and "--partial" not in options:
            self.assertEqual(os.listdir(), [])
        return it, url

    def test_a_kind_server(self) -> None:
        it, url = self.fetched(sends(AXFR))
        self.assertEqual((it.status, it.out), (0, ""))
        self.assertRegex(it.err, rf"^zonectl: {url}: the zone example\., 983 octets in 4 messages, 0\.\d\d s\n$")
        self.assertEqual(ran("normalise", "sent").out, CANONICAL)
        self.assertEqual(list(frames((self.folder / "sent").read_bytes()))[0][2:], MESSAGES[0][2:])

    def test_ipv6_and_every_address_of_a_name(self) -> None:
        try:
            with serving(sends(AXFR), host="::1") as server:
                self.assertEqual(ran("normalise", f"axfr://[::1]:{server.port}/example."), Ran(0, CANONICAL, ""))
        except OSError:
            self.skipTest("there is no IPv6")
        with serving(sends(AXFR)) as server:  # of localhost the first address may be ::1, where nobody listens
            self.assertEqual(ran("normalise", f"axfr://localhost:{server.port}/EXAMPLE"), Ran(0, CANONICAL, ""))

    def test_classes(self) -> None:
        def behave(connection: socket.socket, query: bytes, server: Server) -> None:
            self.assertEqual(query[-4:], b"\0\xfc\0\3")
            chaos = query[12:]
            record = soa(1)[:4] + b"\0\3" + soa(1)[6:]
            connection.sendall(framed(query[:2] + b"\x84\0" + struct.pack("!4H", 1, 2, 0, 0) + chaos + record * 2))

        with serving(behave) as server:
            it = ran("normalise", f"axfr://127.0.0.1:{server.port}/x?class=CH")
            self.assertEqual(it, Ran(0, "x. 60 CH SOA ns.x. h.x. 1 2 3 4 5\n", ""))
        with serving(two_equal) as server:
            url = f"axfr://127.0.0.1:{server.port}/y"
            it = ran("diff", url, url.replace("/y", "/z"))
            self.assert_failed(it, 4, f"zonectl: {url} is the zone y., {url[:-1]}z the zone z.: nothing to compare")

    def test_each_fault_has_its_line(self) -> None:
        head = MESSAGES[0]
        gone = "the connection ended before the closing SOA"
        other = AXFR.replace(b"\7example\0\0\xfc", b"\7exampls\0\0\xfc")
        loop = framed(with_header(head, 4, struct.pack("!4H", 0, 1, 0, 0))[:12] + b"\xc0\x0c\0\6\0\1" + bytes(8))
        cases: dict[str, tuple[Behaviour, str]] = {
            "cut": (sends(AXFR[:600]), gone),
            "closed": (raw(b""), gone),
            "without the last message": (sends(framed(*MESSAGES[:-1])), gone),
            "reset": (reset, "the connection was reset"),
            "HTTP": (raw(b"HTTP/1.1 400 Bad Request\r\nConnection: close\r\n\r\n"), gone),
            "an empty message": (raw(b"\0\0"), "a message ends too early"),
            "another ID": (
                lambda it, query, server: it.sendall(framed(bytes([query[0] ^ 1]) + query[1:2] + head[2:])),
                "a message answers another query: its ID isn't that of this one"),
            "another zone": (sends(other), "a message answers another question"),
            "two questions": (sends(framed(with_header(head, 4, b"\0\2"))), "a message has more than one question"),
            "REFUSED": (
                sends(framed(with_header(head, 3, b"\5"))),
                "the server answers with error code 5, REFUSED: it doesn't let this address or this key transfer the zone"),
            "an unknown error": (sends(framed(with_header(head, 3, b"\x0b"))), "the server answers with error code 11"),
            "a reserved label": (sends(framed(head[:12] + b"\x80" + head[13:])), "a label has a reserved form"),
        }
        for name, (behave, reason) in cases.items():
            with self.subTest(name):
                it, url = self.fetched(behave, "-t", "5")
                self.assert_failed(it, 4, f"zonectl: {url}: {reason}")
        with self.subTest("a pointer to itself"):
            it, _ = self.fetched(sends(loop), "-t", "5")
            self.assertEqual(it.status, 4)

    def test_silence_ends_at_the_timeout(self) -> None:
        begun = time.monotonic()
        it, url = self.fetched(silent, "-t", "0.3")
        self.assert_failed(it, 4, f"zonectl: {url}: nothing came for 0.30 s (--timeout)")
        self.assertLess(time.monotonic() - begun, 15)

    def test_dripping_ends_at_the_deadline(self) -> None:
        begun = time.monotonic()
        it, url = self.fetched(drips(AXFR), "-t", "5", "--deadline", "0.5")
        self.assert_failed(it, 4, f"zonectl: {url}: the transfer took longer than 0.50 s (--deadline)")
        it, url = self.fetched(drips(AXFR), "--run-deadline", "0.5")
        self.assert_failed(it, 4, f"zonectl: {url}: the command took longer than 0.50 s (--run-deadline)")
        self.assertLess(time.monotonic() - begun, 20)

    def test_an_endless_transfer_ends_at_the_size(self) -> None:
        it, url = self.fetched(endless, "--max-size", "1M")
        self.assert_failed(it, 4, f"zonectl: {url}: larger than 1048576 octets; --max-size 1G allows more")

    def test_what_came_before_a_failure_is_kept_if_asked_for(self) -> None:
        it, _ = self.fetched(sends(AXFR[:600]), "--partial")
        self.assertEqual(it.status, 4)
        kept = (self.folder / "sent").read_bytes()
        self.assertEqual((len(kept), kept[4:200]), (600, AXFR[4:200]))

    def test_the_engine_judges_what_comes(self) -> None:
        with serving(two_soas) as server:
            url = f"axfr://127.0.0.1:{server.port}/example"
            it = ran("normalise", url)
            self.assertEqual((it.status, it.out), (3, ""))
            self.assertRegex(it.err, rf"^zonectl: {url}: F36 SoaMismatch at message 2 offset \d+: ")
            it = ran("diff", "--json", url, url)
            self.assertIn('"status": 3, "source": "' + url + '", "fault": 36, "name": "SoaMismatch", "line": null', it.out)

    def test_no_server(self) -> None:
        with socket.create_server(("127.0.0.1", 0)) as gone:
            port = gone.getsockname()[1]
        it = ran("normalise", f"axfr://127.0.0.1:{port}/example")
        self.assert_failed(it, 4, f"zonectl: axfr://127.0.0.1:{port}/example: the connection was refused")
        it = ran("normalise", "axfr://no..name/example")
        self.assert_failed(it, 4, "zonectl: axfr://no..name/example: the name no..name has no address")

    def test_signals_leave_no_file(self) -> None:
        for number in (signal.SIGINT, signal.SIGTERM, signal.SIGHUP):
            with self.subTest(number), serving(drips(AXFR)) as server:
                words = command("fetch", "-o", "sent", f"axfr://127.0.0.1:{server.port}/example")
                it = subprocess.Popen(
                    words, stderr=subprocess.PIPE, env=environment(), text=True,
                    preexec_fn=lambda: signal.signal(number, signal.SIG_DFL) and None)
                while not server.queries:
                    time.sleep(0.02)
                time.sleep(0.2)
                it.send_signal(number)
                self.assertEqual((it.communicate(timeout=10)[1], it.returncode), ("zonectl: interrupted\n", 4))
                self.assertEqual(os.listdir(), [])


class Signed(InFolder):
    """Transfers with TSIG."""

    def setUp(self) -> None:
        super().setUp()
        self.write("key", KEY)
        (self.folder / "key").chmod(0o600)

    def signing(self, secret: str = SECRET, unsigned: bool = False) -> Behaviour:
        """A server that signs each message of its answer."""

        def behave(connection: socket.socket, query: bytes, server: Server) -> None:
            found = tsig.signature_of(query)
            assert found
            key = tsig.keys_of(KEY.replace(SECRET, secret))[0]
            last, is_first = found.mac, True
            for message in MESSAGES:
                message = query[:2] + message[2:]
                timers = struct.pack("!HIH", 0, int(time.time()), 300)
                before = struct.pack("!H", len(last)) + last
                last = key.mac(before + message + (key.variables(timers) if is_first else timers))
                data = key.algorithm + timers + struct.pack("!H", len(last)) + last + query[:2] + bytes(4)
                record = key.name + struct.pack("!HHIH", 250, 255, 0, len(data)) + data
                signed = message[:10] + b"\0\1" + message[12:] + record
                connection.sendall(framed(message if unsigned and not is_first else signed))
                is_first = False

        return behave

    def test_a_signed_transfer(self) -> None:
        with serving(self.signing()) as server:
            it = ran("normalise", "-k", "key", f"axfr://127.0.0.1:{server.port}/example")
            self.assertEqual(it, Ran(0, CANONICAL, ""))
            it = ran("fetch", "--json", "-o", "sent", "-k", "key", f"axfr://transfer@127.0.0.1:{server.port}/example")
            self.assertRegex(it.out, r'^\{"format": "zonectl-fetch/1", "status": 0, .*"messages": 4, .*"signed": true\}\n$')

    def test_a_wrong_signature_is_refused(self) -> None:
        for name, behave, reason in (
            ("another secret", self.signing("AAAA"), "a signature is wrong: a message was altered, or secrets differ"),
            ("none at the end", self.signing(unsigned=True), "a message that must be signed isn't"),
            ("none", sends(AXFR), "a message that must be signed isn't"),
        ):
            with self.subTest(name), serving(behave) as server:
                url = f"axfr://127.0.0.1:{server.port}/example"
                self.assert_failed(ran("fetch", "-o", "sent", "-k", "key", url), 3, f"zonectl: {url}: {reason}")
                self.assertFalse((self.folder / "sent").exists())

    def test_keys(self) -> None:
        url = "axfr://127.0.0.1:1/example"
        self.write("two", KEY + KEY.replace('"transfer"', '"other."'))
        (self.folder / "two").chmod(0o600)
        self.assert_failed(ran("normalise", "-k", "two", url), 2,
                           f"zonectl: {url}: there are several keys: axfr://KEY@HOST/ZONE says which one signs")
        url = "axfr://missing@127.0.0.1:1/example"
        self.assert_failed(ran("normalise", "-k", "two", url), 2,
                           f"zonectl: {url}: no key file has the key missing. (--key FILE)")
        self.assertEqual(ran("normalise", "-k", "two", "axfr://other@127.0.0.1:1/x").err,
                         "zonectl: axfr://other@127.0.0.1:1/x: the connection was refused\n")
        self.assert_failed(ran("normalise", "-k", "none", url), 4, "zonectl: none: it can't be read: no such file or directory")

    def test_nothing_of_a_key_file_is_printed(self) -> None:
        for text in (KEY.replace("hmac-sha256", SECRET), KEY.replace(";", ""), KEY.replace(SECRET, SECRET + "!"), "\xff" + SECRET,
                     KEY.replace("secret", "sekret"), KEY + SECRET):
            with self.subTest(text):
                self.write("bad", text.encode("latin-1"))
                it = ran("normalise", "-k", "bad", "axfr://127.0.0.1:1/example")
                self.assertEqual((it.status, it.out), (2, ""))
                self.assertNotIn(SECRET[:8], it.err)
                self.assertIn("zonectl: bad: it holds no key", it.err)
        self.assertNotIn(SECRET[:8], repr(tsig.keys_of(KEY)))

    def test_a_key_file_that_everyone_may_read_is_a_warning(self) -> None:
        (self.folder / "key").chmod(0o644)
        it = ran("normalise", "-k", "key", "axfr://127.0.0.1:1/example")
        self.assertTrue(it.err.startswith("zonectl: key: everyone may read this key file\n"))


class Tls(InFolder):
    """Transfers over TLS, and https."""

    def normalised(self, *options: str) -> Ran:
        """Returns what comes of a transfer over TLS, with the URL taken out."""
        with serving(sends(AXFR), tls_server()) as server:
            url = f"axfrs://127.0.0.1:{server.port}/example"
            it = ran("normalise", *options, url)
        return it._replace(err=it.err.replace(f"{url}: ", ""))

    def test_a_verified_server(self) -> None:
        it = self.normalised("--tls-ca", str(TLS / "ca.pem"), "--tls-name", "ns.example")
        self.assertEqual(it, Ran(0, CANONICAL, ""))

    def test_others_are_refused(self) -> None:
        for name, options in (
            ("the system's certificates", ["--tls-name", "ns.example"]),
            ("another certificate", ["--tls-ca", str(TLS / "other-ca.pem"), "--tls-name", "ns.example"]),
            ("another name", ["--tls-ca", str(TLS / "ca.pem")]),
        ):
            with self.subTest(name):
                it = self.normalised(*options)
                self.assertEqual((it.status, it.out), (4, ""))
                self.assertTrue(it.err.startswith("zonectl: its certificate isn't trusted: "), it.err)

    def test_without_a_check(self) -> None:
        self.assertEqual(self.normalised("--tls-no-verify"), Ran(0, CANONICAL, ""))

    def test_a_server_without_tls(self) -> None:
        with serving(raw(b"HTTP/1.1 400 Bad Request\r\n\r\n"), is_dns=False) as server:
            it = ran("normalise", "-t", "2", f"axfrs://127.0.0.1:{server.port}/example")
        self.assertEqual(it.status, 4)
        self.assertIn(": TLS failed: ", it.err)

    def test_a_file_without_certificates(self) -> None:
        self.write("none", "x")
        self.assert_failed(ran("normalise", "--tls-ca", "none", "axfrs://127.0.0.1:1/x"), 2,
                           "zonectl: none: it doesn't hold certificates in PEM")

    def web(self, *answers_: bytes, options: tuple[str, ...] = ()) -> Ran:
        """Returns what comes of a URL whose server answers so, one answer a connection."""
        rest = list(answers_)

        def behave(connection: socket.socket, query: bytes, server: Server) -> None:
            connection.sendall(rest.pop(0).replace(b"PORT", str(server.port).encode()))

        with serving(behave, tls_server(), is_dns=False) as server:
            url = f"https://localhost:{server.port}/zones/example.zone"
            it = ran("normalise", "--tls-no-verify", *options, url)
            self.assertTrue(all(it.startswith(b"GET /") for it in server.queries))
        return it._replace(err=it.err.replace(f"{url}: ", ""))

    def test_https(self) -> None:
        file = (EXAMPLES / "example.zone").read_bytes()
        good = b"HTTP/1.1 200 OK\r\nContent-Length: %d\r\n\r\n" % len(file) + file
        moved = b"HTTP/1.1 302 Found\r\nLocation: https://localhost:PORT/other\r\nContent-Length: 0\r\n\r\n"
        self.assertEqual(self.web(good), Ran(0, CANONICAL, ""))
        self.assertEqual(self.web(moved, moved, good), Ran(0, CANONICAL, ""))
        self.assert_failed(self.web(*[moved] * 6), 4, "zonectl: more than 5 redirects")
        plain = moved.replace(b"https:", b"http:")
        self.assert_failed(self.web(plain), 4, "zonectl: a redirect leads elsewhere than to a URL of https")
        self.assert_failed(self.web(b"HTTP/1.1 404 Not Found\r\n\r\n"), 4, "zonectl: the server answers with status 404 Not Found")
        self.assert_failed(self.web(good[:-1]), 4, "zonectl: the connection ended before the whole body came")
        self.assert_failed(self.web(good, options=("--max-size", "1K")), 4,
                           "zonectl: larger than 1024 octets; --max-size 1G allows more")
        self.assertEqual(self.web(b"\0\1\2\r\n\r\n").status, 4)


class Pieces(unittest.TestCase):
    """Calls of the network code."""

    def test_a_transfer_in_pieces_is_the_same(self) -> None:
        query = transfer.Query(wire_name("example."), ident=MESSAGES[0][:2])
        for size in (1, 2, 7, 1000):
            rest, kept = bytearray(AXFR), bytearray()

            class Pieces_:
                def recv(self, count: int) -> bytes:
                    piece = bytes(rest[: min(size, count)])
                    del rest[: len(piece)]
                    return piece

                def sendall(self, octets: bytes) -> None:
                    raise AssertionError

            taken = transfer.capture(Pieces_(), query, None, Limits(), kept.extend)
            self.assertEqual((bytes(kept), taken), (AXFR, 4))


class Decoding(InFolder):
    """Transfers with types of fault F33."""

    FILE = "$ORIGIN x.\n@ 60 SOA n h 1 2 3 4 5\n@ 60 NS n\nw 60 RP H.x. t.w\nw 60 AFSDB 1 Db.w\n@ 60 MX 5 m\n" \
        "s 60 NAPTR 1 2 \"a\" \"b\" \"\" n\nk 60 TYPE65280 \\# 2 c00c\n"

    @staticmethod
    def record(owner: bytes, kind: int, data: bytes, ttl: int = 60) -> bytes:
        """Returns a record of class IN."""
        return owner + struct.pack("!HHLH", kind, 1, ttl, len(data)) + data

    def records(self) -> list[bytes]:
        """Returns the records of FILE as answers whose names are compressed; octet 12 is the name of the zone."""
        x = b"\xc0\x0c"
        first = self.record(x, 6, b"\1n" + x + b"\1h" + x + struct.pack("!5L", 1, 2, 3, 4, 5))
        return [
            first, self.record(x, 2, b"\1n" + x), self.record(b"\1w" + x, 17, b"\1H" + x + b"\1t\1w" + x),
            self.record(b"\1w" + x, 18, b"\0\1\2Db\1w" + x), self.record(x, 15, b"\0\5\1m" + x),
            self.record(b"\1s" + x, 35, b"\0\1\0\2\1a\1b\0\1n" + x), self.record(b"\1k" + x, 65280, b"\xc0\x0c"), first]

    def stream(self, records: list[bytes]) -> bytes:
        """Returns a transfer of the zone x., two records a message."""
        query = transfer.Query(wire_name("x."), ident=b"ab").message()
        return framed(*(answer(query, *records[at : at + 2]) for at in range(0, len(records), 2)))

    def test_a_decoded_transfer_has_the_text_of_its_file(self) -> None:
        self.write("file", self.FILE)
        wanted = ran("normalise", "file")
        self.assertEqual(wanted.status, 0)
        with serving(sends(self.stream(self.records()))) as server:
            url = f"axfr://127.0.0.1:{server.port}/x"
            self.assertEqual(ran("normalise", url), Ran(0, wanted.out, f"zonectl: {url}: decoded by zonectl: RP, AFSDB\n"))
            it = ran("diff", "--json", "file", url)
        self.assertIn('"decoder": "engine"}, "b": {', it.out)
        self.assertIn('"decoder": "zonectl"}', it.out)

    def test_what_bind_sends(self) -> None:
        name = "rp.example.axfr"
        it = ran("diff", str(HERE / "bind/rp.example.zone"), self.write(name, (HERE / "bind" / name).read_bytes()))
        self.assertEqual(it, Ran(0, "same, serial 7, 12 records\n", f"zonectl: {name}: decoded by zonectl: MINFO, RP, AFSDB, RT, PX\n"))

    def test_what_cannot_be_decoded_stays_refused(self) -> None:
        records, x = self.records(), b"\xc0\x0c"
        other = records[0][:-1] + b"\6"
        rp = self.record(b"\1w" + x, 17, b"\1H" + x + b"\1t")
        for name, stream in (
            ("no closing SOA", self.stream(records[:-1])), ("another SOA", self.stream([*records[:-1], other])),
            ("no opening SOA", self.stream([records[2], *records])), ("a record after it", self.stream([*records, records[1]])),
            ("RP that is cut", self.stream([*records[:3], rp, records[-1]])), ("a message that is cut", self.stream(records)[:-3]),
            ("another ID at the end", self.stream(records)[:-1].replace(b"ab", b"ac", 4).replace(b"ac", b"ab", 3) + b"\5"),
            ("RP with more octets", self.stream([records[0], self.record(x, 17, b"\0\0\0"), records[-1]])),
            ("a pointer that leads on", self.stream([records[0], self.record(x, 17, b"\xc0\xff\0"), records[-1]])),
        ):
            with self.subTest(name):
                it = ran("normalise", self.write("a", stream))
                self.assertEqual((it.status, it.out), (3, ""))
                self.assertRegex(it.err, "^zonectl: a: F(33|38|35|31|23|22|9) ")

    def test_a_zone_that_is_none_is_refused_as_it_is(self) -> None:
        records, x = self.records(), b"\xc0\x0c"
        ttl = self.record(b"\1w" + x, 17, b"\0\0", ttl=61)
        self.assert_failed(ran("normalise", self.write("a", self.stream([*records[:-1], ttl, records[-1]]))), 3,
                           "zonectl: a: F41 DifferingTtl: the TTL differs from that of its record set")
