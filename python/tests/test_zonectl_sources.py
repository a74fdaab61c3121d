"""What zonectl reads: sources, origins, formats, limits, options."""
from __future__ import annotations

import bz2
import doctest
import gzip
import lzma
import os
import re
import shutil
import subprocess
import unittest
from pathlib import Path

from zonectl_support import EXAMPLES, SMALL, InFolder, environment, ran, run_alone

from zonectl import bounds, main, names, origin, sources, texts, types
from zonectl.errors import Failure, Usage

TOP = Path(__file__).resolve().parents[2]


def load_tests(loader: unittest.TestLoader, tests: unittest.TestSuite, pattern: str | None) -> unittest.TestSuite:
    """Adds the examples of docstrings."""
    for module in (names, origin, texts):
        tests.addTests(doctest.DocTestSuite(module))
    return tests


class Sources(unittest.TestCase):
    def test_each_form(self) -> None:
        def server(text: str, host: str, port: int, zone: str, number: int = 1, key: str | None = None) -> sources.Source:
            return sources.Server(text, host, port, zone, number, key, text.lower().startswith("axfrs"))

        for it in (
            sources.Standard("-"), sources.File("a", "a"), sources.File("./git:a", "./git:a"), sources.File("x:y", "x:y"),
            sources.File("FILE:a:b", "a:b", "file"), sources.File("capture:-", "-", "capture"), sources.File("Dig:d", "d", "dig"),
            sources.Git("git:HEAD~1:a/b", "HEAD~1", "a/b"), sources.Git("git::./a", "", "./a"), sources.Git("git:a:b:c", "a", "b:c"),
            server("axfr://192.0.2.1/example", "192.0.2.1", 53, "example."),
            server("AXFRS://ns.example/Example.", "ns.example", 853, "example."),
            server("axfr://[2001:db8::1]:5353/.", "2001:db8::1", 5353, "."),
            server("axfr://192.0.2.1/0/25.2.0.192.in-addr.arpa", "192.0.2.1", 53, "0/25.2.0.192.in-addr.arpa."),
            server("axfr://k@h/x?class=CH", "h", 53, "x.", 3, "k."), server("axfr://k%2Ea@h/a%20b", "h", 53, "a\\032b.", 1, "k.a."),
            server("axfr://h/x?class=CLASS65000", "h", 53, "x.", 65000),
            sources.Web("https://h/a?b#c", "https://h/a?b"),
        ):
            with self.subTest(it.text):
                self.assertEqual(sources.source_of(it.text), it)

    def test_usage_errors(self) -> None:
        for text in (
            "", "a\0b", "http://h/x", "ftp://h/x", "file:///x", "git:", "git:a", "git:a:", "git:-x:a", "file:", "capture:", "dig:",
            "axfr://", "axfr:///x", "axfr://h", "axfr://h/", "axfr://h:0/x", "axfr://h:65536/x", "axfr://h:x/x", "axfr://h:/x",
            "axfr://@h/x", "axfr://2001:db8::1/x", "axfr://[::1/x", "axfr://h/x?class=", "axfr://h/x?class=CLASS0", "axfr://h/x?x=1",
            "axfr://h/x?", "axfr://h/a..b", "axfr://h/%", "axfr://h/%zz", "axfr://h/\xfc", "axfr://\xfc/x", "axfr://h/%C3%BC",
            "https://", "https://u@h/", "https://u:p@h/", "https://h:x/", "https://h/ ", "https://h/\xfc",
        ):
            with self.subTest(text), self.assertRaises(Usage):
                sources.source_of(text)

    def test_a_secret_is_never_repeated(self) -> None:
        secret = "c2VjcmV0"
        for text in (f"axfr://k:{secret}@h/x", f"axfr://k:{secret}/a+b=@h/x", f"axfr://k:{secret}@h:99999/", f"https://k:{secret}@h/",
                     f"http://k:{secret}@h/", f"axfrs://hmac-sha256:k:{secret}@[::1]/x", f"ftp://k:{secret}@h/"):
            with self.subTest(text):
                it = ran("diff", "--json", text, "b")
                self.assertEqual(it.status, 2)
                self.assertNotIn(secret, it.out + it.err)

    def test_standard_input_once(self) -> None:
        self.assertEqual(ran("diff", "-", "-").status, 2)
        self.assertIn("xn--", ran("normalise", "-O", "\xfc.example", "-").err)


class Origins(InFolder):
    def test_names_of_files(self) -> None:
        for path, wanted in (
            ("example.org.zone", "example.org."), ("a/example.org.db.gz", "example.org."), ("db.Example.org", "example.org."),
            ("db.2.0.192.in-addr.arpa", "2.0.192.in-addr.arpa."), ("example.org.zone.signed", "example.org."),
            ("example.org.zone.signed.gz", "example.org."), ("db.198.51.100", None), ("db.127", None), ("db.local", None),
            ("first.zone", None), ("example.zone", None), ("zone", None), (".zone", None), ("a..b.zone", None), ("a.b", None),
            ("a b.org.zone", None), ("x.4.zone", None), (f"{'a' * 64}.org.zone", None), ("0/25.a.zone", "25.a."),
        ):
            with self.subTest(path):
                self.assertEqual(origin.by_name(path), wanted)

    def test_texts(self) -> None:
        for text, wanted in (
            ("x. 1 SOA", "x."), ("X. IN 1h SOA", "x."), ("x. SOA", "x."), ("x. CLASS1 TYPE6 \\# 0", "x."), ("x SOA", None),
            ("@ SOA", None), ("$ORIGIN x.\n@ SOA", "x."), ("$origin x.\ny SOA", "y.x."), ("$ORIGIN x\n@ SOA", None),
            ("$ORIGIN x.\n$ORIGIN y\n@ SOA", "y.x."), ("$ORIGIN .\nx SOA", "x."), ("x. NS n\n SOA", "x."), (" SOA", None),
            ("; x. SOA\n$ORIGIN y.\n@ ( 1\n IN ) SOA", "y."), ("$INCLUDE f\nx. SOA", None), ("x. TXT SOA\ny. SOA", "y."),
            ('x. TXT "\n" SOA\ny. SOA', "y."), ("x. TXT a\\\"b\ny. SOA", "y."), ("x. NS SOA.\n", None), ("a\\.b. SOA", "a\\.b."),
            ("a\\. SOA", None), ("x. 1 2 IN IN SOA", None), ("x. A SOA", None), ("\xfc. SOA", None), ("(x.\nSOA)", "x."), ("", None),
            ("$TTL 1\n\n   ; SOA\nx. SOA", "x."),
        ):
            with self.subTest(text):
                self.assertEqual(origin.by_text(text.encode("latin-1")), wanted)

    def test_a_large_text_is_read_once(self) -> None:
        self.assertEqual(origin.by_text(b'a. TXT "' + b"\\" * 2_000_000 + b'"\nx. SOA'), "x.")
        self.assertEqual(origin.by_text(b'"' * 200_001 + b" SOA"), None)

    def test_what_is_decided(self) -> None:
        def decided(name: str | None, text: str | None, preferred: str | None = None) -> str:
            try:
                return origin.decided(name, text, preferred)
            except Failure as failure:
                return failure.text.partition(";")[0]

        neither = "neither its name nor its text says which zone it is"
        for name, text, preferred, wanted in (
            ("a.b.", "a.b.", None, "a.b."), (None, "a.b.", None, "a.b."), ("a.b.", None, None, "a.b."), (None, None, None, neither),
            (None, None, "name", neither), ("a.b.", "c.d.", None, "its name says a.b., its text says c.d."),
            ("a.b.", "c.d.", "name", "a.b."), ("a.b.", "c.d.", "text", "c.d."),
            ("a.b.internal.", None, None, "its name alone says a.b.internal., which is a guess"), ("a.internal.", None, "name", "a.internal."),
            ("0_25.2.0.192.in-addr.arpa.", None, None, "its name alone says 0_25.2.0.192.in-addr.arpa., which is a guess"),
            ("0_25.2.0.192.in-addr.arpa.", "0/25.2.0.192.in-addr.arpa.", None, "0/25.2.0.192.in-addr.arpa."),
            ("2.0.192.in-addr.arpa.", None, None, "2.0.192.in-addr.arpa."),
        ):
            with self.subTest(name=name, text=text, preferred=preferred):
                self.assertEqual(decided(name, text, preferred), wanted)

    def test_the_apex_is_the_origin(self) -> None:
        self.write("example.org.zone", "$TTL 1\nexample.com. SOA n h 1 2 3 4 5\n")
        self.assert_failed(
            ran("sum", "--origin-from", "name", "example.org.zone"), 4,
            "zonectl: example.org.zone: its SOA record is that of example.com., not of example.org.; give --origin NAME")
        it = ran("sum", "-O", "example.org", "example.org.zone")
        self.assertEqual((it.status, it.err), (
            0, "zonectl: example.org.zone: its SOA record is that of example.com., not of example.org.\n"))
        self.assertEqual(ran("sum", "-q", "-O", "example.org", "example.org.zone"), (0, "", ""))

    def test_one_origin_for_one_zone(self) -> None:
        self.assertEqual(ran("sum", "-O", "a", "x", "y").status, 2)
        self.assertEqual(ran("normalise", "-O", "a", "--archive", ".", "x", "y").status, 2)


class Formats(InFolder):
    def setUp(self) -> None:
        super().setUp()
        self.wanted = run_alone("normalise", "-", given=SMALL.encode()).out
        self.assertTrue(self.wanted.startswith("x. 60 IN SOA n.x. h.x. 1 2 3 4 5\n"))

    def test_gzip(self) -> None:
        text = SMALL.encode()
        for name, octets in (
            ("one", gzip.compress(text)), ("two", gzip.compress(text[:20]) + gzip.compress(text[20:])),
            ("padded", gzip.compress(text) + bytes(500)), ("empty member", gzip.compress(b"") + gzip.compress(text)),
        ):
            with self.subTest(name):
                self.write("a.gz", octets)
                self.assertEqual(ran("normalise", "a.gz"), (0, self.wanted, ""))
        packed = gzip.compress(text)
        for octets, reason in (
            (packed[:-9], "the gzip file is cut off"), (packed[:3], "the gzip file is cut off"), (packed + b"no member", "the gzip file is broken"),
            (packed[:-8] + bytes(8), "the gzip file is broken"), (gzip.compress(packed), "it is gzip inside gzip; one level is read"),
        ):
            with self.subTest(reason):
                self.write("a.gz", octets)
                self.assert_failed(ran("normalise", "a.gz"), 3, f"zonectl: a.gz: {reason}")
        self.write("bomb", gzip.compress(bytes(3_000_000)))
        self.assert_failed(ran("normalise", "--max-size", "1M", "bomb"), 4,
                           "zonectl: bomb: larger than 1048576 octets; --max-size 1G allows more")

    def test_captures(self) -> None:
        octets = (EXAMPLES / "example.axfr").read_bytes()
        wanted = (EXAMPLES / "example.canonical").read_text()
        self.write("a", octets)
        self.write("a.gz", gzip.compress(octets))
        for text in ("a", "capture:a", "a.gz", "capture:a.gz"):
            self.assertEqual(ran("normalise", text), (0, wanted, ""))
        self.assertEqual(ran("normalise", "-O", "example", "file:a").status, 3)
        self.write("b", SMALL)
        self.assertEqual(ran("normalise", "capture:b").status, 3)
        for name in ("signed-answer.axfr", "signed-by-bind.axfr", "signed-by-knot.axfr", "refused-by-the-server.axfr"):
            self.assertIn(ran("normalise", self.example(name)).status, (0, 3))

    def test_dig(self) -> None:
        self.example("example.dig")
        wanted = (EXAMPLES / "example.canonical").read_text()
        self.assertEqual(ran("normalise", "dig:example.dig"), (0, wanted, ""))
        text = (EXAMPLES / "example.dig").read_text()
        self.write("cut", text[: text.rindex("TYPE6") - 30])
        self.assert_failed(ran("normalise", "dig:cut"), 3,
                           "zonectl: dig:cut: the transfer isn't whole: its SOA isn't just at both ends, or dig reports a failure")
        self.write("kdig", text.replace("web.example", "w\xfcb.example"))
        it = ran("normalise", "dig:kdig")
        self.assertEqual(it.status, 3)
        self.assertRegex(it.err, r"^zonectl: dig:kdig:\d+: .*call it with \+noidn\n$")

    def test_a_byte_order_mark(self) -> None:
        self.write("a", b"\xef\xbb\xbf" + SMALL.encode())
        self.assertEqual(ran("normalise", "a"), (0, self.wanted, "zonectl: a: a byte order mark is skipped, for which servers refuse "
                                                                 "the file\n"))
        self.assertEqual(ran("normalise", "-q", "-o", "b", "a"), (0, "", ""))

    def test_other_formats_are_named(self) -> None:
        pcapng = b"\n\r\r\n" + (0x80).to_bytes(4, "little") + b"\x4d\x3c\x2b\x1a"
        for what, octets in (
            ("xz", lzma.compress(b"x")), ("bzip2", bz2.compress(b"x")), ("zstd", b"\x28\xb5\x2f\xfd\0"), ("zip", b"PK\3\4\0"),
            ("pcap", b"\xd4\xc3\xb2\xa1\2\0\4\0"), ("pcapng", pcapng), ("UTF-16", "x".encode("utf-16")),
            ("BIND's raw format", b"\0\0\0\2\0\0\0\1\0"), ("a journal of BIND", b";BIND LOG V9.2\n"),
        ):
            with self.subTest(what):
                it = ran("normalise", self.write("a", octets))
                self.assertEqual(it.status, 3)
                self.assertTrue(it.err.startswith(f"zonectl: a: it is {what}: "), it.err)

    def test_pipes(self) -> None:
        os.mkfifo("pipe")
        writer = subprocess.Popen(["sh", "-c", "sleep 0.2; cat > pipe"], stdin=subprocess.PIPE)
        assert writer.stdin
        writer.stdin.write(SMALL.encode())
        writer.stdin.close()
        self.assertEqual(ran("normalise", "pipe"), (0, self.wanted, ""))
        writer.wait()
        self.assert_failed(ran("normalise", "--deadline", "0.2", "pipe"), 4,
                           "zonectl: pipe: reading took longer than 0.20 s (--deadline)")

    def test_what_isnt_a_file(self) -> None:
        for path, reason in ((".", "it is a folder"), ("/dev/zero", "it is neither a file nor a pipe"),
                             ("none", "it can't be read: no such file or directory")):
            self.assert_failed(ran("normalise", path), 4, f"zonectl: {path}: {reason}")

    def test_git(self) -> None:
        def git(*words: str) -> None:
            given = environment(GIT_CONFIG_GLOBAL=os.devnull, GIT_AUTHOR_NAME="a", GIT_AUTHOR_EMAIL="a@b", GIT_COMMITTER_NAME="a",
                                GIT_COMMITTER_EMAIL="a@b")
            subprocess.run(["git", *words], check=True, env=given, capture_output=True)

        git("init", "-q")
        self.write("z/x.example.zone", SMALL.replace("x.", "x.example.").replace(" 1 ", " 7 "))
        git("add", ".")
        git("commit", "-qm", "x")
        self.write("z/x.example.zone", SMALL.replace("x.", "x.example."))
        git("add", ".")
        for text, serial in (("git:HEAD:z/x.example.zone", 7), ("git::z/x.example.zone", 1), ("z/x.example.zone", 1)):
            self.assertEqual(ran("sum", text).out.split(" ")[2:], [str(serial), "x.example.", f"{text}\n"])
        os.chdir("z")
        self.assertEqual(ran("sum", "git:HEAD:./x.example.zone").status, 0)
        it = ran("sum", "git:HEAD:none")
        self.assertEqual(it.status, 4)
        self.assertRegex(it.err, r"^zonectl: git:HEAD:none: path 'none' does not exist in 'HEAD'\n$")
        self.assertEqual(ran("sum", "git:none:z").status, 4)
        self.assertIn("larger than 10 octets", ran("sum", "--max-size", "10", "git:HEAD:./x.example.zone").err)

    def test_sizes(self) -> None:
        self.write("a", SMALL)
        self.assertEqual(ran("normalise", "--max-size", str(len(SMALL)), "a").status, 0)
        self.assertEqual(ran("normalise", "--max-size", str(len(SMALL) - 1), "a").status, 4)


class Values(unittest.TestCase):
    def test_times_and_sizes(self) -> None:
        for text, wanted in (("30", 30), ("30s", 30), ("0.5", 0.5), ("10m", 600), ("1h", 3600), ("1d", 86400), ("0", 0)):
            self.assertEqual(bounds.seconds(text), wanted)
        for text, size in (("1", 1), ("1K", 1024), ("128M", 128 << 20), ("1G", 1 << 30)):
            self.assertEqual(bounds.octets(text), size)
        for text in ("", "-1", "1x", "1 s", "inf", "nan", "1e3", "\u0663"):
            self.assertRaises(ValueError, bounds.seconds, text)
        for text in ("", "0", "2G", "1.5M", "1T", "-1", "\u0663"):
            self.assertRaises(ValueError, bounds.octets, text)

    def test_how_values_are_printed(self) -> None:
        for seconds, wanted in ((0.42, "0.42 s"), (30, "30 s"), (60, "1m00s"), (200, "3m20s"), (3600, "1h00m00s"), (0, "0.00 s")):
            self.assertEqual(texts.duration(seconds), wanted)
        for octets, wanted in ((1, "1 octet"), (983, "983 octets"), (1_200_000, "1.2 MB"), (5_000, "5.0 kB")):
            self.assertEqual(texts.size(octets), wanted)

    def test_safe_texts(self) -> None:
        cases: list[tuple[str | bytes, str]] = [
            ("a b\xfc", "a b\xfc"), ("\x1b[31m", "\\x1b[31m"), ("a\nb", "a\\x0ab"), ("\x9b", "\\xc2\\x9b"), ("\u202e", "\\xe2\\x80\\xae"),
            (b"\xff\xfe", "\\xff\\xfe"), ("\ud800", "\\xed\\xa0\\x80"), ("\u200b", "\\xe2\\x80\\x8b"), ("\x7f", "\\x7f"),
        ]
        for text, wanted in cases:
            self.assertEqual(texts.safe(text), wanted)
        self.assertEqual("\xfc\u20ac".encode("latin-1", "zonectl"), b"\xfc\\xe2\\x82\\xac")
        self.assertEqual(texts.one_field("a\\b\n\x1b"), "a\\x5cb\\x0a\\x1b")

    def test_types(self) -> None:
        self.assertEqual([types.in_the_text(types.type_number(it)) for it in ("a", "TYPE1", "CAA", "TYPE65534")],
                         ["A", "A", "TYPE257", "TYPE65534"])
        for text in ("", "TYPE", "TYPE65536", "X"):
            self.assertRaises(ValueError, types.type_number, text)


class CommandLines(unittest.TestCase):
    def test_usage(self) -> None:
        cases: list[list[str]] = [
            [], ["x"], ["--json"], ["diff"], ["diff", "a"], ["diff", "a", "b", "c"], ["normalise"], ["normalise", "a", "b"],
                      ["sum"], ["fetch"], ["fetch", "a"], ["fetch", "a", "b"], ["diff", "--form", "text", "a", "b"], ["diff", "--exac"],
                      ["diff", "-t", "x", "a", "b"], ["diff", "--format=x", "a", "b"], ["diff", "-i", "nothing", "a", "b"],
                      ["diff", "-n", "x", "a", "b"], ["diff", "--parts", "d", "a", "b"], ["sum", "--check", "a", "b"], ["completion"],
                      ["completion", "csh"], ["diff", "-O", "a..b", "a", "b"], ["fetch", "--json", "axfr://h/x"]]
        for words in cases:
            with self.subTest(words):
                it = ran(*words)
                self.assertEqual((it.status, it.err.count("\n")), (2, 1), it.err)
                self.assertTrue(it.err.startswith("zonectl: "))

    def test_help_and_versions(self) -> None:
        for words in (["--help"], ["-h"], *([name, "--help"] for name in main.COMMANDS), ["diff", "-h", "x"]):
            it = ran(*words)
            self.assertEqual((it.status, it.err), (0, ""))
            self.assertTrue(it.out.startswith("usage: zonectl"))
        for words in (["--version"], ["-V"], ["sum", "-V"]):
            it = ran(*words)
            self.assertRegex(it.out, r"^zonectl \d+\.\d+\.\d+, zonenorm \d+\.\d+\.\d+, canonical text 1\n$")

    @unittest.skipUnless((TOP / "docs").is_dir(), "the documents aren't beside the tests")
    def test_each_option_is_in_the_page_and_the_completion(self) -> None:
        page = (TOP / "docs/zonectl.1").read_text().replace("\\-", "-")
        known = set(re.findall(r"(?<![\w-])--?[a-zA-Z][a-z0-9-]*", page))
        options = {"-h", "--help", "-V", "--version"}
        for name in main.COMMANDS:
            options |= {it for action in main.module_of(name).parser().options() for it in action.option_strings}
            self.assertIn(f"zonectl {name}", page)
        self.assertEqual(options - known, set())
        self.assertEqual({it for it in known if it.startswith("--")} - options, set())

    @unittest.skipUnless((TOP / "docs").is_dir(), "the documents aren't beside the tests")
    def test_the_completion_is_the_parsers(self) -> None:
        for shell in ("bash", "zsh", "fish"):
            stored = TOP / f"docs/zonectl.{shell}"
            text = ran("completion", shell).out
            self.assertEqual(text, stored.read_text())
            for name in main.COMMANDS:
                for action in main.module_of(name).parser().options():
                    for option in action.option_strings:
                        self.assertIn(option if shell != "fish" else f"-{'l' if option[1] == '-' else 's'} {option.lstrip('-')}", text)
            if shutil.which(shell):
                it = subprocess.run([shell, "-n", str(stored)], capture_output=True, text=True)
                self.assertEqual((it.returncode, it.stderr), (0, ""))
        stored = TOP / "docs/zonectl.bash"
        for words, wanted in (("zonectl d", "diff"), ("zonectl sum --che", "--check"), ("zonectl diff --format g", "github"),
                              ("zonectl diff --tls-n", "--tls-name --tls-no-verify"), ("zonectl zonemd v", "verify"),
                              ("zonectl check --format g", "github"), ("zonectl diff -i d", "dnssec"), ("zonectl check --li", "--lint --list")):
            script = f'. {stored}; COMP_WORDS=({words}); COMP_CWORD=$((${{#COMP_WORDS[@]}} - 1)); _zonectl; echo "${{COMPREPLY[@]}}"'
            it = subprocess.run(["bash", "-c", script], capture_output=True, text=True)
            self.assertEqual((it.stdout.strip(), it.stderr), (wanted, ""))
