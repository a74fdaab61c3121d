"""What zonectl prints and writes: differences, patches, updates, JSON, files, colours, hostile texts."""
from __future__ import annotations

import json
import os
import pty
import random
import resource
import subprocess
import unittest
from pathlib import Path

from zonectl_support import EXAMPLES, SMALL, InFolder, Ran, command, environment, faults, ran, run_alone, see, sends, serving

from zonectl import folding

TOP = Path(__file__).resolve().parents[2]
HEAD = "$ORIGIN x.\n$TTL 60\n@ SOA n h 1 2 3 4 5\n@ NS n\n"


class Differences(InFolder):
    def diff(self, a: str, b: str, *options: str) -> Ran:
        """Returns the difference of two master files."""
        self.write("a", a)
        self.write("b", b)
        return ran("diff", *options, "a", "b")

    def body(self, a: str, b: str, *options: str) -> list[str]:
        """Returns the lines of a difference after those of its copies."""
        it = self.diff(HEAD + a, HEAD + b, *options)
        self.assertEqual((it.status, it.err), (1, ""))
        lines = it.out.splitlines()
        self.assertEqual(lines[0], "DIFFERENT UNDER ONE SERIAL 1")
        return lines[3:]

    def test_another_ttl(self) -> None:
        self.assertEqual(self.body("w A 192.0.2.1\nw A 192.0.2.2\n", "w 90 A 192.0.2.1\nw 90 A 192.0.2.2\nw 90 A 192.0.2.3\n"), [
            "w.x.", "  ~ A TTL 60 -> 90", "  + 90 A 192.0.2.3", "1 RRset differs: 2 records only in a, 3 only in b"])

    def test_each_field_of_the_soa(self) -> None:
        it = self.diff("x. 60 SOA n.x. h.x. 9 2 3 4 5\n", "x. 61 SOA m.x. i.x. 8 3 4 5 6\n")
        self.assertEqual(it.out.splitlines()[2:], [
            "x.", "  ~ SOA TTL 60 -> 61", "  ~ SOA mname n.x. -> m.x.", "  ~ SOA rname h.x. -> i.x.", "  ~ SOA serial 9 -> 8",
            "  ~ SOA refresh 2 -> 3", "  ~ SOA retry 3 -> 4", "  ~ SOA expire 4 -> 5", "  ~ SOA minimum 5 -> 6",
            "1 RRset differs: 1 record only in a, 1 only in b; b is older"])

    def test_serials_are_ordered_by_rfc_1982(self) -> None:
        for a, b, order in ((1, 2, "; b is newer"), (4294967295, 0, "; b is newer"), (5, 2147483653, "; the serials can't be ordered "
                            "(RFC 1982)"), (5, 2147483652, "; b is newer"), (5, 2147483654, "; b is older")):
            it = self.diff(f"x. 60 SOA n. h. {a} 2 3 4 5\n", f"x. 60 SOA n. h. {b} 2 3 4 5\n")
            self.assertTrue(it.out.endswith(f"only in b{order}\n"), it.out)

    def test_canonical_order_and_neighbours(self) -> None:
        a = "b A 192.0.2.1\nb TXT a\na.b A 192.0.2.1\nz CAA 0 issue a\n"
        self.assertEqual([it for it in self.body(a, "*.b A 192.0.2.9\n") if not it.startswith("1")][:-1], [
            "b.x.", "  - 60 A 192.0.2.1", '  - 60 TXT "a"', "*.b.x.", "  + 60 A 192.0.2.9", "a.b.x.", "  - 60 A 192.0.2.1",
            "z.x.", '  - 60 CAA 0 issue "a"'])

    def test_empty_rdata(self) -> None:
        self.assertEqual(self.body("w APL\n", "w TYPE65280 \\# 0\n")[:3], ["w.x.", "  - 60 APL", "  + 60 TYPE65280 \\# 0"])
        self.assertEqual(json.loads(ran("normalise", "--json", "a").out)["records"][-1]["rdata"], "")

    def test_rrsig_is_an_rrset_for_each_type_covered(self) -> None:
        signature = "w RRSIG {} 13 2 60 20260101000000 20250101000000 1 X. AAAA\n"
        it = self.diff(HEAD + signature.format("A"), HEAD + signature.format("AAAA"), "--json")
        rrsets = json.loads(it.out)["rrsets"]
        self.assertEqual([(one["type"], one["covered"], len(one["removed"]), len(one["added"])) for one in rrsets],
                         [("RRSIG", "A", 1, 0), ("RRSIG", "AAAA", 0, 1)])

    def test_ttls_of_a_side_that_has_other_records(self) -> None:
        it = json.loads(self.diff(HEAD + "w A 192.0.2.1\n", HEAD + "w A 192.0.2.1\nw A 192.0.2.2\nv A 192.0.2.1\n", "--json").out)
        self.assertEqual([one["ttl"] for one in it["rrsets"]], [{"a": None, "b": 60}, {"a": 60, "b": 60}])
        self.assertEqual((it["status"], it["alarm"], it["a"]["only"], it["b"]["only"]), (1, "one-serial", 0, 2))

    def test_what_is_ignored(self) -> None:
        changed = HEAD.replace(" 1 ", " 2 ").replace("60", "70") + "w CAA 0 issue a\nw NSEC x. A\n"
        it = self.diff(HEAD, changed, "-i", "serial,ttl,dnssec,CAA")
        self.assertEqual(it, Ran(0, "same (ignoring serial,ttl,dnssec,CAA), serials 1 and 2, 2 and 4 records\n", ""))
        self.assertEqual(self.diff(HEAD, changed, "-i", "serial,ttl,TYPE47").status, 1)
        self.assertTrue(self.diff(HEAD, HEAD + "w A 192.0.2.1\n", "-i", "serial").out.startswith("DIFFERENT UNDER ONE SERIAL 1\n"))
        self.assertEqual(self.body("w A 192.0.2.1\nw A 192.0.2.2\n", "w 90 A 192.0.2.1\n", "-i", "ttl"), [
            "w.x.", "  - 60 A 192.0.2.2", "1 RRset differs: 1 record only in a, 0 only in b"])

    def test_letter_case(self) -> None:
        names = "w RP A.X. B.X.\nw KX 1 A.X.\nw SVCB 1 A.X. alpn=H2\nw AMTRELAY 0 0 3 A.X.\nw IPSECKEY 1 3 2 A.X. AAAA\n" \
            "w HIP 2 AA AAAA A.X. B.X.\nw NSEC A.X. A\nw AFSDB 1 A.X.\nw LP 1 A.X.\n"
        it = self.diff(HEAD + names, HEAD + names.replace("A.X.", "a.x.").replace("B.X.", "b.x."))
        self.assertEqual(it.out, "same, serial 1, 11 records; letter case differs in 9 records (--exact shows them)\n")
        self.assertEqual(self.diff(HEAD + names, HEAD + names.replace("alpn=H2", "alpn=h2")).status, 1)
        it = self.diff(HEAD + "w DNAME A.X.\n", HEAD + "w DNAME a.x.\n", "-e")
        self.assertEqual((it.status, it.out.splitlines()[4:6]), (1, ["  - 60 DNAME A.X.", "  + 60 DNAME a.x."]))
        both, one = "w KX 1 A.X.\nw KX 1 a.x.\n", "w KX 1 a.x.\n"
        self.assertEqual(self.diff(HEAD + both, HEAD + one).out, "same, serial 1, 4 and 3 records; letter case differs in 1 record "
                                                                 "(--exact shows them)\n")

    def test_lines(self) -> None:
        many = "".join(f"w{it:03d} A 192.0.2.1\n" for it in range(150))
        self.assertEqual(self.body("", many)[200:], [".. 100 more lines (--lines all shows them)",
                                                     "150 RRsets differ: 0 records only in a, 150 only in b"])
        self.assertEqual(len(self.body("", many, "-n", "all")), 301)
        self.assertEqual(self.body("", many, "--lines", "0")[0], ".. 300 more lines (--lines all shows them)")
        it = json.loads(self.diff(HEAD, HEAD + many, "--json", "-n", "3").out)
        self.assertEqual((len(it["rrsets"]), it["omitted"]), (3, 147))

    def test_classes_and_zones(self) -> None:
        it = self.diff("x. 60 IN SOA n. h. 1 2 3 4 5\n", "x. 60 CH SOA n. h. 1 2 3 4 5\n")
        self.assert_failed(it, 4, "zonectl: a is of class IN, b of class CH: nothing to compare")
        it = self.diff("x. 60 IN SOA n. h. 1 2 3 4 5\n", "y. 60 IN SOA n. h. 1 2 3 4 5\n")
        self.assert_failed(it, 4, "zonectl: a is the zone x., b the zone y.: nothing to compare")

    def test_quiet(self) -> None:
        self.assertEqual(self.diff(HEAD, HEAD, "-q"), Ran(0, "", ""))
        for words in (["diff", "a", "b", "--json"], ["sum", "a"], ["sum", "a", "--json"], ["normalise", "a"], ["normalise", "--json", "a"]):
            self.assertEqual(ran(*words, "-q"), Ran(0, "", ""))
        self.assertEqual(self.diff(HEAD, HEAD + "w A 192.0.2.1\n", "-q").status, 1)

    def test_zonemd(self) -> None:
        good = self.example("signed-by-knot.axfr")
        self.assertEqual(ran("diff", "-z", good, good).status, 0)
        self.write("altered", (EXAMPLES / good).read_bytes().replace(b"\xc0\0\2\1", b"\xc0\0\2\2"))
        self.assert_failed(ran("diff", "-z", "altered", good), 3,
                           "zonectl: altered: not verified: ZONEMD 2026112402 1 1: the digest differs")
        self.example("example.axfr")
        self.assert_failed(ran("diff", "-z", "example.axfr", good), 3,
                           "zonectl: example.axfr: not verified: no ZONEMD record at the apex")

    def test_github(self) -> None:
        it = self.diff(HEAD, HEAD + 'w TXT "a````b"\n', "--format=github")
        self.assertEqual(it.out, "### x.: 1 RRset differs\n\n`````diff\nDIFFERENT UNDER ONE SERIAL 1\n--- a: serial 1, 2 records\n"
                                 '+++ b: serial 1, 3 records\nw.x.\n  + 60 TXT "a````b"\n'
                                 "1 RRset differs: 0 records only in a, 1 only in b\n`````\n")

    def test_colours(self) -> None:
        plain = self.diff(HEAD, HEAD + "w A 192.0.2.1\n").out
        lit = ran("diff", "--color=always", "a", "b").out
        self.assertEqual(lit.splitlines()[0], "\x1b[1;31mDIFFERENT UNDER ONE SERIAL 1\x1b[0m")
        self.assertIn("\x1b[32m  + 60 A 192.0.2.1\x1b[0m\n", lit)
        for term, no_color, wanted in (("xterm", "", lit), ("xterm", "1", plain), ("dumb", "", plain)):
            given = environment(TERM=term, NO_COLOR=no_color)
            try:
                terminal, other = pty.openpty()
            except OSError:  # a root without devices
                self.skipTest("no terminal can be made")
            subprocess.run(command("diff", "a", "b"), stdout=other, env=given, check=False)
            os.close(other)
            shown = os.read(terminal, 10000).decode().replace("\r\n", "\n")
            os.close(terminal)
            self.assertEqual(shown, wanted)


class Since(InFolder):
    """The working tree and a revision."""

    def git(self, *words: str) -> None:
        """Runs git."""
        given = environment(GIT_CONFIG_GLOBAL=os.devnull, GIT_AUTHOR_NAME="a", GIT_AUTHOR_EMAIL="a@b", GIT_COMMITTER_NAME="a",
                            GIT_COMMITTER_EMAIL="a@b")
        subprocess.run(["git", *words], check=True, env=given, capture_output=True)

    def setUp(self) -> None:
        super().setUp()
        self.git("init", "-q")
        self.assertEqual(ran("diff", "--since", "HEAD").status, 4)
        for name in ("same", "z/changed", "removed", "broken"):
            self.write(name, SMALL)
        self.write("notes", "x")
        self.git("add", ".")
        self.git("commit", "-qm", "x")
        self.write("same", SMALL + "; a comment\n")
        self.write("z/changed", SMALL + "w 60 A 192.0.2.1\n")
        self.write("broken", SMALL + "w 60 A 192.0.2\n")
        self.write("new.zone", SMALL)
        self.write("notes", "y")
        os.remove("removed")
        self.git("add", "new.zone")

    def test_each_file(self) -> None:
        wanted = "== new.zone: added\n== removed: removed\n== same\nsame, serial 1, 3 records\n== z/changed\n" \
            "DIFFERENT UNDER ONE SERIAL 1\n--- git:HEAD:z/changed: serial 1, 3 records\n+++ {}z/changed: serial 1, 4 records\n" \
            "w.x.\n  + 60 A 192.0.2.1\n1 RRset differs: 0 records only in git:HEAD:z/changed, 1 only in {}z/changed\n"
        fault = "zonectl: {}broken:5: F9 BadRdata: the data doesn't fit its type\n"
        self.assertEqual(ran("diff", "--since", "HEAD"), Ran(3, wanted.format("", ""), fault.format("")))
        os.chdir("z")
        self.assertEqual(ran("diff", "--since", "HEAD"), Ran(3, wanted.format("../", "../"), fault.format("../")))
        self.assertEqual(ran("diff", "-q", "--since", "HEAD", "../same"), Ran(0, "", ""))
        self.assertEqual(ran("diff", "--since", "HEAD", "../notes"), Ran(0, "", "zonectl: no zone file differs from HEAD\n"))

    def test_formats(self) -> None:
        it = ran("diff", "--since", "HEAD", "--json", "new.zone", "removed", "same")
        found = [json.loads(line) for line in it.out.splitlines()]
        self.assertEqual([(one["status"], one["a"] is None, one["b"] is None) for one in found], [(1, True, False), (1, False, True), (0, False, False)])
        schema = json.loads((Path(folding.__file__).parent / "schemas/diff.json").read_text())
        self.assertEqual([fault for one in found for fault in faults(one, schema)], [])
        it = ran("diff", "--since", "HEAD", "--format=github", "removed", "z")
        self.assertTrue(it.out.startswith("### removed: removed\n### x.: 1 RRset differs\n"), it.out)
        for words in (["--format=nsupdate"], ["-O", "x"], ["-o", "f"]):
            self.assertEqual(ran("diff", "--since", "HEAD", *words).status, 2)
        for revision in ("-x", "", "--output=x"):
            self.assertEqual(ran("diff", f"--since={revision}").status, 2)
        self.assertEqual(ran("diff", "--since", "none").status, 4)


class Drawn(InFolder):
    """Pairs of zones by chance."""

    TYPES = ("A 192.0.2.{}", "AAAA 2001:db8::{}", "TXT t{}", "NS n{}", "MX {} m", "CAA 0 issue c{}")

    def zone(self, chance: random.Random, serial: int) -> str:
        """Draws a zone."""
        lines = {f"@ NS n{it}" for it in range(chance.randint(1, 3))}
        for owner in "abcdef":
            if chance.random() < 0.2:
                lines.add(f"{owner} CNAME c{chance.randint(1, 2)}")
                continue
            for form in self.TYPES:
                ttl = chance.choice(["", "", "90 "])
                lines |= {f"{owner} {ttl}{form.format(chance.randint(1, 4))}" for _ in range(chance.choice([0, 0, 1, 2]))}
            if chance.random() < 0.3:
                lines.add(f"{owner} DNAME d{chance.randint(1, 2)}")
        return f"$ORIGIN x.\n$TTL 60\n@ SOA n h {serial} 2 3 4 5\n" + "".join(f"{it}\n" for it in sorted(lines))

    def pairs(self) -> list[tuple[str, str]]:
        """Writes pairs of zones, and returns their canonical texts."""
        chance, found = random.Random(20261201), []
        for _ in range(40):
            self.write("a", self.zone(chance, 1))
            self.write("b", self.zone(chance, chance.choice([1, 9])))
            texts = [ran("normalise", it).out for it in ("a", "b")]
            self.assertTrue(all(texts))
            found.append((texts[0], texts[1]))
        return found

    def test_a_patch_makes_one_the_other(self) -> None:
        for number, (a, b) in enumerate(self.pairs()):
            with self.subTest(number):
                self.write("one", a)
                self.write("two", b)
                it = ran("diff", "--format=patch", "one", "two")
                wanted = subprocess.run(["diff", "-u", "--label", "one", "--label", "two", "one", "two"], capture_output=True, text=True)
                self.assertEqual((it.status, it.out), (int(a != b), wanted.stdout))
                presented = ran("diff", "-p", "--format=patch", "one", "two").out
                self.assertEqual(presented.count("\n"), it.out.count("\n"))
                self.assertNotIn("TYPE257", presented)

    def test_texts_and_objects_count_the_same(self) -> None:
        for a, b in self.pairs():
            self.write("one", a)
            self.write("two", b)
            it = json.loads(ran("diff", "--json", "one", "two").out)
            lines, others = set(a.splitlines()), set(b.splitlines())
            self.assertEqual((it["a"]["only"], it["b"]["only"]), (len(lines - others), len(others - lines)))


class Updates(InFolder):
    def test_parts(self) -> None:
        self.write("a", HEAD)
        self.write("b", HEAD.replace(" 1 ", " 9 ") + "".join(f"w{it} TXT {'x' * 200}\n" for it in range(400)))
        text = ran("diff", "--format=nsupdate", "a", "b").out
        parts = [f"{it}send\n" for it in text.split("send\n")[:-1]]
        self.assertEqual([len(it) <= 64_000 and it.startswith("zone x.\n") for it in parts], [True, True])
        os.mkdir("d")
        self.assertEqual(ran("diff", "--format=nsupdate", "--parts", "d", "a", "b"), Ran(1, "", ""))
        self.assertEqual([Path("d", it).read_text() for it in ("0001", "0002")], parts)

    def test_a_serial_that_is_passed_is_left_out(self) -> None:
        self.write("a", HEAD)
        self.write("b", HEAD + "w A 192.0.2.1\n")
        self.write("c", HEAD.replace(" h ", " i "))
        self.assertEqual(ran("diff", "--format=nsupdate", "a", "b").err, "")
        self.assertEqual(ran("diff", "--format=nsupdate", "a", "c").err,
                         "zonectl: the SOA is left out: its serial 1 isn't above 1, which the server has by then\n")

    def test_what_belongs_together_and_does_not_fit(self) -> None:
        self.write("a", HEAD + "w CNAME n\n")
        self.write("b", HEAD + "".join(f"w TXT {'x' * 200}{it}\n" for it in range(400)))
        self.assert_failed(ran("diff", "--format=nsupdate", "a", "b"), 4, "zonectl: no message holds what changes at once: w.x.")


class Folding(unittest.TestCase):
    def test_data(self) -> None:
        name = b"\1A\1B\0"
        low = name.lower()
        for number, before, after, folds in (
            (39, b"", b"", True), (39, b"", b"X", False), (17, name, b"", True), (17, b"", b"", False), (46, b"A" * 18, b"SIG", True),
            (36, b"AA", b"", True), (66, b"AAAAA", b"", True), (65, b"AA", b"\0\1AB", True), (45, b"A\3A", b"KEY", True),
            (45, b"A\1A", b"KEY", False), (260, b"A\x83", b"", True), (260, b"A\x81", b"", False), (38, b"\x80A", b"", False),
            (38, b"\x80", b"", True), (38, b"\x78A", b"", True), (38, b"\0" + b"A" * 16, b"", False), (55, b"\1\2\0\1AK", b"", True),
            (55, b"\1\2\0\1AK", name, True), (257, b"", b"", False), (58, name, b"", True),
        ):
            data = before + name + after
            wanted = (before.lower() if number in (17, 58) else before) + low + (after.lower() if number == 55 else after)
            with self.subTest(number=number, data=data):
                self.assertEqual(folding.folded_data(number, data), wanted if folds else data)

    def test_lines_that_are_no_generic_data(self) -> None:
        for line in (b"x. 1 IN A 192.0.2.1", b"x. 1 IN TYPE39 \\# 0", b'x. 1 IN TXT "a 1 IN TYPE39 \\# 1 ff"'):
            self.assertEqual(folding.folded(line), line)


class Texts(InFolder):
    def test_normalise(self) -> None:
        self.write("a", HEAD + "w KX 1 B.X.\nw KX 1 a.x.\nw KX 1 A.X.\nw CAA 0 issue a\n")
        self.assertEqual([it.split(" ", 4)[4] for it in ran("normalise", "--fold", "a").out.splitlines()[2:]],
                         ["\\# 7 00010161017800", "\\# 7 00010162017800", "\\# 8 0005697373756561"])
        self.assertEqual(ran("normalise", "-p", "a").out.splitlines()[-1], 'w.x. 60 IN CAA 0 issue "a"')
        self.write("b", ran("normalise", "-p", "a").out)
        self.assertEqual(ran("normalise", "a").out, ran("normalise", "b").out)
        it = json.loads(ran("normalise", "--json", "a").out)
        self.assertEqual((it["format"], it["zone"], it["class"], it["serial"], len(it["records"])), ("zonectl-normalise/1", "x.", "IN", 1, 6))
        self.assertEqual(it["records"][-1], {"owner": "w.x.", "ttl": 60, "class": "IN", "type": "CAA", "rdata": '0 issue "a"'})

    def test_folders(self) -> None:
        self.write("a", SMALL)
        self.write("b", SMALL.replace("x.", "0/25.x.").replace(" 1 ", " 7 "))
        self.write("c", SMALL.replace("$ORIGIN x.", "$ORIGIN ."))
        os.mkdir("d")
        self.assertEqual(ran("normalise", "--output-dir", "d", "a", "b", "c"), Ran(0, "", ""))
        self.assertEqual(sorted(os.listdir("d")), ["0_25.x.zone", "root.zone", "x.zone"])
        os.mkdir("e")
        self.assertEqual(ran("normalise", "--archive", "e", "a", "b"), Ran(0, "", ""))
        self.assertEqual(sorted(os.listdir("e")), ["0_25.x.7", "x.1"])
        kept = Path("e/x.1").read_bytes()
        self.write("a", SMALL + "w 60 A 192.0.2.1\n")
        it = ran("normalise", "--archive", "e", "none", "a", "b")
        self.assertEqual((it.status, it.out), (4, "x.: DIFFERENT UNDER ONE SERIAL 1\n"))
        self.assertEqual(Path("e/x.1").read_bytes(), kept)
        self.assertEqual(ran("normalise", "--archive", "e", "a").status, 1)
        self.assertEqual(ran("normalise", "--output-dir", "d", "a", "a").status, 4)

    def test_textconv(self) -> None:
        self.write("a", SMALL)
        self.assertEqual(ran("normalise", "--textconv", "a").out, ran("normalise", "-p", "a").out)
        self.write("b", b"no zone\xff\n")
        it = run_alone("normalise", "--textconv", "b")
        self.assertEqual((it.status, it.out.encode("utf-8", "surrogateescape")), (0, b"no zone\xff\n"))
        self.assertEqual(ran("normalise", "--textconv", "none").status, 4)

    def test_sums(self) -> None:
        self.write("a\\ b", SMALL)
        it = ran("sum", "a\\ b")
        self.assertTrue(it.out.endswith(" canonical-1 1 x. a\\x5c b\n"))
        self.write("S", "# a comment\n\n" + it.out)
        self.assertEqual(ran("sum", "--check", "S"), Ran(0, "a\\x5c b: same\n", ""))
        self.write("a\\ b", SMALL.replace(" 1 2", " 3 2"))
        self.assertEqual(ran("sum", "--check", "S"), Ran(1, "a\\x5c b: different: serial 3, was 1\n", ""))
        self.write("a\\ b", SMALL + "w 60 A 192.0.2.1\n")
        self.assertEqual(ran("sum", "--check", "S"), Ran(1, "a\\x5c b: DIFFERENT UNDER ONE SERIAL 1\n", ""))
        found = json.loads(ran("sum", "--json", "a\\ b").out)
        self.assertEqual(list(found["sums"][0]), ["source", "zone", "serial", "records", "canonical", "sha256"])
        self.write("T", it.out.replace("canonical-1", "canonical-9"))
        self.assert_failed(ran("sum", "--check", "T"), 4, "zonectl: T:1: the text canonical-9 isn't one that this version writes")
        self.write("U", "x\n")
        self.assert_failed(ran("sum", "--check", "U"), 4, "zonectl: U:1: it isn't a line of zonectl sum")
        self.assertEqual(ran("sum", "none", "a\\ b").status, 4)
        many = [self.write(f"m{number}", SMALL.replace(" 1 2", f" {number} 2")) for number in range(40)]
        for jobs in ("1", "3", "40"):
            it = ran("sum", "-j", jobs, *many, "none")
            self.assertEqual([line.split(" ")[2] for line in it.out.splitlines()], [str(number) for number in range(40)])
            self.assertEqual(it.err, "zonectl: none: it can't be read: no such file or directory\n")
        self.assertEqual(ran("sum", "none", "a\\ b").out.count("\n"), 1)

    def test_a_fold_is_another_text(self) -> None:
        self.write("a", HEAD + "w KX 1 A.X.\n")
        self.write("b", HEAD + "w KX 1 a.x.\n")
        folded = ran("sum", "--fold", "a", "b").out.splitlines()
        self.assertEqual(folded[0].split()[0], folded[1].split()[0])
        self.assertEqual(folded[0].split()[1], "canonical-1-folded")


class Files(InFolder):
    def setUp(self) -> None:
        super().setUp()
        self.write("a", SMALL)

    def test_a_file_is_whole_or_not_there(self) -> None:
        self.write("out", "old")
        (self.folder / "out").chmod(0o640)
        os.symlink("out", "link")
        self.assertEqual(ran("normalise", "-o", "link", "a"), Ran(0, "", ""))
        self.assertEqual((Path("out").read_text(), Path("out").stat().st_mode & 0o777), (ran("normalise", "a").out, 0o640))
        self.assertTrue(Path("link").is_symlink())
        self.write("bad", "x")
        self.assertEqual(ran("normalise", "-o", "out", "-O", "x", "bad").status, 3)
        self.assertEqual(Path("out").read_text(), ran("normalise", "a").out)
        self.assertEqual(sorted(os.listdir()), ["a", "bad", "link", "out"])
        mask = os.umask(0o027)
        try:
            ran("normalise", "-o", "new", "a")
        finally:
            os.umask(mask)
        self.assertEqual(Path("new").stat().st_mode & 0o777, 0o640)

    def test_what_cannot_be_written(self) -> None:
        self.assert_failed(ran("normalise", "-o", "none/out", "a"), 4, "zonectl: none/out: it can't be written: no such file or directory")
        self.assert_failed(ran("normalise", "-o", "/dev/full", "a"), 4, "zonectl: /dev/full: it can't be written: no space left on device")
        for words in (["normalise", "a"], ["normalise", "--json", "a"], ["sum", "a"]):
            with open("/dev/full", "w") as out:
                it = subprocess.run(command(*words), stdout=out, stderr=subprocess.PIPE, env=environment(), text=True)
            self.assertEqual((it.returncode, it.stderr), (4, "zonectl: standard output can't be written: no space left on device\n"))

        def limited() -> None:
            resource.setrlimit(resource.RLIMIT_FSIZE, (40, 40))

        self.write("out", "old")
        it = subprocess.run(command("normalise", "-o", "out", "a"), stderr=subprocess.PIPE, env=environment(), text=True,
                            preexec_fn=limited)
        self.assertEqual((it.returncode, it.stderr), (4, "zonectl: out: it can't be written: file too large\n"))
        self.assertEqual((Path("out").read_text(), sorted(os.listdir())), ("old", ["a", "out"]))

    def test_an_output_that_nobody_reads(self) -> None:
        self.write("big", HEAD + "".join(f"w{it} A 192.0.2.1\n" for it in range(20000)))
        it = subprocess.run(["sh", "-c", '"$@" | head -n 1; exit', "sh", *command("normalise", "big")], capture_output=True,
                            env=environment(), text=True)
        self.assertEqual((it.stdout.count("\n"), it.stderr), (1, ""))

    def test_closed_outputs(self) -> None:
        for redirection, status, err in ((">&-", 4, "zonectl: standard output is closed\n"), ("2>&-", 0, ""), (">&- 2>&-", 4, "")):
            it = subprocess.run(["sh", "-c", f'"$@" {redirection}', "sh", *command("sum", "a")], capture_output=True, env=environment(),
                                text=True)
            self.assertEqual((it.returncode, it.stderr), (status, err))

    def test_hostile_names(self) -> None:
        for name, shown in (("\x1b[31mred", "\\x1b[31mred"), ("a\nb", "a\\x0ab"), ("\u202ex", "\\xe2\\x80\\xaex"), ("<script>", "<script>")):
            with self.subTest(name):
                self.write(name, "x")
                it = ran("normalise", name)
                self.assertEqual(it.err, f"zonectl: {shown}: neither its name nor its text says which zone it is; give --origin NAME\n")
                self.write(name, SMALL)
                for words in (["diff", name, "a"], ["sum", name], ["diff", "--format=github", name, "a"],
                              ["diff", "-i", "A", "--format=patch", name, "a"]):
                    out = ran(*words).out
                    self.assertFalse(set(out) & set("\x1b\u202e\r"), out)
        it = run_alone("normalise", os.fsdecode(b"\xff"))
        self.assertEqual(it.err, "zonectl: \\xff: it can't be read: no such file or directory\n")
        self.write("\xfc", SMALL.replace("@ 60 NS n", "@ 61 NS m"))
        self.assertIn("--- \\xc3\\xbc: serial", run_alone("diff", "\xfc", "a", LC_ALL="C", PYTHONIOENCODING="ascii:strict",
                                                         PYTHONCOERCECLOCALE="0", PYTHONUTF8="0").out)

    def test_no_traceback(self) -> None:
        it = run_alone("sum", "a", ZONENORM_LIBRARY="/none")
        self.assertEqual((it.status, it.err.count("\n")), (4, 1))
        self.assertRegex(it.err, r"^zonectl: libzonenorm can't be loaded: .*; the module zonenorm 0\.1\.0 or later .* needed\n$")
        self.assertEqual(run_alone("--version", ZONENORM_LIBRARY="/none").status, 4)
        self.assertEqual(run_alone("--help", ZONENORM_LIBRARY="/none").status, 0)


class Schemas(InFolder):
    """The JSON of each command is as its schema has it."""

    def setUp(self) -> None:
        super().setUp()
        self.write("a", SMALL)
        self.write("b", SMALL.replace(" 1 ", " 2 ") + "w 60 RRSIG A 13 2 60 20260101000000 20250101000000 1 x. AAAA\nw 60 A 192.0.2.1\n")

    def test_each(self) -> None:
        see(self, "diff", "diff", "--json", "a", "b")
        see(self, "diff", "diff", "--format=json", "a", "a")
        see(self, "diff", "diff", "--json", "-i", "serial,A,dnssec", "a", "b")
        see(self, "sum", "sum", "--json", "a", "none", "b")
        see(self, "normalise", "normalise", "--json", "b")
        self.write("S", ran("sum", "a").out)
        self.assertEqual(see(self, "sum", "sum", "--json", "--check", "S")["sums"][0]["result"], "same")
        self.write("a", SMALL + "w 60 A 192.0.2.1\n")
        self.assertEqual(see(self, "sum", "sum", "--json", "--check", "S")["sums"][0]["result"], "one-serial")
        self.write("a", SMALL.replace(" 1 ", " 7 "))
        self.assertEqual(see(self, "sum", "sum", "--json", "--check", "S")["sums"][0]["result"], "different")
        with serving(sends((EXAMPLES / "example.axfr").read_bytes())) as server:
            see(self, "fetch", "fetch", "--json", "-o", "sent", f"axfr://127.0.0.1:{server.port}/example")
        self.assertEqual(see(self, "error", "normalise", "--json", "none")["source"], "none")
        self.write("c", SMALL + "n 61 A 192.0.2.2\n")
        self.assertEqual(see(self, "error", "diff", "--json", "a", "c")["line"], 5)
        see(self, "error", "diff", "--json")
        see(self, "error", "x", "--json")
