"""What zonectl check and zonectl zonemd print: which files, faults, lint, annotations, JSON, digests."""
from __future__ import annotations

import dataclasses
import hashlib
import json
import os
import re
import shutil
import struct
import subprocess
import unittest
from pathlib import Path

from zonectl_support import SMALL, InFolder, Ran, environment, ran, run_alone, see

from zonectl import entries, faults, lint

TOP = Path(__file__).resolve().parents[2]
BASE = "$TTL 1h\n@ SOA ns1 h 1 7200 900 1209600 300\n@ NS ns1\nns1 A 192.0.2.1\n"
GOOD = "1 file: 1 good, 0 bad; 0 included, 0 skipped\n"
BAD = "1 file: 0 good, 1 bad; 0 included, 0 skipped\n"
FAULTY = SMALL + "w 60 A 192.0.2.1.1\n"


def git(*words: str) -> None:
    """Runs git."""
    subprocess.run(["git", *words], check=True, env=environment(GIT_CONFIG_GLOBAL=os.devnull), capture_output=True)


class Which(InFolder):
    """Which files are checked."""

    def setUp(self) -> None:
        super().setUp()
        self.write("x.zone", SMALL)
        self.write("in/db.x", SMALL)
        self.write("in/any name", SMALL)
        self.write("in/x.db", SMALL)
        self.write("in/notes", "no entry has the type SOA\n; x. SOA\n")
        self.write("in/far", ";" * 70_000 + "\n" + SMALL)

    def checked(self, *words: str) -> tuple[list[str], str]:
        """Returns the files that were checked, by a fault that each of them gets, and the last line."""
        for path in ("x.zone", "in/db.x", "in/any name", "in/x.db", "in/far"):
            Path(path).write_text(Path(path).read_text().replace("192.0.2.1\n", "192.0.2\n"))
        it = ran("check", *words)
        return [one.partition(":")[0] for one in it.out.splitlines()[::2]], it.err.splitlines()[-1]

    def test_a_folder_outside_a_repository(self) -> None:
        self.write(".git/x.zone", SMALL)
        self.write("in/.git/x.zone", SMALL)
        wanted = ["in/any name", "in/db.x", "in/x.db", "x.zone"]
        self.assertEqual(self.checked(), (wanted, "4 files: 0 good, 4 bad; 0 included, 2 skipped"))
        self.assertEqual(self.checked("in"), (wanted[:3], "3 files: 0 good, 3 bad; 0 included, 2 skipped"))
        self.assertEqual(self.checked("in/", "x.zone", "in/far")[0], [*wanted[:3], "x.zone", "in/far"])
        self.assertEqual(self.checked("in", "in/db.x")[1], "3 files: 0 good, 3 bad; 0 included, 2 skipped")

    def test_a_repository(self) -> None:
        git("init", "-q")
        git("add", "x.zone", "in/notes", "in/db.x")
        os.remove("x.zone")
        self.write("x.zone", SMALL)
        self.assertEqual(self.checked(), (["in/db.x", "x.zone"], "2 files: 0 good, 2 bad; 0 included, 1 skipped"))
        os.remove("x.zone")
        self.assertEqual(ran("check").err.splitlines()[-1], "1 file: 0 good, 1 bad; 0 included, 1 skipped")
        os.chdir("in")
        self.assertEqual(ran("check").out.splitlines()[0], "db.x:4: F9 BadRdata: the data doesn't fit its type")

    def test_gzip_and_names(self) -> None:
        self.write("z/a.example.zone.gz", b"\x1f\x8b\x08")
        self.assertEqual(ran("check", "z").err, f"zonectl: z/a.example.zone.gz: the gzip file is cut off\n{BAD}")
        self.assertEqual(ran("check", "z").status, 3)

    def test_nothing_is_an_error(self) -> None:
        self.write("none/a", "x")
        self.write("none/b/c", "x")
        wanted = Ran(4, "", "zonectl: no zone file found below none: 2 files skipped\n")
        self.assertEqual(ran("check", "none"), wanted)
        self.assertEqual(ran("check", "-q", "none"), wanted)
        os.mkdir("empty")
        self.assertEqual(ran("check", "empty", "none").err, "zonectl: no zone file found below empty and none: 2 files skipped\n")
        self.assertEqual(ran("check", "nowhere"), Ran(4, "", f"zonectl: nowhere: it can't be read: no such file or directory\n{BAD}"))
        self.assertEqual(ran("check", "file:in").err, f"zonectl: file:in: it is a folder\n{BAD}")

    def test_staged(self) -> None:
        git("init", "-q")
        self.assertEqual(ran("check", "--staged"), Ran(0, "", "zonectl: no zone file is staged: 0 files skipped\n"))
        git("add", "in/notes")
        self.assertEqual(ran("check", "--staged"), Ran(0, "", "zonectl: no zone file is staged: 1 file skipped\n"))
        self.write("in/any name", FAULTY)
        git("add", ".")
        self.write("in/any name", SMALL)
        it = ran("check", "--staged")
        self.assertEqual((it.status, it.out), (
            3, "in/any name:5: F9 BadRdata: the data doesn't fit its type\n    5 | w 60 A 192.0.2.1.1\n"))
        self.assertEqual(it.err, "4 files: 3 good, 1 bad; 0 included, 2 skipped\n")
        os.chdir("in")
        self.assertEqual(ran("check", "--staged", "--format=github").out,
                         "::error file=in/any name,line=5,title=F9 BadRdata::the data doesn't fit its type\n")
        self.assertEqual(ran("check", "--staged", "x.db").err, GOOD)
        os.chdir("..")
        os.remove("x.zone")
        git("-c", "user.name=a", "-c", "user.email=a@b", "commit", "-qm", "x")
        git("add", ".")
        self.assertEqual(ran("check", "--staged", "x.zone").err, "zonectl: no zone file is staged: 0 files skipped\n")
        self.write("in/db.x", FAULTY)
        git("add", ".")
        self.assertEqual(ran("check", "--staged").out.splitlines()[0], "in/db.x:5: F9 BadRdata: the data doesn't fit its type")

    def test_a_list(self) -> None:
        self.write("relative", SMALL.replace("$ORIGIN x.\n", ""))
        self.write("L", "# zones\n\na.example relative\nB.example.  relative\n")
        it = ran("check", "--list", "L", "--no-lint")
        self.assertEqual(it, Ran(0, "", "2 files: 2 good, 0 bad; 0 included, 0 skipped\n"))
        it = run_alone("check", "--list", "-", given=b"a.example x.zone\n")
        self.assertEqual((it.status, it.err), (0, f"zonectl: x.zone: its SOA record is that of x., not of a.example.\n{GOOD}"))
        for text, err in (("a..b relative\n", "L:1: not a domain name: a..b"), ("\na\n", "L:2: a source is empty; standard input is -"),
                          ("# none\n", "the list is empty")):
            self.write("L", text)
            self.assert_failed(ran("check", "--list", "L"), 4, f"zonectl: {err}")
        self.assert_failed(ran("check", "--list", "M"), 4, "zonectl: M: it can't be read: no such file or directory")

    def test_usage(self) -> None:
        for words in (["--list", "L", "x.zone"], ["--list", "L", "--staged"], ["--lint=x"], ["--lint", "--no-lint"], ["--max-faults=0"],
                      ["--json", "--format=github"], ["-O", "x", "x.zone", "in/db.x"], ["-", "-"], ["--lin"]):
            with self.subTest(words):
                it = ran("check", *words)
                self.assertEqual((it.status, it.err.count("\n")), (2, 1), it.err)
        self.assertEqual(ran("check", "--lint", "x.zone").status, 0)  # the option takes no operand


class Faults(InFolder):
    def test_statuses_and_outputs(self) -> None:
        self.write("good", SMALL)
        self.write("bad", FAULTY)
        self.write("lost", "x")
        wanted = "bad:5: F9 BadRdata: the data doesn't fit its type\n    5 | w 60 A 192.0.2.1.1\n"
        self.assertEqual(ran("check", "good"), Ran(0, "", GOOD))
        self.assertEqual(ran("check", "-q", "good"), Ran(0, "", ""))
        self.assertEqual(ran("check", "good", "bad"), Ran(3, wanted, "2 files: 1 good, 1 bad; 0 included, 0 skipped\n"))
        self.assertEqual(ran("check", "-q", "bad"), Ran(3, wanted, BAD))
        it = ran("check", "bad", "lost")
        self.assertEqual((it.status, it.out), (4, wanted))
        self.assertEqual(it.err.splitlines()[0], "zonectl: lost: neither its name nor its text says which zone it is; give --origin NAME")
        self.assertEqual(ran("check", "-o", "out", "bad").out, "")
        self.assertEqual(Path("out").read_text(), wanted)
        it = run_alone("check", "-", given=FAULTY.encode())
        self.assertEqual(it.out, wanted.replace("bad", "-"))

    def test_source_lines(self) -> None:
        self.write("a", SMALL.encode() + b"w\t60 A\t192.0.2\t; \xc3\xbc\xff\x1b[31m\r\n")
        self.assertEqual(ran("check", "a").out.splitlines()[1], "    5 | w       60 A    192.0.2 ; \xfc\\xff\\x1b[31m")
        self.write("a", SMALL + "w 60 A " + "1" * 300 + "\n")
        self.assertEqual(ran("check", "a").out.splitlines()[1], "    5 | w 60 A " + "1" * 193)

    def test_faults_of_the_whole_file(self) -> None:
        for text, line in ((SMALL + "\n\nw.y. ( 60\n) A 192.0.2.1\nv.y. 60 A 192.0.2.1\n\tTXT a\n", "9: F43 OutOfZone"),
                           ("; nothing\n@ 60 NS n\n", "1: F42 NoSoa")):
            self.write("a", text.replace("v.y.", "z") if "F42" in line else text)
            it = ran("check", "-O", "x", "a")
            self.assertEqual((it.status, it.out.partition(": an")[0].partition(": the")[0]), (3, f"a:{line}"), it.out)

    def test_a_field_and_its_type(self) -> None:
        self.write("a", SMALL + "w 60 CAA 0 issue\n")
        self.assertEqual(ran("check", "a").out, "a:5: F9 BadRdata: CAA, value: nothing left\n    5 | w 60 CAA 0 issue\n")
        found = json.loads(ran("check", "--json", "a").out)["findings"]
        self.assertEqual([found[0][it] for it in ("fault", "name", "type", "field", "item", "text", "line", "level", "rule")],
                         [9, "BadRdata", "CAA", "value", None, "nothing left", 5, "error", None])

    def test_notes_where_servers_differ(self) -> None:
        for text, wanted in (
            ("n 61 A 192.0.2.2", "F41 DifferingTtl: the TTL differs from that of its record set "
             "(BIND, NSD and Knot load the zone and pick one TTL)"),
            (f"n 60 TXT {'a' * 256}", "F11 StringTooLong: a character-string has more than 255 octets "
             "(BIND and NSD refuse the zone, Knot loads it)"),
            ("n 60 A 192.0.2", "F9 BadRdata: the data doesn't fit its type"),
        ):
            self.write("a", f"{SMALL}{text}\n")
            self.assertEqual(ran("check", "a").out.splitlines()[0], f"a:5: {wanted}")
        fault = faults.Finding(file="a", line=1, fault=21, name="BadTtl", text="the TTL is malformed or out of range", item="2147483648")
        self.assertTrue(fault.body.endswith(': "2147483648" (BIND, NSD and Knot load the zone, BIND with the TTL 0)'))
        self.assertTrue(dataclasses.replace(fault, item="1x").body.endswith(': "1x"'))

    def test_a_refused_transfer(self) -> None:
        name = self.example("refused-cut-off.axfr")
        it = ran("check", name)
        self.assertEqual((it.status, it.out, it.err.count("\n")), (3, "", 2))
        self.assertTrue(it.err.startswith(f"zonectl: {name}: F"), it.err)

    def test_annotations(self) -> None:
        git("init", "-q")
        self.write("in/a,b:%c\n.zone", FAULTY)
        git("add", ".")
        os.chdir("in")
        self.assertEqual(ran("check", "--format=github").out,
                         "::error file=in/a%2Cb%3A%25c\\x0a.zone,line=5,title=F9 BadRdata::the data doesn't fit its type\n")
        self.assertEqual(ran("check").out.splitlines()[0], "a,b:%c\\x0a.zone:5: F9 BadRdata: the data doesn't fit its type")
        self.assertEqual(ran("check", "--format=github", "../in/w.zone").out, "")
        self.write("in/w.zone", SMALL + "@ 60 MX 1 n%\n")
        it = ran("check", "--format=github", "--lint=bind", "w.zone")
        self.assertEqual(it.out, "::error file=in/w.zone,line=5,title=host-name::x.: the mail server n%25.x. isn't a host name "
                                 "(refused by BIND)\n::warning file=in/w.zone,line=5,title=mx-no-address::x.: "
                                 "the mail server n%25.x. has no address (a warning of BIND)\n")

    def test_json(self) -> None:
        self.write("a", SMALL + "w 60 A 192.0.2.2\nw 60 CNAME n\n")
        self.write("b", FAULTY)
        found = see(self, "check", "check", "--json", "a", "b")
        self.assertEqual(found["files"], {"read": 2, "good": 0, "bad": 2, "included": 0, "skipped": 0})
        self.assertEqual([(it["file"], it["line"], it["rule"], it["servers"]) for it in found["findings"]],
                         [("a", 6, "cname-and-other", ["BIND", "NSD", "Knot"]), ("b", 5, None, [])])
        self.assertEqual(see(self, "check", "check", "--format=json", self.write("c", SMALL))["findings"], [])
        found = see(self, "check", "check", "--json", "--lint", "a", self.example("example.axfr"))
        self.assertEqual({it["line"] for it in found["findings"] if it["file"] == "example.axfr"} - {None}, set())

    def test_many(self) -> None:
        self.write("a", SMALL + "".join(f"w{it} 60 MX 1 {it}_\n" for it in range(30)))
        it = ran("check", "--lint=bind", "a")
        self.assertEqual((it.status, it.out.count("\n")), (3, 40))
        self.assertEqual(it.err, f"zonectl: a: more faults (--max-faults)\n{BAD}")
        it = ran("check", "--lint=bind", "--max-faults=60", "a")
        self.assertEqual((it.out.count("\n"), it.err), (120, BAD))
        names = [self.write(f"m{it}", FAULTY if it % 3 else SMALL) for it in range(40)]
        for jobs in ("1", "7"):
            it = ran("check", "-j", jobs, *names)
            self.assertEqual([one.split(":")[0] for one in it.out.splitlines()[::2]], [f"m{it}" for it in range(40) if it % 3])
            self.assertEqual(it.err, "40 files: 14 good, 26 bad; 0 included, 0 skipped\n")


# A zone, and what lint finds with the line; R, w and - are what BIND, NSD and Knot do (k as w), as the table of rules has them.
CASES: tuple[tuple[str, str, str], ...] = (
    ("w CNAME ns1\nw A 192.0.2.2", "6 cname-and-other", "RRR"), ("w A 192.0.2.2\nw CNAME ns1", "6 cname-and-other", "RRR"),
    ("w CNAME ns1\nw CNAME n2\nn2 A 192.0.2.3", "6 cname-twice", "RRR"), ("@ CNAME ns1.other.test.", "5 cname-at-apex", "RRR"),
    ("d DNAME x.test.\nd DNAME y.test.", "6 dname-twice", "RRR"), ("w A 192.0.2.010", "5 ipv4-leading-zero", "RRR"),
    ("@ NS ns9", "5 ns-no-address", "R-w"), ("@ NS ns9\nns9 CNAME ns1", "5 ns-is-cname", "R-w"), ("a_b A 192.0.2.2", "5 host-name", "R--"),
    ("a_b AAAA ::1", "5 host-name", "R--"), ("a_b MX 1 ns1", "5 host-name", "R--"), ("w NS a_b.test.", "5 host-name", "R--"),
    ("@ MX 1 a_b.test.", "5 host-name", "R--"), ("w SRV 0 0 1 a_b.test.", "5 host-name", "R--"),
    ("a\\032b A 192.0.2.2", "5 host-name", "R--"), ("-a A 192.0.2.2", "5 host-name", "R--"),
    ("@ DS 1 13 2 " + "49FD" * 16, "5 ds-at-apex", "R--"), ("* NS ns1", "5 wildcard-ns", "R--"),
    ("s NS ns1\ns DS 1 13 2 49FD", "6 ds-digest-length", "R-w"), ("w SSHFP 1 1 1234", "5 sshfp-length", "Rw-"),
    ("w SSHFP 1 2 " + "ab" * 20, "5 sshfp-length", "Rw-"), ("d DNAME x.test.\nw.d TXT a", "6 below-dname", "-RR"),
    ("@ SOA ns1 h 1 7200 900 1209600 300", "5 soa-repeated", "-R-"), ("w TXT a\r", "5 carriage-return", "--R"),
    ('w TXT "b\xfcr"', "5 non-ascii", "--R"), ("b\xfcr TXT a", "5 non-ascii", "--R"), ("sub NS ns1.sub", "5 missing-glue", "w-w"),
    ("@ MX 10 m\nm CNAME ns1", "5 mx-is-cname", "w--"), ("@ MX 10 m", "5 mx-no-address", "w--"),
    ("@ MX 10 192.0.2.1.", "5 mx-address", "w--"), ("_x._tcp SRV 0 0 1 m\nm CNAME ns1", "5 srv-is-cname", "w--"),
    ("sub NS 192.0.2.1.", "5 ns-address", "w--"), ("sub NS 192.0.2.1", "5 ns-address", "w--"),
    ("s NS ns.t", "5 missing-glue", "w-w"),
)
GOOD_CASES = (
    "", "w CNAME ns1\nw NSEC z A", "w CNAME ns1", "*.a A 192.0.2.2", "_a TXT a", "w PTR a_b", "gc._msdcs A 192.0.2.2", "@ MX 0 .",
    "@ MX 1 a.w\n*.w A 192.0.2.2", "@ NS ns2.w\nw NS ns1", "s NS ns.s\nns.s AAAA ::1", "d DNAME x.test.", "; b\xfcr",
    "ns1 A 192.0.2.1", "w A 0.0.0.0", "w TXT 010", "w TXT a ; x\r", "s NS ns1\ns DS 1 13 2 " + "49FD" * 16, "w MX 1 n.other.test.",
    "w A 192.0.2.2\n A 192.0.2.3\n ( A ) 192.0.2.4", "w HTTPS 1 . alpn=h2", "w SSHFP 1 1 " + "ab" * 20, "w.sub TXT a\nsub NS ns1",
)
LEVELS = {"error": "R", "warning": "w"}


class Lint(InFolder):
    def found(self, text: str | bytes, *words: str) -> list[tuple[str, str, list[str]]]:
        """Returns line and rule, level and servers of what lint finds."""
        self.write("z", text if isinstance(text, bytes) else text.encode("latin-1"))
        findings = json.loads(ran("check", "--json", "-O", "z.test", *words, "z").out)["findings"]
        self.assertEqual([it for it in findings if it["fault"]], [])
        return [(f"{it['line']} {it['rule']}", it["level"], it["servers"]) for it in findings]

    def see(self, text: str | bytes, wanted: str, does: str) -> None:
        """Sees what is found for each server alone, for all, and without the option."""
        for server, letter in zip(lint.SERVERS, does):
            found = {it: level for it, level, _ in self.found(text, f"--lint={server.lower()}")}
            self.assertEqual(LEVELS.get(found.get(wanted, ""), "-"), letter, (text, server))
        levels = {it: (level, servers) for it, level, servers in self.found(text, "--lint")}
        level = "error" if "R" in does else "warning"
        by = [server for server, letter in zip(lint.SERVERS, does) if letter == LEVELS[level]]
        self.assertEqual(levels[wanted], (level, by))
        self.assertEqual([it for it, _, _ in self.found(text)], [wanted] if does == "RRR" else [], text)
        self.assertEqual([it for it, _, _ in self.found(text, "--no-lint")], [wanted] if "mark" in wanted else [])
        self.assertEqual({level for _, level, _ in self.found(text, "--lint", "--strict")}, {"error"})

    def test_each_rule(self) -> None:
        for lines, wanted, does in CASES:
            with self.subTest(lines):
                self.see(f"{BASE}{lines}\n", wanted, does)
        self.see(BASE.replace("@ NS ns1\n", ""), "2 no-apex-ns", "R-w")
        self.see(BASE.replace("SOA ns1", "SOA n_1"), "2 host-name", "R--")
        self.see(b"\xef\xbb\xbf" + BASE.encode(), "1 byte-order-mark", "RRR")
        self.see(BASE + "b\xfcr A 192.0.2.2\n", "5 non-ascii", "R-R")
        self.assertEqual({it.split()[1] for _, it, _ in CASES} | {"no-apex-ns", "byte-order-mark", "non-ascii-host"}, set(lint.RULES))

    def test_zones_that_all_servers_load(self) -> None:
        for lines in GOOD_CASES:
            with self.subTest(lines):
                self.assertEqual(self.found(f"{BASE}{lines}\n", "--lint"), [])

    @unittest.skipUnless((TOP / "docs").is_dir(), "the documents aren't beside the tests")
    def test_the_page_has_the_rules(self) -> None:
        page = (TOP / "docs/zonectl.1").read_text().replace("\\-", "-")
        rows = re.findall(r"^([a-z0-9-]+) +([Rw-]) +([Rw-]) +([Rw-])$", page, re.M)
        self.assertEqual({rule: "".join(does) for rule, *does in rows}, lint.RULES)

    def test_places(self) -> None:
        text = BASE + "$ORIGIN w.z.test.\n\n@ ( CNAME\n ns1 ) ; x\n$ORIGIN z.test.\nv A 192.0.2.3\nw ( 3600\n A ) 192.0.2.9\n" \
            "\tA 192.0.2.8\nw A 192.0.2.9\n"
        self.assertEqual(self.found(text), [("13 cname-and-other", "error", list(lint.SERVERS))])
        self.write("z", BASE + "w 60 A 192.0.2.2\nw CNAME n\nw 60 A 192.0.2.2\n")
        self.assertEqual(ran("check", "-O", "z.test", "z").out.splitlines(), [
            "z:6: cname-and-other: w.z.test.: a CNAME has other data beside it (refused by BIND, NSD, Knot)", "    6 | w CNAME n"])

    def test_other_apexes(self) -> None:
        self.write("z", "a.test. 60 SOA n h 1 2 3 4 5\n@ 60 NS n\nn 60 A 192.0.2.1\n".replace("a.test.", "@"))
        self.assertEqual(ran("check", "--lint", "-O", ".", "z").out, "")
        self.write("z", "@ 60 CH SOA n h 1 2 3 4 5\nw 60 CH CNAME n\nw 60 CH TXT a\n")
        self.assertEqual(ran("check", "--lint", "-O", "z.test", "z").out, "")

    @unittest.skipUnless(shutil.which("named-checkzone") and shutil.which("kzonecheck"), "no checkers of BIND and Knot")
    def test_the_checkers_of_bind_and_knot_agree(self) -> None:
        for lines in (*(it for it, _, _ in CASES), *GOOD_CASES):
            with self.subTest(lines):
                found = self.found(f"{BASE}{lines}\n", "--lint")
                for server, words in (("BIND", "named-checkzone -k fail z.test z"), ("Knot", "kzonecheck -o z.test. z")):
                    refused = subprocess.run(words.split(), capture_output=True).returncode != 0
                    letters = "R" if server == "BIND" else "Rw"  # kzonecheck's status is 1 for its warnings too
                    self.assertEqual(refused, any(lint.RULES[rule][lint.SERVERS.index(server)] in letters
                                                  for rule in (it.split()[1] for it, _, _ in found)), server)


class Lexer(unittest.TestCase):
    def test_entries(self) -> None:
        text = b'; c\n\na. 1 A ( 192.0.2.1 ; )\n) \n\tTXT "a;\nb" c\\"d\n$ORIGIN x.\n'
        self.assertEqual([(it.line, it.is_blank, it.items) for it in entries.entries(text)], [
            (3, False, [b"a.", b"1", b"A", b"192.0.2.1"]), (5, True, [b"TXT", b'"a;\nb"', b'c\\"d']), (7, False, [b"$ORIGIN", b"x."])])

    def test_what_is_stated(self) -> None:
        text = b"a IN 1h A b\n$ORIGIN y\n TXT c\nd TYPE257 \\# 0\n$INCLUDE f\n@ NONE x\n$ORIGIN\ne A f\n"
        self.assertEqual([(it.owner, it.origin, it.kind, it.data) for it in entries.stated(text, "x.")], [
            ("a.x.", "x.", 1, [b"b"]), ("a.x.", "y.x.", 16, [b"c"]), ("d.y.x.", "y.x.", 257, [b"\\#", b"0"]), (None, "y.x.", None, [b"f"]),
            ("y.x.", "y.x.", None, []), (None, None, 1, [b"f"])])
        self.assertEqual(entries.under(b"\xfc", "x."), "\\252.x.")


class Zonemd(InFolder):
    """The zone is that of RFC 8976, appendix A.1."""

    def setUp(self) -> None:
        super().setUp()
        self.example("zonemd.zone")
        self.digest = "".join(re.findall(r"\b[0-9a-f]{16}\b", Path("zonemd.zone").read_text()))

    def test_verify(self) -> None:
        self.assertEqual(ran("zonemd", "verify", "zonemd.zone"), Ran(0, "verified: serial 2018031900, SIMPLE, SHA-384\n", ""))
        self.assertEqual(ran("zonemd", "verify", "-q", "zonemd.zone"), Ran(0, "", ""))
        text = Path("zonemd.zone").read_text()
        for changed, err in (
            (text.replace("203.0.113.63", "203.0.112.63"), "ZONEMD 2018031900 1 1: the digest differs"),
            (text.replace("2018031900 ( 1800", "2018031901 ( 1800"), "ZONEMD 2018031900 1 1: the serial isn't 2018031901"),
        ):
            self.assertNotEqual(changed, text)
            self.write("changed", changed)
            self.assertEqual(ran("zonemd", "verify", "-O", "example", "changed"), Ran(1, f"not verified: {err}\n", ""))
        self.assertEqual(ran("zonemd", "verify", self.example("example.axfr")).out, "not verified: no ZONEMD record at the apex\n")
        self.assertEqual(ran("zonemd", "verify", self.example("signed-by-knot.axfr")).status, 0)

    def test_json(self) -> None:
        found = see(self, "zonemd", "zonemd", "verify", "--json", self.example("zonemd-many.zone"))
        self.assertEqual((found["verified"], [(it["scheme"], it["algorithm"], it["verdict"]) for it in found["records"]]), (
            True, [(1, 1, "verified"), (1, 2, "verified"), (1, 240, "unknown algorithm"), (241, 1, "unknown scheme")]))
        self.write("a", SMALL + "@ 60 ZONEMD \\# 4 00000000\n")
        found = see(self, "zonemd", "zonemd", "verify", "--json", "a")
        self.assertEqual((found["status"], found["records"]), (1, [{"scheme": None, "algorithm": None, "verdict": "malformed"}]))
        self.assertEqual(ran("zonemd", "verify", "a").out, "not verified: ZONEMD \\# 4 00000000: the data is malformed\n")

    def test_add_makes_what_the_rfc_has(self) -> None:
        without = re.sub(".*ZONEMD.*\n", "", Path("zonemd.zone").read_text())
        self.assertNotIn("ZONEMD", without)
        self.write("without", without)
        it = ran("zonemd", "add", "-O", "example", "without")
        self.assertEqual((it.status, re.findall("ZONEMD (.*)", it.out)), (0, [f"2018031900 1 1 {self.digest}"]))
        self.assertEqual(it.out, ran("normalise", "-p", "zonemd.zone").out)
        self.assertEqual(ran("zonemd", "add", "zonemd.zone").out, it.out)
        self.assertEqual(re.findall("ZONEMD [0-9]+ 1 ([12])", ran("zonemd", "add", "--sha512", "zonemd.zone").out), ["2"])
        self.assertEqual(ran("zonemd", "add", "-O", "example", "--record", "without").out,
                         f"example. 86400 IN ZONEMD 2018031900 1 1 {self.digest}\n")

    def test_what_is_added_is_the_digest_of_the_wire_format(self) -> None:
        self.write("a", SMALL)
        for options, serial, number in (("", 1, 1), ("--sha512", 1, 2), ("--serial 7", 7, 1), ("--serial=+5 --sha512", 6, 2)):
            def record(owner: bytes, kind: int, data: bytes) -> bytes:
                return owner + struct.pack("!HHIH", kind, 1, 60, len(data)) + data

            soa = record(b"\1x\0", 6, b"\1n\1x\0\1h\1x\0" + struct.pack("!5I", serial, 2, 3, 4, 5))  # in the order of types and of names
            digest = hashlib.sha384 if number == 1 else hashlib.sha512
            octets = record(b"\1x\0", 2, b"\1n\1x\0") + soa + record(b"\1n\1x\0", 1, b"\xc0\0\2\1")
            it = ran("zonemd", "add", *options.split(), "a")
            self.assertEqual(re.findall(r"x\. 60 IN ZONEMD (.*)", it.out), [f"{serial} 1 {number} {digest(octets).hexdigest()}"])
            self.write("added", it.out)
            self.assertEqual(ran("zonemd", "verify", "added").status, 0)

    def test_serials(self) -> None:
        for words, serial in ((["--serial", "4294967295"], 4294967295), (["--serial=+1"], 2018031901),
                              (["--serial=+2147483647"], 4165515547)):
            self.assertEqual(ran("zonemd", "add", *words, "zonemd.zone").out.split(" ", 7)[6], str(serial))
        self.write("last", Path("zonemd.zone").read_text().replace("2018031900 ( 1800", "4294967295 ( 1800"))
        self.assertEqual(ran("zonemd", "add", "--serial=+1", "-O", "example", "last").out.split(" ", 7)[6], "0")

    def test_a_signed_zone(self) -> None:
        name = self.example("signed-by-knot.axfr")
        self.assert_failed(ran("zonemd", "add", name), 4,
                           f"zonectl: {name}: the zone is signed, and its signer has to give it the record; --record prints the record")
        record = ran("zonemd", "add", "--record", name).out
        self.assertIn(record, ran("normalise", "-p", name).out)
        self.assertEqual(record.split(" ")[3], "ZONEMD")

    def test_usage(self) -> None:
        for words in ("", "verify", "sign a", "verify a b", "verify --sha512 a", "verify --record a", "verify --serial=1 a", "add --json a",
                      "add --serial=x a", "add --serial=4294967296 a", "add --serial=+0 a", "add --serial=-1 a",
                      "add --serial=+2147483648 a"):
            with self.subTest(words):
                self.assertEqual(ran("zonemd", *words.split()).status, 2)
