"""zonectl fleet: many zones and servers, of which some are dead, silent, drip or lie."""
from __future__ import annotations

import dataclasses
import json
import os
import re
import shutil
import signal
import subprocess
import time
import unittest
from collections.abc import Iterable
from html.parser import HTMLParser
from pathlib import Path
from typing import Any

import zonectl
from zonectl.fleet import config
from zonectl_secondary import AXFR, SOA, ZONE, Secondary, secondary
from zonectl_support import InFolder, Ran, command, environment, faults, run_alone

ODD = (  # names of zones that a list may have
    "<script>alert(1)</script>.", '"quoted".', r"a\.b.", r"back\\slash.", "CAPITALS.", r"\035.", r"\195\188.", "&amp;.", "_tcp.example.",
    "-x.", "*.example.", "0/25.2.0.192.in-addr.arpa.", "'apostrophe'.",
)
PAGE = Path(__file__).resolve().parents[2] / "docs/zonectl-fleet.toml.5"
SECONDS = re.compile(r"; [0-9.]+ s\n\Z")


def counted(zones: int, servers: int = 1, same: int = 0, spared: int = 0, different: int = 0, alike: int = 0, refused: int = 0,
            failed: int = 0) -> str:
    """Returns the last line without its time."""
    return (
        f"{zones} zone{'s' * (zones != 1)} on {servers} server{'s' * (servers != 1)}: {same} same ({spared} not transferred), "
        f"{different} different ({alike} under one serial), {refused} refused, {failed} not compared\n")


class Fleet(InFolder):
    """A folder with a configuration."""

    def setUp(self) -> None:
        super().setUp()
        self.write("z", ZONE)

    def listed(self, names: Iterable[str]) -> None:
        """Writes the list, all zones with one file."""
        self.write("zones.list", "".join(f"{it} z\n" for it in names))

    def config(self, port: int, more: str = "", of_server: str = "", zones: str = 'list = "zones.list"') -> None:
        """Writes a configuration of one server, ns2."""
        self.write("fleet.toml", f'version = 1\n[zones]\n{zones}\n[[server]]\nname = "ns2"\naddress = "127.0.0.1"\nport = {port}\n'
                   f"{of_server}\n{more}\n")

    def fleet(self, *options: str, **more: str) -> Ran:
        """Returns what comes of a run, the time of its last line left out."""
        it = run_alone("fleet", "run", "-c", "fleet.toml", *options, given=b"", **more)
        self.assertNotIn("Traceback", it.err)
        return Ran(it.status, SECONDS.sub("\n", it.out), it.err)

    def pairs(self, path: str = "r") -> list[dict[str, Any]]:
        """Returns the pairs of a results file, each of which fits its schema."""
        lines = [json.loads(it) for it in (self.folder / path).read_text(encoding="ascii").splitlines()]
        folder = Path(zonectl.__file__).parent / "schemas"
        self.assertEqual(list(faults(lines[0], json.loads((folder / "fleet-run.json").read_text()))), [])
        schema = json.loads((folder / "fleet.json").read_text())
        diff = json.loads((folder / "diff.json").read_text())
        for it in lines[1:]:
            self.assertEqual(list(faults({**it, "diff": None}, schema)), [])
            if it["diff"]:
                self.assertEqual(list(faults(it["diff"], diff)), [])
        return lines[1:]


class Comparing(Fleet):
    def test_each_result(self) -> None:
        self.listed(["a.", "differs.b.", "behind.c.", "ahead.d.", "unordered.e.", "refusing.f.", "broken.g.", "differs.behind.h."])
        with secondary() as server:
            self.config(server.port)
            it = self.fleet("--results", "r", "-j", "2")
            self.assertEqual(it.status, 4)
            self.assertEqual(it.out.splitlines()[:2], ["== ahead.d. at ns2", "newer: serial 8, reference 7 (not transferred)"])
            self.assertIn("== behind.c. at ns2\nolder: serial 6, reference 7 (not transferred)\n== differs.b. at ns2\n"
                          "DIFFERENT UNDER ONE SERIAL 7\n--- z: serial 7, 3 records\n+++ ns2: serial 7, 3 records\nns.differs.b.\n"
                          "  - 3600 A 192.0.2.1\n  + 3600 A 192.0.2.2\n1 RRset differs: 1 record only in z, 1 only in ns2\n", it.out)
            self.assertIn("unordered: serial 2147483655, reference 7 (not transferred)\n", it.out)
            self.assertTrue(it.out.endswith(counted(8, same=1, different=5, alike=1, refused=1, failed=1)), it.out)
            refused, failed = it.err.splitlines()
            self.assertTrue(refused.startswith("zonectl: ns2: 1 zone refused: F"), it.err)
            self.assertEqual(failed, "zonectl: ns2: 1 zone not compared: the server answers with error code 5, REFUSED: it doesn't let "
                             "this address or this key transfer the zone")
            self.assertEqual((server.queries[SOA], server.queries[AXFR]), (8, 4))
        self.assertEqual([(it["zone"], it["status"], it["result"]) for it in self.pairs()], [
            ("a.", 0, "same"), ("ahead.d.", 1, "different"), ("behind.c.", 1, "different"), ("broken.g.", 3, "refused"),
            ("differs.b.", 1, "one-serial"), ("differs.behind.h.", 1, "different"), ("refusing.f.", 4, "not-compared"),
            ("unordered.e.", 1, "different")])

    def test_whatever_is_wrong_with_an_soa_the_transfer_decides(self) -> None:
        self.listed(["nosoa.a.", "wrongid.b.", "closes.c."])
        with secondary() as server:
            self.config(server.port)
            self.assertEqual(self.fleet(), Ran(0, counted(3, same=3), ""))
            self.assertEqual(server.queries[AXFR], 3)

    def test_one_connection_serves_many_zones(self) -> None:
        self.listed(f"z{it}." for it in range(100))
        with secondary() as server:
            self.config(server.port)
            self.assertEqual(self.fleet("-j", "2"), Ran(0, counted(100, same=100), ""))
            self.assertEqual((server.connections, server.queries[AXFR]), (2, 100))

    def test_no_more_connections_than_are_allowed(self) -> None:
        self.listed(f"z{it}." for it in range(60))
        with secondary() as server:
            self.config(server.port, of_server="connections = 2")
            self.assertEqual(self.fleet("-j", "6"), Ran(0, counted(60, same=60), ""))
            self.assertLessEqual(server.most, 2)

    def test_what_is_ignored(self) -> None:
        self.listed(["behind.a.", "behind.differs.b."])
        with secondary() as server:
            self.config(server.port, of_server='ignore = ["serial", "A"]')
            self.assertEqual(self.fleet(), Ran(0, counted(2, same=2), ""))
            self.config(server.port, of_server='ignore = ["serial", "A"]', more='[[override]]\nzone = "*.b"\nignore = ["serial"]\n')
            it = self.fleet()
            self.assertEqual((it.status, it.out.splitlines()[0]), (1, "== behind.differs.b. at ns2"))

    def test_zonemd_is_required(self) -> None:
        self.listed(["a."])
        with secondary() as server:
            self.config(server.port, of_server="require_zonemd = true")
            self.assertEqual(self.fleet(), Ran(3, counted(1, refused=1), "zonectl: ns2: 1 zone refused: not verified: no ZONEMD record at "
                                               "the apex\n"))

    def test_a_server_as_the_reference(self) -> None:
        self.write("zones.list", "a.\ndiffers.b.\n")
        with secondary() as server, secondary() as other:
            self.config(server.port, '[run]\nreference = "ns2"\n', of_server='[[server]]\nname = "ns3"\naddress = "127.0.0.1"\n'
                        f"port = {other.port}")
            self.assertEqual(self.fleet(), Ran(0, counted(2, same=2), ""))
            other.shutdown()
            other.server_close()
            it = self.fleet("-q")
            self.assertEqual((it.status, it.err), (4, "zonectl: ns3: 2 zones not compared: the connection was refused\n"))

    def test_captures_and_overrides(self) -> None:
        self.example("example.axfr")
        self.example("example.zone")
        self.write("zones.list", "example. example.zone\nx. z\nskipped. z\nother. missing\n")
        self.write("fleet.toml", 'version = 1\n[zones]\nlist = "zones.list"\n[[server]]\nname = "kept"\ncapture = "{}.axfr"\n'
                   '[[server]]\nname = "no"\ncapture = "no/{}"\n[[override]]\nzone = "*"\nservers = ["kept"]\n'
                   '[[override]]\nzone = "skipped"\nskip = true\n[[override]]\nzone = "other"\nfile = "z"\n')
        it = self.fleet()
        self.assertEqual(it, Ran(4, counted(3, 2, same=1, failed=2),
                                 "zonectl: kept: 1 zone not compared: other.axfr: it can't be read: no such file or directory\n"
                                 "zonectl: kept: 1 zone not compared: x.axfr: it can't be read: no such file or directory\n"))


class Servers(Fleet):
    """Servers that don't answer."""

    def test_a_dead_one_among_many(self) -> None:
        self.listed(f"z{it}." for it in range(500))
        with secondary() as server:
            self.config(server.port, of_server='[[server]]\nname = "ns3"\naddress = "127.0.0.1"\nport = 1')
            it = self.fleet()
            self.assertEqual(it, Ran(4, counted(500, 2, same=500, failed=500),
                                     "zonectl: ns3: 500 zones not compared: the connection was refused\n"))

    def test_a_silent_one_costs_one_timeout(self) -> None:
        self.listed(f"silent{it}." for it in range(120))
        with secondary() as server:
            self.config(server.port, of_server="timeout = 1")
            began = time.monotonic()
            it = self.fleet("-j", "4")
            self.assertEqual(it, Ran(4, counted(120, failed=120), "zonectl: ns2: 120 zones not compared: nothing came for 1 s (--timeout)\n"))
            self.assertLess(time.monotonic() - began, 20)  # a timeout for each zone would take half a minute

    def test_a_dripping_one_costs_one_deadline(self) -> None:
        self.listed(f"drips{it}." for it in range(120))
        with secondary() as server:
            self.config(server.port, of_server="deadline = 1")
            began = time.monotonic()
            it = self.fleet("-j", "4")
            self.assertEqual((it.status, it.out), (4, counted(120, failed=120)))
            self.assertIn("the transfer took longer than 1 s (--deadline)", it.err)
            self.assertLess(time.monotonic() - began, 20)  # a deadline for each zone would take half a minute

    def test_one_silent_zone_does_not_stop_the_others(self) -> None:
        self.listed(["stuck.", *(f"z{it}." for it in range(200))])
        with secondary() as server:
            self.config(server.port, of_server="timeout = 1")
            it = self.fleet("-j", "2")
            self.assertEqual((it.status, it.out), (4, counted(201, same=200, failed=1)))

    def test_an_address_that_is_none(self) -> None:
        self.listed(["a.", "b."])
        self.write("fleet.toml", 'version = 1\n[zones]\nlist = "zones.list"\n[[server]]\nname = "ns2"\naddress = "no.such.name.invalid"\n')
        it = self.fleet()
        self.assertEqual((it.status, it.out), (4, counted(2, failed=2)))
        self.assertIn("the name no.such.name.invalid has no address", it.err)

    def test_the_deadline_of_the_run(self) -> None:
        self.listed(["stuck.", "z."])
        with secondary() as server:
            self.config(server.port, '[run]\ndeadline = 1\njobs = 1\n[output]\nmetrics = "m"')
            it = self.fleet("--results", "r")
            self.assertEqual(it, Ran(4, counted(2, failed=2), "zonectl: ns2: 2 zones not compared: the run took longer than 1 s (deadline)\n"))
            self.assertTrue((self.folder / "m").exists() and len(self.pairs()) == 2)

    def test_a_gibibyte_meets_the_memory_of_a_worker(self) -> None:
        self.listed(["endless.", *(f"z{it}." for it in range(20))])
        with secondary() as server:
            self.config(server.port, '[run]\nmemory = "160M"\njobs = 2\n')
            it = self.fleet("--max-size", "1G", "--results", "r")
            self.assertEqual(it, Ran(4, counted(21, same=20, failed=1),
                                     'zonectl: ns2: 1 zone not compared: a worker ran out of memory (memory = "160M")\n'))
            it = self.fleet("--max-size", "1M")
            self.assertEqual(it.err, "zonectl: ns2: 1 zone not compared: larger than 1048576 octets; --max-size 1G allows more\n")

    def test_a_worker_that_is_killed_costs_its_zone(self) -> None:
        self.listed(["stuck.", *(f"z{it}." for it in range(50))])
        with secondary() as server:
            self.config(server.port, "[run]\njobs = 2\n")
            ran = subprocess.Popen(command("fleet", "run", "-c", "fleet.toml"), stdout=subprocess.PIPE, stderr=subprocess.PIPE,
                                   env=environment(), text=True)
            for _ in range(200):
                time.sleep(0.05)
                if sum(server.names.values()) > 100:
                    break
            children = Path(f"/proc/{ran.pid}/task/{ran.pid}/children").read_text().split()
            os.kill(int(children[0]), signal.SIGKILL)
            out, err = ran.communicate(timeout=30)
            self.assertEqual(SECONDS.sub("\n", out), counted(51, same=50, failed=1))
            self.assertEqual(err, "zonectl: ns2: 1 zone not compared: a worker was ended by signal 9\n")

    def test_interrupted(self) -> None:
        self.listed([f"stuck{it}." for it in range(4)])
        with secondary() as server:
            self.config(server.port, '[output]\nmetrics = "m"\nhtml = "h"')
            for number in (signal.SIGINT, signal.SIGTERM, signal.SIGHUP):
                ran = subprocess.Popen(command("fleet", "run", "-c", "fleet.toml"), stdout=subprocess.PIPE, stderr=subprocess.PIPE,
                                       env=environment(), text=True)
                asked = sum(server.names.values())
                for _ in range(400):
                    time.sleep(0.05)
                    if sum(server.names.values()) > asked:
                        break
                ran.send_signal(number)
                self.assertEqual(ran.communicate(timeout=30), ("", "zonectl: interrupted\n"))
                self.assertEqual((ran.returncode, sorted(os.listdir())), (4, ["fleet.toml", "z", "zones.list"]))


class State(Fleet):
    MORE = '[run]\nstate = "state"\n'

    def test_what_is_the_same_is_not_transferred_again(self) -> None:
        self.listed(["a.", "b.", "differs.c.", "behind.d."])
        with secondary() as server:
            self.config(server.port, self.MORE.replace("state\n", 'state\nfull_every = "10000d"\n'))
            self.assertIn(counted(4, same=2, different=2, alike=1), self.fleet().out)
            self.assertEqual(server.queries[AXFR], 3)
            it = self.fleet("--results", "r", "--metrics", "m")
            self.assertIn(counted(4, same=2, spared=2, different=2, alike=1), it.out)
            self.assertEqual(server.queries[AXFR], 4)
            self.assertIn('zonectl_transferred{zone="a.",server="ns2"} 0\n', (self.folder / "m").read_text())
            self.assertEqual([it["reason"] for it in self.pairs()][:2], ["not transferred"] * 2)
            self.assertIn(counted(4, same=2, different=2, alike=1), self.fleet("--full").out)
            self.write("z", ZONE + "; another file, the same zone\n")
            self.assertIn(counted(4, same=2, spared=2, different=2, alike=1), self.fleet().out)
            self.write("z", ZONE + "more A 192.0.2.9\n")  # under the same serial
            self.assertIn(counted(4, different=4, alike=3), self.fleet().out)
            self.write("z", ZONE)
            self.assertIn(counted(4, same=2, different=2, alike=1), self.fleet().out)
            self.config(server.port, self.MORE, of_server="exact = true")  # other options
            self.assertIn(counted(4, same=2, different=2, alike=1), self.fleet().out)
            self.config(server.port, self.MORE, of_server="exact = true\nrequire_zonemd = true")
            self.assertEqual(self.fleet().status, 3)

    def test_each_pair_is_due_once_in_a_span(self) -> None:
        self.listed(f"z{it}." for it in range(70))
        with secondary() as server:
            self.config(server.port, self.MORE)
            self.fleet()
            state = json.loads((self.folder / "state").read_text())
            for days, least, most in ((1, 2, 25), (3, 15, 50), (7, 70, 70)):
                moved = {name: {**it, "at": it["at"] - days * 86400} for name, it in state["pairs"].items()}
                self.write("state", json.dumps({**state, "pairs": moved}))
                server.queries.clear()
                self.assertEqual(self.fleet().status, 0)
                self.assertTrue(least <= server.queries[AXFR] <= most, (days, server.queries))

    def test_a_state_that_is_none(self) -> None:
        self.listed(["a."])
        self.config(1, self.MORE)
        for text in ("", "{}", "[]", '{"format": "zonectl-state/1"}', '{"format": "zonectl-state/1", "pairs": {"a": 1}}'):
            self.write("state", text)
            self.assert_failed(self.fleet(), 4, "zonectl: state: it isn't a state of zonectl: remove it, and all zones are transferred once")


class Zones(Fleet):
    def test_bad_lines(self) -> None:
        self.write("zones.list", b"a. z\n\n# no\nb.\n  \n\xff\xfe. z\nd. missing\ne. .\nf.. z\nA z\nk. z\n")
        with secondary() as server:
            self.config(server.port)
            it = self.fleet()
            self.assertEqual((it.status, it.out), (4, counted(7, same=1, failed=6)))
            for text in ("the zone is named twice: by zones.list:1 and by zones.list:10\n", "the line isn't a ZONE and a SOURCE\n",
                         "missing: it can't be read: no such file or directory\n", ".: it is a folder\n", "not a domain name: f..\n"):
                self.assertIn(text, it.err)

    def test_the_same_reason_is_one_line(self) -> None:
        self.listed([f"refusing{it}." for it in range(30)])
        with secondary() as server:
            self.config(server.port)
            self.assertEqual(self.fleet().err.count("\n"), 1)
            it = self.fleet("--verbose")
            self.assertEqual(it.err.count("\n"), 30)
            self.assertIn("zonectl: refusing7. at ns2: not compared: the server answers with error code 5", it.err)

    def test_a_glob(self) -> None:
        for name, text in {"a.example.zone": ZONE, "db.b.example": ZONE, "c.zone": "$ORIGIN c.example.\n" + ZONE, "none.zone": ZONE,
                           "other.example.zone": "$ORIGIN o.example.\n" + ZONE}.items():
            self.write(f"zones/{name}", text)
        with secondary() as server:
            self.config(server.port, zones='glob = "zones/*"')
            it = self.fleet("--verbose")
            self.assertEqual((it.status, it.out), (4, counted(5, same=3, failed=2)))
            self.assertIn("zonectl: zones/none.zone at ns2: not compared: neither its name nor its text says which zone it is", it.err)
            self.assertIn("its name says other.example., its text says o.example.", it.err)

    def test_catalogs(self) -> None:
        head = "$ORIGIN c.\n$TTL 1h\n@ SOA invalid. h 1 2 3 4 5\n@ NS invalid.\n"
        version, member = 'version TXT "2"\n', "a.zones PTR {}\nb.zones PTR 0/25.x.\ncoo.a.zones PTR no.\n"
        for name in ("0_25.x.z", "q.z", "r.z"):
            self.write(name, ZONE)
        none = "it is no catalog: it has no version 2 (RFC 9432)"
        with secondary() as server:
            self.config(server.port, zones='catalog = { source = "catalog", files = "{}.z" }')
            for text, wanted in (
                (version + member.format("q."), None), (member.format("q."), none), (version.replace("2", "1") + member.format("q."), none),
                (version + member.format("q.") + "a.zones PTR r.\n", "the catalog is broken: a.zones.c. has two PTR records"),
            ):
                self.write("catalog", head + text)
                it = self.fleet()
                self.assertEqual(it, Ran(4, "", f"zonectl: catalog: {wanted}\n") if wanted else Ran(0, counted(2, same=2), ""))
            self.write("catalog", head + version)
            self.assert_failed(self.fleet(), 4, "zonectl: the configuration names no zone")

    def test_another_apex(self) -> None:
        self.write("o", "$ORIGIN other.\n" + ZONE)
        self.write("zones.list", "a. o\n")
        self.config(1)
        self.assertEqual(self.fleet().err, "zonectl: ns2: 1 zone not compared: o: it is the zone other., not a.\n")


class Parts(Fleet):
    def test_parts_merged_are_the_whole(self) -> None:
        self.listed(f"{'differs.' * (it % 5 == 0)}z{it}." for it in range(23))
        with secondary() as server:
            self.config(server.port)
            whole = self.fleet("--metrics", "w", "--results", "all")
            for number in (1, 2, 3):
                self.assertIn(self.fleet("--part", f"{number}/3", "--results", "r{part}").status, (0, 1))
            merged = run_alone("fleet", "merge", "-o", "m", "--metrics", "p", "--html", "h", "r3", "r1", "r2")
            self.assertEqual((merged.status, SECONDS.sub("\n", merged.out), merged.err), whole)

            def without_times(name: str) -> str:
                return re.sub(r"(timestamp_seconds|run_seconds)(.*) [0-9.]+\n", r"\1\2\n", (self.folder / name).read_text())

            self.assertEqual(without_times("w"), without_times("p"))
            self.assertEqual([it["zone"] for it in self.pairs("m")], [it["zone"] for it in self.pairs("all")])
            it = run_alone("fleet", "report", "m")
            self.assertEqual((it.status, it.out), (merged.status, merged.out))
            it = run_alone("fleet", "merge", "-o", "m", "r3", "r1")
            self.assertEqual((it.status, it.err), (4, "zonectl: ns2: 1 zone not compared: its results are missing\n"))
            self.fleet("--part", "2/2", "--results", "r4")
            self.listed(f"z{it}." for it in range(22))
            self.fleet("--part", "2/3", "--results", "r5")
            for names in (("r1", "r1"), ("r1", "fleet.toml"), ("missing",), ("r1", "r4"), ("r1", "r5")):
                it = run_alone("fleet", "merge", "-o", "m2", *names)
                self.assertEqual((it.status, it.out, os.path.exists("m2")), (4, "", False), names)
            self.listed(["a.", "b."])
            self.assertEqual(self.fleet("--part", "3/3"), Ran(0, counted(0), ""))

    def test_the_index_of_a_task(self) -> None:
        self.listed(["a.", "b.", "c."])
        with secondary() as server:
            self.config(server.port)
            for more in ({"SLURM_ARRAY_TASK_ID": "12", "SLURM_ARRAY_TASK_MIN": "11"}, {"JOB_COMPLETION_INDEX": "1"}):
                self.fleet("--part", "auto/3", "--results", "p{part}", **more)
                self.assertEqual([it["zone"] for it in self.pairs("p2")], ["b."])
                (self.folder / "p2").unlink()
            it = self.fleet("--part", "auto/3")
            self.assertEqual((it.status, it.out), (2, ""))
            self.assertEqual(self.fleet("--part", "auto/1", "--results", "x", "--exit-zero", JOB_COMPLETION_INDEX="0").status, 0)

    def test_exit_zero(self) -> None:
        self.listed(["refusing."])
        with secondary() as server:
            self.config(server.port)
            self.assertEqual(self.fleet("--exit-zero", "--results", "r").status, 0)
            self.assertEqual(self.fleet("--exit-zero", "--results", "no/r").status, 4)
            self.assertEqual(self.fleet("--exit-zero").status, 2)


class Outputs(Fleet):
    def test_hostile_names(self) -> None:
        self.listed([*ODD, *(f"differs.{it}" for it in ODD)])
        with secondary() as server:
            self.config(server.port, more='[output]\nhtml = "h"\nmetrics = "m"\nresults = "r"')
            it = self.fleet()
            self.assertEqual((it.status, it.err), (1, ""))
            self.assertIn(counted(26, same=13, different=13, alike=13), it.out)
            self.assertEqual(len(self.pairs()), 26)
        self.seen_page((self.folder / "h").read_text())
        metrics = (self.folder / "m").read_text()
        self.assertTrue(metrics.isascii())
        self.seen_metrics(metrics)
        self.assertIn(r'zone="\\195\\188.",server="ns2"', metrics)

    def seen_page(self, text: str) -> None:
        """Sees that a page has no script, and that what comes from outside is text."""
        tags: set[str] = set()

        class Reader(HTMLParser):
            def handle_starttag(self, tag: str, attrs: object) -> None:
                tags.add(tag)

        Reader().feed(text)
        self.assertLessEqual(tags, set("html head meta link title style body h1 h2 p br span table thead tbody tr th td a section pre details "
                                       "summary".split()))
        self.assertIn("default-src 'none'; style-src 'unsafe-inline'; img-src data:", text)

    def seen_metrics(self, text: str) -> None:
        """Sees that each line is one of the text format."""
        label = r'[a-z]+="(?:[^"\\\n]|\\[\\"n])*"'
        for line in text.splitlines():
            self.assertRegex(line, rf"\A(?:# (?:HELP|TYPE) zonectl_\w+ .+|zonectl_\w+(?:\{{{label}(?:,{label})*\}})? [0-9.]+)\Z")
        if shutil.which("promtool"):
            it = subprocess.run(["promtool", "check", "metrics"], input=text, capture_output=True, text=True, timeout=30)
            self.assertEqual((it.returncode, it.stdout), (0, ""))

    def test_the_page_begins_with_the_alarm(self) -> None:
        self.write("zones.list", "m.differs. z\n" + "".join(f"zone{it}.example. missing\n" for it in range(5000)))
        with secondary() as server:
            self.config(server.port, more='[output]\nhtml = "h"')
            self.assertEqual(self.fleet().status, 4)
        text = (self.folder / "h").read_text()
        self.assertLess(len(text), 500_000)
        rows = re.findall(r"<tr class=.*?</tr>", text, re.S)
        self.assertEqual(len(rows), 2)
        self.assertIn("m.differs.", rows[0])
        self.assertIn("<summary>5000 zones</summary>", rows[1])

    def test_files_that_cannot_be_written(self) -> None:
        self.listed(["a."])
        with secondary() as server:
            self.config(server.port)
            for option in ("--html", "--metrics", "--results"):
                it = self.fleet(option, "no/f")
                self.assertEqual(it, Ran(4, counted(1, same=1), "zonectl: no/f: it can't be written: no such file or directory\n".replace(
                    "no/f", str(self.folder / "no/f"))))
            mode = os.umask(0o027)
            self.fleet("--metrics", "m")
            os.umask(mode)
            self.assertEqual((self.folder / "m").stat().st_mode & 0o777, 0o640)

    def test_results_that_someone_else_wrote(self) -> None:
        self.listed(["differs.a."])
        with secondary() as server:
            self.config(server.port)
            self.fleet("--results", "r")
        head, pair = (self.folder / "r").read_text().splitlines()
        self.write("hostile", f"{head}\n" + json.dumps({**json.loads(pair), "text": "\x1b[2J\u202e\n", "zone": "<b>\x07"}) + "\n")
        it = run_alone("fleet", "report", "--html", "h", "hostile")
        self.assertTrue(it.out.startswith("== <b>\\x07 at ns2\n\\x1b[2J\\xe2\\x80\\xae\n"), it.out)
        self.seen_page((self.folder / "h").read_text())
        for name, value in (("status", 5), ("status", "1"), ("zone", 1), ("serials", {"reference": "<b>", "server": 1}), ("serials", []),
                            ("result", "x"), ("transferred", 1), ("text", None), ("at", "1"), ("seconds", "1")):
            self.write("hostile", f"{head}\n" + json.dumps({**json.loads(pair), name: value}) + "\n")
            self.assert_failed(run_alone("fleet", "report", "hostile"), 4, "zonectl: hostile: it isn't what --results wrote")

    def test_quiet_and_a_file(self) -> None:
        self.listed(["a."])
        with secondary() as server:
            self.config(server.port)
            self.assertEqual(self.fleet("-q"), Ran(0, "", ""))
            self.assertEqual(self.fleet("-o", "out"), Ran(0, "", ""))
            self.assertEqual(SECONDS.sub("\n", (self.folder / "out").read_text()), counted(1, same=1))
            self.assertEqual(self.fleet("--check-config"), Ran(0, "1 zone on 1 server\n", ""))


class Configuration(Fleet):
    def test_what_is_wrong(self) -> None:
        good = 'version = 1\n[zones]\nlist = "zones.list"\n[[server]]\nname = "ns2"\naddress = "192.0.2.1"\n'
        self.listed(["a."])
        for text, wanted in (
            ("", "it needs version and zones and server"), (good.replace("version = 1", "version = 2"), "version: it isn't a number from 1 to 1"),
            (good + "adress = 1\n", "server[1]: adress isn't a key here; the nearest is address"),
            (good + "port = 0\n", "server[1]: port: it isn't a number from 1 to 65535"),
            (good + "port = true\n", "server[1]: port: it isn't a number from 1 to 65535"),
            (good + "tls = 1\n", "server[1]: tls: it isn't true or false"),
            (good + 'class = "XX"\n', "server[1]: class: not a class: XX"),
            (good + 'capture = "{}.axfr"\n', "server[1]: it needs address or capture, one of them"),
            (good + 'key = "k"\n', "server: key: [keys] has no k"),
            (good + 'ignore = ["CAAA"]\n', "server[1]: ignore: not a type: CAAA"),
            (good + 'ignore = "serial"\n', "server[1]: ignore: it isn't a list"),
            (good + 'timeout = "soon"\n', "server[1]: timeout: not a time: soon (seconds, or a number with s, m, h or d)"),
            (good + '[[server]]\nname = "ns2"\naddress = "192.0.2.2"\n',
             'server: at least one is needed, each with a name of its own, which isn\'t "files"'),
            (good + '[run]\nreference = "ns9"\n', "run: reference: no server is named ns9, or it is the only one"),
            (good + '[run]\nmemory = "much"\n', "run: memory: not a size from 1 to 1024G: much (octets, or a number with K, M or G)"),
            (good + '[[override]]\nzone = "x"\nservers = ["ns9"]\n', "override[1]: servers: no server is named ns9"),
            (good + '[output]\nhtm = "x"\n', "output: htm isn't a key here; the nearest is html"),
            (good.replace('list = "zones.list"', ""), "zones: one of glob, list and catalog is needed"),
            (good.replace('list = "zones.list"', 'catalog = { source = "c" }'),
             'zones: catalog: files is needed, as in "/var/lib/bind/{}.zone"'),
        ):
            with self.subTest(text):
                self.write("fleet.toml", text)
                self.assert_failed(self.fleet("--check-config"), 2, f"zonectl: fleet.toml: {wanted}")
        self.write("fleet.toml", "version = ")
        self.assertRegex(self.fleet().err, r"^zonectl: fleet\.toml: it isn't TOML: .*\n$")

    @unittest.skipUnless(PAGE.exists(), "the documents aren't beside the tests")
    def test_each_key_is_in_the_page(self) -> None:
        page = PAGE.read_text()
        for made in (config.Config, config.Zones, config.Catalog, config.Server, config.Override, config.Run, config.Written):
            for it in dataclasses.fields(made):
                name = {"rdclass": "class", "digest": "version"}.get(it.name, it.name)
                self.assertRegex(page, rf"\b{name}\b")

    def test_usage(self) -> None:
        self.config(1)
        self.listed(["a."])
        for words in ((), ("go",), ("run",), ("run", "-c", "fleet.toml", "x"), ("report",), ("report", "a", "b"), ("merge", "a"), ("merge", "-o", "x"),
                      ("report", "--full", "a"), ("run", "-c", "fleet.toml", "--part", "2/1"), ("run", "-c", "fleet.toml", "-j", "0")):
            self.assertEqual(run_alone("fleet", *words).status, 2, words)
        self.assert_failed(run_alone("fleet", "run", "-c", "none.toml"), 4, "zonectl: none.toml: it can't be read: no such file or directory")

    def test_paths_begin_at_the_folder_of_the_configuration(self) -> None:
        with secondary() as server:
            self.listed(["a."])
            self.config(server.port, more='[output]\nhtml = "h"')
            (self.folder / "other").mkdir()
            os.chdir("other")
            it = run_alone("fleet", "run", "-c", "../fleet.toml", "--metrics", "m")
            self.assertEqual((it.status, it.err, os.listdir()), (0, "", ["m"]))
            self.assertTrue((self.folder / "h").exists())

    def test_keys(self) -> None:
        self.listed(["a."])
        self.config(1, more='[keys]\ntransfer = "transfer.key"', of_server='key = "transfer"')
        self.assertIn("zonectl: transfer.key: it can't be read", self.fleet().err)
        text = 'key "transfer" {\n\talgorithm hmac-sha256;\n\tsecret "c2VjcmV0";\n};\n'
        path = self.folder / self.write("credentials/transfer.key", text)
        path.chmod(0o600)
        it = self.fleet(CREDENTIALS_DIRECTORY=str(self.folder / "credentials"))
        self.assertEqual(it.err, "zonectl: ns2: 1 zone not compared: the connection was refused\n")


if __name__ == "__main__":
    unittest.main()
