"""The jobs of the five commands that zonectl replaced: compare_zone, compare_zones, check_zones, capture_transfer and to_nsupdate."""
from __future__ import annotations

import contextlib
import json
import os
import pty
import re
import shutil
import subprocess
import unittest
from pathlib import Path

from zonectl_secondary import AXFR, ZONE, secondary
from zonectl_support import EXAMPLES, TLS, InFolder, Ran, command, environment, ran, run_alone, sends, serving, tls_server

TOP = Path(__file__).resolve().parents[2]
STREAM = (EXAMPLES / "example.axfr").read_bytes()
SAME = Ran(0, "same, serial 2026112301, 30 records\n", "")
KEY = 'key "k" { algorithm hmac-sha256; secret "c2VjcmV0"; };\n'


class Job(InFolder):
    def setUp(self) -> None:
        super().setUp()
        for name in ("example.zone", "example.changed.zone", "example.axfr", "example.dig", "example.words.dig", "first.zone", "x.zone",
                     "signed-by-bind.axfr", "signed-by-knot.axfr", "refused-unknown-type.zone", "refused-base64.zone", "words.zone"):
            self.example(name)


class CompareZone(Job):
    """compare_zone ORIGIN FILE SERVER."""

    def test_a_server_a_stream_what_dig_wrote_and_a_pipe(self) -> None:
        with serving(sends(STREAM)) as server:
            self.assertEqual(ran("diff", "example.zone", f"axfr://127.0.0.1:{server.port}/example"), SAME)
        self.assertEqual(ran("diff", "example.zone", "example.axfr"), SAME)
        self.assertEqual(ran("diff", "example.zone", "dig:example.dig"), SAME)
        self.assertEqual(ran("diff", "example.zone", "dig:example.words.dig"), SAME)
        self.assertEqual(run_alone("diff", "-", "example.axfr", given=(self.folder / "example.zone").read_bytes()), SAME)
        script = f"{' '.join(command('diff'))} -O example <(cat example.zone) example.axfr"
        it = subprocess.run(["bash", "-c", script], capture_output=True, text=True, env=environment(), timeout=60)
        self.assertEqual(Ran(it.returncode, it.stdout, it.stderr), SAME)

    def test_all_types_are_read_in_process_without_temporary_files(self) -> None:
        more = {"TMPDIR": "/nowhere", "ZONENORM": "./missing", "ZONEWORDS": "./missing", "ZONEDIGEST": "./missing"}
        self.assertEqual(run_alone("diff", "-O", "example", "words.zone", "words.zone", given=b"", **more).status, 0)
        self.assertEqual(run_alone("diff", "-z", "-i", "serial,dnssec", "-O", "example", "first.zone", "signed-by-knot.axfr", given=b"", **more).status, 0)
        it = run_alone("diff", "-O", "example", "refused-base64.zone", "example.axfr", given=b"", **more)
        self.assertEqual((it.status, it.err), (3, "zonectl: refused-base64.zone:5: F9 BadRdata: DNSKEY, public key: not base64\n"))

    def test_what_is_left_out(self) -> None:
        def status(*words: str) -> int:
            return ran("diff", "-O", "example", *words).status

        for name in ("signed-by-bind.axfr", "signed-by-knot.axfr"):
            self.assertEqual([status(*it, "first.zone", name) for it in (["-i", "serial"], ["-i", "dnssec"], ["-i", "serial,dnssec"])], [1, 1, 0])
        self.assertEqual(status("-i", "A", "example.changed.zone", "example.axfr"), 0)
        self.assertEqual(status("-i", "AAAA,type1", "example.changed.zone", "example.axfr"), 0)
        self.assertEqual(status("-i", "CAAA", "example.zone", "example.axfr"), 2)
        self.assertEqual(ran("diff", "-q", "example.zone", "example.axfr"), Ran(0, "", ""))
        self.assertEqual(ran("diff", "-z", "example.zone", "example.axfr").status, 3)

    def test_the_cap_of_a_difference(self) -> None:
        self.write("b", ZONE + "".join(f"a{it} TXT x\n" for it in range(300)))
        self.write("a", ZONE)
        lines = ran("diff", "-O", "x", "a", "b").out.splitlines()
        self.assertEqual((len(lines), lines[-2]), (3 + 200 + 2, ".. 400 more lines (--lines all shows them)"))
        self.assertEqual(len(ran("diff", "-O", "x", "--lines", "all", "a", "b").out.splitlines()), 3 + 600 + 1)

    def test_keys_classes_timeouts_and_tls(self) -> None:
        (self.folder / self.write("key", KEY)).chmod(0o600)
        with secondary() as server:
            for words, status in ((("-k", "key"), 3), (("-t", "1"), 0), (("--deadline", "5"), 0)):
                self.assertEqual(ran("fetch", "-o", "sent", *words, f"axfr://127.0.0.1:{server.port}/x").status, status)
            self.assertEqual(ran("fetch", "-o", "sent", f"axfr://127.0.0.1:{server.port}/x?class=CH").status, 4)
            self.assertEqual(ran("fetch", f"axfr://127.0.0.1:{server.port}/x?class=CLASS0").status, 2)
            self.assertEqual(ran("fetch", "-o", "sent", "-t", "0.3", f"axfr://127.0.0.1:{server.port}/silent").status, 4)
        with serving(sends(STREAM), tls_server()) as server:
            url = f"axfrs://127.0.0.1:{server.port}/example"
            self.assertEqual(ran("diff", "--tls-ca", str(TLS / "ca.pem"), "--tls-name", "ns.example", "example.zone", url), SAME)
            self.assertEqual(ran("diff", "example.zone", url).status, 4)
            self.assertEqual(ran("diff", "--tls-no-verify", "example.zone", url), SAME)

    def test_the_alarm(self) -> None:
        it = ran("diff", "-O", "example", "example.changed.zone", "example.axfr")
        self.assertEqual((it.status, it.out.splitlines()[0]), (1, "DIFFERENT UNDER ONE SERIAL 2026112301"))
        self.assertEqual(it.out.splitlines()[-1], "1 RRset differs: 1 record only in example.changed.zone, 1 only in example.axfr")
        self.assertEqual(json.loads(ran("diff", "-O", "example", "--json", "example.changed.zone", "example.axfr").out)["alarm"], "one-serial")


class CompareZones(Job):
    """compare_zones LIST SERVER."""

    def fleet(self, server: str, *options: str, zones: str = 'list = "zones.list"', more: str = "") -> Ran:
        """Returns what comes of a run, its time left out."""
        self.write("fleet.toml", f'version = 1\n[zones]\n{zones}\n[[server]]\nname = "ns2"\n{server}\n{more}\n')
        it = run_alone("fleet", "run", "-c", "fleet.toml", *options)
        return Ran(it.status, re.sub(r"; \S+ s\n\Z", "\n", it.out), it.err)

    def test_a_list_with_a_server_and_with_captures(self) -> None:
        self.write("zones.list", "example. example.zone\n# none\n\n")
        same = Ran(0, "1 zone on 1 server: 1 same (0 not transferred), 0 different (0 under one serial), 0 refused, 0 not compared\n", "")
        self.assertEqual(self.fleet('capture = "{}.axfr"'), same)
        with serving(sends(STREAM)) as server:
            self.assertEqual(self.fleet(f'address = "127.0.0.1"\nport = {server.port}', "-j", "2"), same)
        self.write("zones.list", "example. example.zone\nx. x.zone\nExample. x.zone\nexample\n")
        it = self.fleet('capture = "{}.axfr"')
        self.assertEqual((it.status, len(it.err.splitlines())), (4, 3))

    def test_a_catalog(self) -> None:
        self.example("catalog.zone")
        with secondary() as server:
            for name in ("example", "x", "words"):
                self.write(f"{name}.zone", ZONE)
            it = self.fleet(f'address = "127.0.0.1"\nport = {server.port}', zones='catalog = { source = "catalog.example.zone", files = "{}.zone" }')
            self.assertEqual(it.status, 4)
            os.rename("catalog.zone", "catalog.example.zone")
            it = self.fleet(f'address = "127.0.0.1"\nport = {server.port}', zones='catalog = { source = "catalog.example.zone", files = "{}.zone" }')
            self.assertEqual((it.status, it.err, server.queries[AXFR]), (0, "", 3))

    def test_metrics_page_results_parts_and_progress(self) -> None:
        self.write("zones.list", "example. example.zone\n" + "".join(f"x{it}. x.zone\n" for it in range(5)))
        capture = 'capture = "{}.axfr"'
        it = self.fleet(capture, "--metrics", "m.prom", "--html", "h.html", "--results", "r")
        self.assertEqual(it.status, 4)
        self.assertIn('zonectl_status{zone="example.",server="ns2"} 0\n', (self.folder / "m.prom").read_text())
        self.assertIn("</html>", (self.folder / "h.html").read_text())
        for part in ("1", "2"):
            self.fleet(capture, "--part", f"{part}/2", "--results", f"part.{part}")
        merged = run_alone("fleet", "merge", "part.1", "part.2", "-o", "all")
        self.assertEqual((merged.status, merged.err), (4, it.err))
        self.assertRegex(self.shown_of_silent_zones(), rb"1 of 4 zones, 0 different, 1 failed, [0-9.]+ s left")

    def shown_of_silent_zones(self) -> bytes:
        """Returns what a terminal shows of a run on four zones for which nothing comes for a second."""
        self.write("z", "@ 60 SOA n h 1 2 3 4 5\n@ 60 NS n\n")
        self.write("zones.list", "".join(f"silent{it}. z\n" for it in range(4)))
        terminal, other = pty.openpty()
        with secondary() as server:
            self.write("fleet.toml", f'version = 1\n[zones]\nlist = "zones.list"\n[[server]]\nname = "ns2"\naddress = "127.0.0.1"\n'
                       f"port = {server.port}\ntimeout = 1\n")
            with subprocess.Popen(command("fleet", "run", "-c", "fleet.toml", "-j", "1"), stdout=subprocess.DEVNULL, stderr=other,
                                  env=environment()):
                os.close(other)
                shown = b""
                with contextlib.suppress(OSError):  # when nobody writes any more
                    while piece := os.read(terminal, 100_000):
                        shown += piece
        os.close(terminal)
        return shown


class CheckZones(Job):
    """check_zones."""

    def test_files_lists_annotations_and_what_is_staged(self) -> None:
        subprocess.run(["git", "init", "-q", "."], check=True)
        self.write(".git/hooks/pre-commit", "#!/bin/sh\nexec zonectl check -q --staged\n")
        self.write("bad.example.zone", (EXAMPLES / "refused-open-quote.zone").read_bytes())
        self.write("marked.example.zone", b"\xef\xbb\xbf; a comment\n" + ZONE.encode())
        self.write("list", "example. example.zone\nb.example. bad.example.zone\n")
        self.assertEqual(ran("check", "example.zone").status, 0)
        self.assertEqual(ran("check", "bad.example.zone").status, 3)
        it = ran("check", "--list", "list")
        self.assertEqual((it.status, it.out.splitlines()[0]), (3, "bad.example.zone:3: F14 UnclosedQuote: a quoted string isn't closed"))
        self.assertTrue(ran("check", "--format=github", "bad.example.zone").out.startswith("::error file=bad.example.zone,line=3,title=F14 "))
        it = ran("check", "marked.example.zone")
        self.assertEqual((it.status, "byte-order-mark" in it.out), (3, True))
        self.assertEqual(ran("check", "--staged").status, 0)
        subprocess.run(["git", "add", "bad.example.zone"], check=True)
        self.assertEqual(ran("check", "-q", "--staged").status, 3)
        (self.folder / ".git/hooks/pre-commit").chmod(0o755)
        bin = self.folder / "bin"
        bin.mkdir()
        (bin / "zonectl").write_text(f"#!/bin/sh\nexec {' '.join(command())} \"$@\"\n")
        (bin / "zonectl").chmod(0o755)
        words = ["git", "-c", "user.name=n", "-c", "user.email=e@example", "commit", "-q", "-m", "x"]
        it_ = subprocess.run(words, capture_output=True, text=True, env=environment(PATH=f"{bin}:{os.environ['PATH']}"))
        self.assertEqual((it_.returncode, "F14 UnclosedQuote" in it_.stdout + it_.stderr), (1, True))


class CaptureTransfer(Job):
    """capture_transfer SERVER ZONE FILE."""

    def test_a_file_standard_output_and_a_stream_that_stops(self) -> None:
        with serving(sends(STREAM)) as server, serving(sends(STREAM[:600])) as stopping:
            url = f"axfr://127.0.0.1:{server.port}/example"
            self.assertEqual(ran("fetch", url, "-o", "sent.axfr").status, 0)
            self.assertEqual(ran("diff", "example.zone", "sent.axfr"), SAME)
            whole = subprocess.run(command("fetch", url), capture_output=True, env=environment())
            self.assertEqual((whole.returncode, len(whole.stdout)), (0, len(STREAM)))
            it = ran("fetch", f"axfr://127.0.0.1:{stopping.port}/example", "-o", "stopped.axfr")
            self.assertEqual((it.status, os.path.exists("stopped.axfr")), (4, False))


class ToNsupdate(Job):
    """to_nsupdate OLD NEW."""

    def test_another_address(self) -> None:
        it = ran("diff", "-O", "example", "--format=nsupdate", "example.zone", "example.changed.zone")
        self.assertEqual(it, Ran(1, "zone example.\nupdate add web.example. 300 IN A 192.0.2.82\n"
                                 "update delete web.example. IN A 192.0.2.81\nsend\n", ""))
        self.assertEqual(ran("diff", "--format=nsupdate", "example.zone", "example.zone"), Ran(0, "", ""))

    def test_the_order_of_commands_with_the_soa_last(self) -> None:
        text = (self.folder / "first.zone").read_text()
        self.write("old", text + "new CNAME ns1\nold A 192.0.2.3\ngone A 192.0.2.4\nx TXT gone\n")
        self.write("new", text.replace("NS1", "new").replace("2401", "2402")
                   + "new A 192.0.2.1\nold CNAME new\ncome A 192.0.2.4\ny MX 1 come\n")
        it = ran("diff", "-O", "example", "--format=nsupdate", "old", "new")
        commands = [" ".join(line.split()[1:3]) for line in it.out.splitlines() if line.startswith("update")]
        self.assertEqual(commands, [
            "add come.example.", "delete new.example.", "add new.example.", "add example.", "add y.example.", "delete example.",
            "delete old.example.", "add old.example.", "delete x.example.", "delete gone.example.", "add example."])
        self.assertIn(" SOA ", it.out.splitlines()[-2])

    def test_parts_for_a_loop_and_signers(self) -> None:
        self.write("old", ZONE + "".join(f"old{it} TXT text\n" for it in range(3000)))
        self.write("new", ZONE + "".join(f"new{it} TXT text\n" for it in range(3000)))
        os.mkdir("parts")
        self.assertEqual(ran("diff", "-O", "x", "--format=nsupdate", "--parts", "parts", "old", "new").status, 1)
        names = sorted(os.listdir("parts"))
        self.assertTrue(len(names) > 1 and names[0] == "0001")
        for name in names:
            text = Path("parts", name).read_text()
            self.assertTrue(text.startswith("zone x.\n") and text.endswith("send\n") and len(text) < 65535)
        it = ran("diff", "-O", "example", "-i", "serial,dnssec", "--format=nsupdate", "signed-by-bind.axfr", "first.zone")
        self.assertEqual((it.status, it.out), (0, ""))


class Recipes(Job):
    def test_sign_off(self) -> None:
        text = ran("normalise", "example.zone").out
        (digest,) = re.findall("sha256:([0-9a-f]{64}) canonical-1 2026112301 example. example.zone\n", ran("sum", "example.zone").out)
        came = subprocess.run(["sha256sum"], input=text.encode(), capture_output=True).stdout.decode()
        self.assertEqual(came, f"{digest}  -\n")

    def test_an_archive_by_serial(self) -> None:
        os.mkdir("kept")
        self.assertEqual(ran("normalise", "--archive", "kept", "example.zone").status, 0)
        self.assertEqual(os.listdir("kept"), ["example.2026112301"])
        it = ran("normalise", "--archive", "kept", "-O", "example", "example.changed.zone")
        self.assertEqual((it.status, it.out), (1, "example.: DIFFERENT UNDER ONE SERIAL 2026112301\n"))

    def test_two_files_and_two_servers(self) -> None:
        self.assertEqual(ran("diff", "example.zone", "example.zone"), SAME)
        with serving(sends(STREAM)) as one, serving(sends(STREAM)) as other:
            self.assertEqual(ran("diff", *(f"axfr://127.0.0.1:{it.port}/example" for it in (one, other))), SAME)

    def test_a_text_conversion_of_git(self) -> None:
        self.assertEqual(ran("normalise", "--textconv", "example.zone").out, ran("normalise", "-p", "example.zone").out)
        it = ran("normalise", "--textconv", "-O", "example", "refused-unknown-type.zone")
        self.assertEqual(it, Ran(0, (self.folder / "refused-unknown-type.zone").read_text(), "")) if it.out.startswith("@") else None

    def test_a_monitor(self) -> None:
        script = (f"line=$({' '.join(command('diff'))} \"$@\" 2>&1)\ncase $? in\n0) status=0 ;;\n1) status=2 ;;\n*) status=3 ;;\nesac\n"
                  "printf '%s\\n' \"$line\" | head -n 1\nexit $status\n")
        for words, status, line in (
            (("example.zone", "example.axfr"), 0, "same, serial 2026112301, 30 records\n"),
            (("-O", "example", "example.changed.zone", "example.axfr"), 2, "DIFFERENT UNDER ONE SERIAL 2026112301\n"),
            (("example.zone", "missing"), 3, "zonectl: missing: it can't be read: no such file or directory\n"),
        ):
            it = subprocess.run(["sh", "-c", script, "check_zone", *words], capture_output=True, text=True, env=environment())
            self.assertEqual((it.returncode, it.stdout), (status, line))


@unittest.skipUnless((TOP / "systemd").is_dir(), "the units aren't beside the tests")
class Units(InFolder):
    def test_the_units_run_fleet(self) -> None:
        service = (TOP / "systemd/zonectl-fleet.service").read_text()
        for line in ("Type=oneshot", "ExecStart=/usr/bin/zonectl fleet run -c /etc/zonectl/fleet.toml", "DynamicUser=yes",
                     "StateDirectory=zonectl", "LoadCredential=transfer.key:/etc/zonectl/transfer.key", "TimeoutStartSec=2h", "MemoryMax=8G",
                     "ProtectSystem=strict", "PrivateTmp=yes", "NoNewPrivileges=yes"):
            self.assertIn(f"\n{line}\n", service)
        timer = (TOP / "systemd/zonectl-fleet.timer").read_text()
        for line in ("OnCalendar=*-*-* 03:17", "RandomizedDelaySec=10min", "Persistent=yes"):
            self.assertIn(f"\n{line}\n", timer)
        if shutil.which("systemd-analyze"):
            for name in ("zonectl-fleet.service", "zonectl-fleet.timer"):
                text = (TOP / "systemd" / name).read_text().replace("/usr/bin/zonectl", "/bin/true")
                self.write(name, re.sub("Documentation=.*\n", "", text))
            it = subprocess.run(["systemd-analyze", "verify", "./zonectl-fleet.service", "./zonectl-fleet.timer"], capture_output=True, text=True)
            self.assertEqual(it.returncode, 0, it.stderr)

    def test_the_sample_is_a_configuration(self) -> None:
        from zonectl.fleet import config

        it = config.read(str(TOP / "systemd/fleet.toml"))
        self.assertEqual((it.server[0].name, it.run.state, it.keys), ("ns2", "/var/lib/zonectl/state", {"transfer": "/etc/zonectl/transfer.key"}))


if __name__ == "__main__":
    unittest.main()
