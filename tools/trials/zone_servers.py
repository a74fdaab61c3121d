"""BIND, NSD and Knot with a zone file on loopback, and files that their signers write, for
tools/trials/try_servers."""
import contextlib
import functools
import os
import re
import shutil
import socket
import subprocess
import sys
import tempfile
import time
from pathlib import Path
from typing import NamedTuple

TOP = Path(__file__).resolve().parents[2]
EXAMPLES = TOP / "examples"
LIBRARY = TOP / "build/unproved/libzonenorm.so.1"  # of zonectl
ENVIRONMENT = {**os.environ, "PYTHONPATH": str(TOP / "python"), "PYTHONDONTWRITEBYTECODE": "1"}
ENVIRONMENT.setdefault("ZONENORM_LIBRARY", str(LIBRARY))
ZONECTL = (sys.executable, "-m", "zonectl")


def said(*words, **more):
    """Runs a program to its end, and answers its status and what it said."""
    ran = subprocess.run(words, stdout=subprocess.PIPE, stderr=subprocess.STDOUT, **more)
    return ran.returncode, ran.stdout.decode(errors="replace").strip()


def free_port():
    with socket.socket() as found:
        found.bind(("127.0.0.1", 0))
        return found.getsockname()[1]


class Key(NamedTuple):
    """A key of TSIG, and its file."""

    name: str
    algorithm: str
    secret: str
    file: Path

    @classmethod
    def made(cls, folder, name, algorithm="hmac-sha256"):
        status, text = said("tsig-keygen", "-a", algorithm, name)
        assert status == 0, text
        file = folder / f"{name}-{algorithm}.key"
        file.write_text(text)
        return cls(name, algorithm, re.search(r'secret "(.*)"', text)[1], file)


def named(folder, file, port, keys=(), top="", options="", more="", of="IN"):
    allowed = "".join(f'key "{key.name}"; ' for key in keys) or "any;"
    statements = "".join(key.file.read_text() for key in keys)
    (folder / "named.conf").write_text(
        f"""{top} {statements} options {{ directory "{folder}"; pid-file none; session-keyfile none;
            recursion no; listen-on port {port} {{ 127.0.0.1; }}; listen-on-v6 {{ none; }};
            allow-transfer {{ {allowed} }}; notify no; dnssec-validation no;
            check-names primary ignore; {options} }};
        controls {{ }};
        view "one" {of} {{
            zone "example" {of} {{ type primary; file "{file}"; check-integrity no; {more} }};
        }};
        """
    )
    return ["named", "-g", "-c", str(folder / "named.conf")]


def nsd(folder, file, port, keys=(), options=""):
    allowed = [key.name for key in keys] or ["NOKEY"]
    statements = "".join(
        f"key:\n    name: {key.name}\n    algorithm: {key.algorithm}\n    secret: {key.secret}\n"
        for key in keys
    )
    (folder / "nsd.conf").write_text(
        f"""server:
    ip-address: 127.0.0.1@{port}
    port: {port}
    username: ""
    zonesdir: "{folder}"
    pidfile: ""
    xfrdir: "{folder}"
    xfrdfile: ""
    zonelistfile: "{folder}/zone.list"
    database: ""
    server-count: 1
{options}remote-control:
    control-enable: no
{statements}zone:
    name: example
    zonefile: "{file}"
"""
        + "".join(f"    provide-xfr: 127.0.0.1 {name}\n" for name in allowed)
    )
    return ["nsd", "-d", "-c", str(folder / "nsd.conf")]


def knot(folder, file, port, keys=(), actions="transfer", more=""):
    (folder / "db").mkdir()
    statements = "".join(
        f"  - id: {key.name}\n    algorithm: {key.algorithm}\n    secret: {key.secret}\n"
        for key in keys
    )
    allowed = f"    key: [{', '.join(key.name for key in keys)}]\n" if keys else ""
    (folder / "knot.conf").write_text(
        f"""server:
    listen: 127.0.0.1@{port}
    rundir: "{folder}"
database:
    storage: "{folder}/db"
{"key:" if keys else ""}
{statements}
acl:
  - id: all
    address: 127.0.0.1
    action: {actions}
{allowed}template:
  - id: default
    storage: "{folder}"
    semantic-checks: off
zone:
  - domain: example.
    file: "{file}"
    acl: all
{more}"""
    )
    return ["knotd", "-c", str(folder / "knot.conf")]


def signing_knot(hashing="sha384"):
    """Knot, which signs and has a digest by SHA-384 or SHA-512 in the zone."""
    return functools.partial(
        knot,
        more=f"    dnssec-signing: on\n    zonemd-generate: zonemd-{hashing}\n"
        "    zonefile-sync: -1\n    zonefile-load: difference-no-serial\n"
        "    journal-content: all\n",
    )


SERVERS = {"BIND": named, "NSD": nsd, "Knot": knot}
# Servers that sign by themselves, each with a type that it then sends beside those of signatures.
SIGNERS = {
    "BIND, signing": functools.partial(named, more="inline-signing yes; dnssec-policy default;"),
    "BIND, signing with NSEC3": functools.partial(
        named, top="dnssec-policy hashed { nsec3param iterations 0 optout no salt-length 8; };",
        more="inline-signing yes; dnssec-policy hashed;",
    ),
    "Knot, signing": signing_knot(),
    "Knot, signing with SHA-512": signing_knot("sha512"),
}
SENT_BY_SIGNERS = {
    "BIND, signing": "TYPE65534", "BIND, signing with NSEC3": "TYPE50", "Knot, signing": "TYPE63",
}


def url_of(port, options, of="IN"):
    """The zone of the server at a port; over TLS if an option says how."""
    scheme = "axfrs" if any(str(it).startswith("--tls") for it in options) else "axfr"
    return f"{scheme}://127.0.0.1:{port}/example?class={of}"


def zonectl(*words, run=ZONECTL):
    """The status of zonectl, and what it says."""
    return said(*run, *words, env=ENVIRONMENT)


def captured(port, path, *more, run=ZONECTL, of="IN"):
    """Captures the transfer of the server at a port: the status, and what was said."""
    Path(path).write_bytes(b"")  # since zonectl leaves a file as it is if nothing came
    return zonectl("fetch", "-t", "5", *more, url_of(port, more, of), "-o", path, run=run)


def stream_of(port, path, *more, of="IN"):
    """The status alone."""
    return captured(port, path, *more, of=of)[0]


@contextlib.contextmanager
def serving(server, file, *more, **settings):
    """A server of a zone file on loopback: its port, once it sends the zone to who asks so."""
    with tempfile.TemporaryDirectory(prefix="try-servers-") as name:
        folder, port = Path(name), free_port()
        shutil.copy(file, folder / "zone")
        with open(folder / "log", "wb") as log:
            words = (SERVERS | SIGNERS)[server](folder, "zone", port, **settings)
            ran = subprocess.Popen(words, stdout=log, stderr=log)
        try:
            for _ in range(100):
                if stream_of(port, os.devnull, *more, of=settings.get("of", "IN")) == 0:
                    break
                time.sleep(0.1)
            else:
                print(f"{server} doesn't send {file}:\n{(folder / 'log').read_text()[-2000:]}")
                sys.exit(4)
            yield port
        finally:
            ran.terminate()
            ran.wait(20)


def signed_zone(folder, file=EXAMPLES / "example.canonical", *more):
    """A zone signed by dnssec-signzone, as a file of records in words."""
    shutil.copy(file, folder / "zone")
    for key in (["-f", "KSK"], []):
        words = ["-q", "-a", "ECDSAP256SHA256", *key, "example"]
        status, text = said("dnssec-keygen", *words, cwd=folder)
        assert status == 0, text
    words = ["-S", "-P", "-x", *more, "-o", "example", "-f", "signed", "zone"]
    status, text = said("dnssec-signzone", *words, cwd=folder)
    assert status == 0, text
    return folder / "signed"


def signed_by_knot(folder, file, hashing="sha384"):
    """A zone signed by Knot's kzonesign, as a file of records in words."""
    (folder / "signed").mkdir()
    shutil.copy(file, folder / "zone")
    more = f"    dnssec-signing: on\n    zonemd-generate: zonemd-{hashing}\n"
    knot(folder, "zone", 53, more=more)
    words = ["-c", folder / "knot.conf", "-o", folder / "signed", "example."]
    status, text = said("kzonesign", *words)
    assert status == 0, text
    return folder / "signed" / "zone"


def signed_by_ldns(folder, file, *hashing):
    """A zone signed by ldns-signzone with these digests, as a file of records in words."""
    shutil.copy(file, folder / "zone")
    status, key = said("ldns-keygen", "-a", "ECDSAP256SHA256", "example", cwd=folder)
    assert status == 0, key
    words = [word for it in hashing for word in ("-z", it)]
    status, text = said("ldns-signzone", *words, "-f", "signed", "zone", key, cwd=folder)
    assert status == 0, text
    return folder / "signed"
