#!/usr/bin/env python3
"""Makes the wheel of the module, with the shared library and the command zonectl in it, by the format of wheels (PEP 427), and prints
its path.

    python/build_wheel.py LIBRARY FOLDER    LIBRARY is the libzonenorm.so.1 of tools/package/build_library
    python/build_wheel.py --metadata        prints the metadata alone

The wheel is for any Python from 3.11 on, on x86-64 Linux with glibc 2.17 or later. The same files give the same octets.
"""
from __future__ import annotations

import base64
import hashlib
import sys
import tomllib
import zipfile
from pathlib import Path

HERE = Path(__file__).resolve().parent
TAG = "py3-none-manylinux_2_17_x86_64"


def metadata() -> tuple[str, str]:
    """The name and the version, and the text of the file METADATA."""
    project = tomllib.loads((HERE / "pyproject.toml").read_text())["project"]
    lines = ["Metadata-Version: 2.1", f"Name: {project['name']}", f"Version: {project['version']}", f"Summary: {project['description']}"]
    lines += [f"Requires-Python: {project['requires-python']}", *(f"Classifier: {it}" for it in project["classifiers"])]
    lines += ["Description-Content-Type: text/markdown", "", (HERE / "README.md").read_text()]
    return f"{project['name']}-{project['version']}", "\n".join(lines)


def main(library: Path, folder: Path) -> None:
    name, text = metadata()
    modules = [path for package in ("zonenorm", "zonectl") for path in sorted((HERE / package).rglob("*.py"))]
    modules += sorted((HERE / "zonectl/schemas").glob("*.json"))
    files = {path.relative_to(HERE).as_posix(): path.read_bytes() for path in modules}
    files |= {"zonenorm/py.typed": b"", "zonectl/py.typed": b"", "zonenorm/libzonenorm.so.1": library.read_bytes()}
    files |= {f"{name}.dist-info/METADATA": text.encode()}
    files[f"{name}.dist-info/entry_points.txt"] = b"[console_scripts]\nzonectl = zonectl.main:script\n"
    files[f"{name}.dist-info/WHEEL"] = f"Wheel-Version: 1.0\nGenerator: build_wheel.py\nRoot-Is-Purelib: false\nTag: {TAG}\n".encode()
    digests = {at: base64.urlsafe_b64encode(hashlib.sha256(octets).digest()).rstrip(b"=").decode() for at, octets in files.items()}
    rows = [f"{at},sha256={digests[at]},{len(octets)}\n" for at, octets in files.items()]
    files[f"{name}.dist-info/RECORD"] = "".join([*rows, f"{name}.dist-info/RECORD,,\n"]).encode()
    path = folder / f"{name}-{TAG}.whl"
    with zipfile.ZipFile(path, "w", zipfile.ZIP_DEFLATED) as wheel:
        for at, octets in files.items():
            entry = zipfile.ZipInfo(at, (2026, 1, 1, 0, 0, 0))
            entry.external_attr, entry.compress_type = 0o644 << 16, zipfile.ZIP_DEFLATED
            wheel.writestr(entry, octets)
    print(path)


if __name__ == "__main__":
    match sys.argv[1:]:
        case ["--metadata"]:
            print(metadata()[1], end="")
        case [library, folder] if not library.startswith("-"):
            main(Path(library), Path(folder))
        case _:
            sys.exit("usage: python/build_wheel.py LIBRARY FOLDER, or --metadata")
