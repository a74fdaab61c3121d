"""What a script needs before it begins. Where something isn't there, the script ends at once and prints the command to run."""
from __future__ import annotations

import shutil
import subprocess
import sys
from collections.abc import Iterable
from importlib.util import find_spec
from pathlib import Path
from typing import NoReturn

TOP = Path(__file__).resolve().parents[1]
PROGRAMS = ("zonenorm", "zonewords", "zonedigest", "zonefile")
UNPROVED = TOP / "build" / "unproved"


def stop(why: str) -> NoReturn:
    """Ends the script with status 1."""
    sys.exit(f"{Path(sys.argv[0]).name}: {why}")


def shown(path: Path) -> str:
    """Returns a path as short as it can be named from the top of the repository."""
    return str(path.relative_to(TOP)) if path.is_relative_to(TOP) else str(path)


def how_to_build(path: Path) -> str:
    """Returns the command that makes a program."""
    if path.parent == UNPROVED:
        return "`make programs` builds it without proofs, in a minute"
    if path == TOP / "crates" / path.name / "out" / path.name:
        return "`make prove` proves and builds it, in 15 minutes on 4 processors"
    if path.name.endswith("_tests"):
        return f"`rt test` in crates/{path.name.removesuffix('_tests')} proves and builds it"
    return "give another path"


def program(path: Path | str) -> Path:
    """Returns the path of a program, absolute. Ends the script where the program isn't built."""
    found = Path(path).resolve()
    if not found.is_file():
        stop(f"{shown(found)} isn't built: {how_to_build(found)}")
    return found


def programs(given: list[str], names: Iterable[str] = PROGRAMS) -> dict[str, Path]:
    """Returns the paths of programs by name: those given, in order, else the proved ones. `--unproved` gives the unproved ones.

    Ends the script where one isn't built.
    """
    of_name = {name: TOP / "crates" / name / "out" / name for name in names}
    if given == ["--unproved"]:
        of_name = {name: UNPROVED / name for name in names}
    else:
        of_name.update(zip(of_name, map(Path, given)))
    return {name: program(path) for name, path in of_name.items()}


def commands(*names: str, package: str = "") -> None:
    """Ends the script where one of these commands isn't installed; `package` is what Debian calls theirs, where that differs."""
    missing = [name for name in names if not shutil.which(name)]
    if missing:
        stop(f"{', '.join(missing)} not found: apt-get install {package or ' '.join(missing)}")


def module(name: str, package: str) -> None:
    """Ends the script where a module of Python isn't installed; `package` is Debian's that has it."""
    if not find_spec(name):
        stop(f"the module {name} of Python not found: apt-get install {package}, and run this with /usr/bin/python3")


def kit() -> Path:
    """Returns the folder of the Rattle kit. Ends the script where the command `rt` isn't there."""
    if not shutil.which("rt"):
        stop("rt not found: it is the command of the Rattle kit, without which nothing is built or proved (README.md, \"Install\")")
    page = subprocess.run(["rt", "doc"], stdout=subprocess.PIPE, text=True, check=True).stdout.strip()
    return Path(page).parent
