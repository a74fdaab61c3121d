"""The repository's crates and their libraries that are built."""
import os
import shutil
from pathlib import Path

TOP = Path(__file__).resolve().parents[2]


class Libraries:
    """The crates that each crate uses, and where their libraries are: in the crates, or in a folder that they are linked into, since
    rt ci takes its own away at its end."""

    def __init__(self, folder: str | None = None) -> None:
        rows = [line.split(":", 1) for line in (TOP / "crates.txt").read_text().splitlines() if ":" in line]
        self.uses = {name.split()[0]: names.split() for name, names in rows}
        self.folder = folder

    def place(self, name: str) -> Path:
        return Path(self.folder, name) if self.folder else TOP / "crates" / name / "out/rlib"

    def take(self, name: str) -> None:
        """Links what rt ci has built of a crate, if it is a library, into the folder."""
        if (TOP / "crates" / name / "out/rlib").is_dir():
            shutil.copytree(TOP / "crates" / name / "out/rlib", self.place(name), copy_function=link)

    def are_built(self, crate: str) -> bool:
        """Whether each library that a crate uses is built."""
        return all(self.place(it).is_dir() for it in self.uses[crate] if it in self.uses)


def link(old: str, new: str) -> None:
    """Gives a file a second name, or copies it where it can't have one."""
    try:
        os.link(old, new)
    except OSError:
        shutil.copy2(old, new)
