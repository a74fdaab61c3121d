"""Mistakes that are put into a copy of the repository one by one, where a script that reads must tell each."""
import subprocess
import sys
from collections.abc import Sequence
from dataclasses import dataclass
from pathlib import Path


@dataclass(frozen=True)
class Mistake:
    """What is wrong, a file below the top, a text that stands once in it, what takes its place, and what must be told."""

    what: str
    file: str
    old: str
    new: str
    told: str


def told(copy: Path, script: str) -> tuple[bool, str]:
    """Whether a script in a copy is content, and what it tells."""
    run = subprocess.run([copy / script], stdout=subprocess.PIPE, stderr=subprocess.STDOUT, text=True)
    return run.returncode == 0, run.stdout


def see_each_told(copy: Path, script: str, mistakes: Sequence[Mistake]) -> None:
    """Puts each mistake into the copy, and ends the program where the script doesn't tell one of them."""
    content, words = told(copy, script)
    if not content:
        sys.exit(f"nothing was changed yet:\n{words}")
    missed = 0
    for it in mistakes:
        file = copy / it.file
        text = file.read_text()
        if text.count(it.old) != 1:
            sys.exit(f"{it.what}: its text stands {text.count(it.old)} times in {it.file}, not once")
        file.write_text(text.replace(it.old, it.new))
        content, words = told(copy, script)
        if content or it.file not in words or it.told not in words:
            missed += 1
            print(f"not told: {it.what}\n{words}")
        file.write_text(text)
    if missed:
        sys.exit(f"{missed} of {len(mistakes)} mistakes aren't told")
    print(f"each of {len(mistakes)} mistakes is told")
