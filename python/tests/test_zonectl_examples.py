"""The examples of zonectl's specification, to the byte: zonectl_session.txt, run by sh in a copy of examples/."""
from __future__ import annotations

import os
import re
import shutil
import stat
import subprocess
import sys
import unittest
from collections.abc import Iterator

from zonectl_support import EXAMPLES, HERE, InFolder, drips, environment, sends, serving

README = HERE.parents[1] / "README.md"
SESSION = HERE / "zonectl_session.txt"
AXFR = (EXAMPLES / "example.axfr").read_bytes()


def session() -> Iterator[tuple[str, str]]:
    """Yields each command with what it writes on both outputs and its status, as `[N]`."""
    command = ""
    lines: list[str] = []
    for line in SESSION.read_text().splitlines():
        if line.startswith("$ "):
            command, lines = line[2:], []
        elif command:
            lines.append(line)
            if line.startswith("[") and line.endswith("]") and line[1:-1].isdigit():
                yield command, "\n".join(lines)
                command = ""


class Examples(InFolder):
    def setUp(self) -> None:
        super().setUp()
        for path in EXAMPLES.iterdir():
            if path.is_file():
                shutil.copy(path, self.folder)
        program = self.folder / "bin/zonectl"
        program.parent.mkdir()
        program.write_text(f'#!/bin/sh\nexec {sys.executable} -m zonectl "$@"\n')
        program.chmod(program.stat().st_mode | stat.S_IXUSR)

    def run_by_sh(self, command: str) -> str:
        """Returns what a command writes and its status."""
        path = f"{self.folder / 'bin'}{os.pathsep}{os.environ['PATH']}"
        it = subprocess.run(
            ["sh", "-c", command], stdout=subprocess.PIPE, stderr=subprocess.STDOUT, stdin=subprocess.DEVNULL, timeout=60,
            env=environment(PATH=path))
        return f"{it.stdout.decode()}[{it.returncode}]"

    def test_each_example(self) -> None:
        with serving(sends(AXFR)) as server, serving(drips(AXFR)) as dripping:
            names = {"192.0.2.53": f"127.0.0.1:{server.port}", "192.0.2.99": f"127.0.0.1:{dripping.port}"}
            for number, (command, wanted) in enumerate(session()):
                with self.subTest(command):
                    for name, at in names.items():
                        command, wanted = command.replace(f"//{name}/", f"//{at}/"), wanted.replace(f"//{name}/", f"//{at}/")
                    self.assertEqual(self.run_by_sh(command), wanted)
            self.assertGreater(number, 15)
            self.assertEqual(len(dripping.queries), 1)

    @unittest.skipUnless(README.exists(), "the documents aren't beside the tests")
    def test_the_first_screen_of_the_readme(self) -> None:
        blocks = re.findall(r"^    \$ (zonectl .*)\n((?:    (?!\$).*\n)*)", README.read_text(), re.M)
        self.assertEqual({command.split()[1] for command, _ in blocks}, {"diff", "check", "sum"})
        with serving(sends(AXFR)) as server:
            for command, text in blocks:
                with self.subTest(command):
                    came = self.run_by_sh(command.replace("//192.0.2.53/", f"//127.0.0.1:{server.port}/"))
                    self.assertEqual(came.rpartition("[")[0], re.sub("^    ", "", text, flags=re.M))
