"""What a run of a program takes: CPU seconds, peak memory and user instructions."""
from __future__ import annotations

import os
import re
import shutil
import subprocess
import tempfile
import time
from collections.abc import Sequence

PLAIN = {**os.environ, "LC_ALL": "C"}


def measured(words: Sequence[str], stdin: str, stdout: str = os.devnull) -> tuple[float, int] | None:
    """CPU seconds and peak memory in octets, where the answer is that an input is accepted or refused."""
    with open(stdin, "rb") as zone, open(stdout, "wb") as sink:
        child = subprocess.Popen(words, stdin=zone, stdout=sink, stderr=subprocess.DEVNULL, env=PLAIN)
        # the peak that wait4 tells has that of this process in it, from before the program was loaded
        peak = 0
        while os.waitid(os.P_PID, child.pid, os.WEXITED | os.WNOHANG | os.WNOWAIT) is None:
            peak = max(peak, peak_of(child.pid))
            time.sleep(0.002)
        _, status, used = os.wait4(child.pid, 0)
        child.returncode = os.waitstatus_to_exitcode(status)
    return (used.ru_utime + used.ru_stime, peak) if child.returncode in (0, 3) else None


def peak_of(pid: int) -> int:
    """The peak memory of a process so far, in octets."""
    with open(f"/proc/{pid}/status") as told:
        found = re.search(r"VmHWM:\s+(\d+)", told.read())
    return int(found[1]) * 1024 if found else 0


def instructions(words: Sequence[str], stdin: str) -> int | None:
    """User instructions, by perf or else by valgrind."""
    if shutil.which("perf"):
        with open(stdin, "rb") as zone, tempfile.NamedTemporaryFile("r") as told:
            subprocess.run(["perf", "stat", "-x,", "-e", "instructions:u", "-o", told.name, *words], stdin=zone,
                           stdout=subprocess.DEVNULL, stderr=subprocess.DEVNULL)
            for line in told.read().splitlines():
                if "instructions" in line and line.split(",")[0].isdigit():
                    return int(line.split(",")[0])
    return instructions_by_valgrind(words, stdin) if shutil.which("valgrind") else None


def instructions_by_valgrind(words: Sequence[str], stdin: str) -> int | None:
    """User instructions, the same in each run."""
    with open(stdin, "rb") as zone:
        done = subprocess.run(["valgrind", "--tool=cachegrind", "--cache-sim=no", "--cachegrind-out-file=/dev/null", *words],
                              stdin=zone, stdout=subprocess.DEVNULL, stderr=subprocess.PIPE, text=True, env=PLAIN)
    found = re.search(r"I +refs: +([\d,]+)", done.stderr)
    return int(found[1].replace(",", "")) if found else None
