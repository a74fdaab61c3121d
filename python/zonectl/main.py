"""Runs a subcommand to its end: what goes wrong is a line on standard error and a status, never a traceback."""
from __future__ import annotations

import argparse
import contextlib
import importlib
import json
import os
import signal
import sys
from types import ModuleType
from typing import NoReturn

from . import __version__, texts as _texts  # noqa: F401  which registers how standard output escapes
from .errors import Failure, Status, Undone, Usage, system_reason
from .outputs import Output, say, to_standard_output

SIGNALS = (signal.SIGINT, signal.SIGHUP, signal.SIGTERM)
ABOUT = {  # what comes after each, and what it does
    "normalise": ("SOURCE", "print the canonical text of a zone"),
    "diff": ("A B", "print how two copies of a zone differ"),
    "check": ("[SOURCE|FOLDER..]", "print what is wrong with zone files, and which servers refuse them"),
    "sum": ("SOURCE..", "print the digest of each zone; sum --check FILE compares"),
    "zonemd": ("verify|add SOURCE", "verify a zone against its ZONEMD record, or give it one"),
    "fetch": ("SOURCE -o FILE", "keep the octets that a server sends"),
    "fleet": ("run|report|merge", "compare many zones with many servers"),
    "completion": ("bash|zsh|fish", "print a completion for the shell"),
}
COMMANDS = {**{name: name for name in ABOUT}, "normalize": "normalise"}  # and the module of each
HELP = f"""\
usage: zonectl COMMAND [OPTION].. SOURCE..

Are two copies of a DNS zone the same, and if not, what differs?

{"".join(f"  {f'{name} {more}':<27} {what}{chr(10)}" for name, (more, what) in ABOUT.items())}
SOURCE is a file, - (standard input), axfr://[KEY@]HOST[:PORT]/ZONE, axfrs:// (over TLS), https://..,
git:[REV]:PATH, or file:PATH, capture:PATH or dig:PATH.

  -h, --help                  print this help; zonectl COMMAND --help prints that of a command
  -V, --version               print the versions of zonectl, zonenorm and the canonical text

Exit status: 0 good, the same, written; 1 different; 2 the command line is wrong; 3 an input is refused; 4 it couldn't be done.
"""


def module_of(name: str) -> ModuleType:
    """Returns the module of a subcommand. Raises Usage."""
    if name not in COMMANDS:
        raise Usage(f"there is no subcommand {name} (zonectl --help)")
    return importlib.import_module(f".commands.{COMMANDS[name]}", __package__)


def version() -> str:
    """Returns the line of `--version`. Raises Undone if the library is missing or too old."""
    from . import engine

    return f"zonectl {__version__}, zonenorm {engine.VERSION}, canonical text {engine.CANONICAL.rpartition('-')[2]}\n"


def run(arguments: list[str], output: Output) -> int:
    """Returns the status of a command line. Raises Failure."""
    if not arguments:
        raise Usage("a subcommand is missing (zonectl --help)")
    if arguments[0] in ("-h", "--help"):
        output.result(HELP)
        return Status.SAME
    if arguments[0] in ("-V", "--version"):
        output.result(version())
        return Status.SAME
    if arguments[0].startswith("-"):
        raise Usage(f"the option {arguments[0]} comes after a subcommand (zonectl --help)")
    module = module_of(arguments[0])
    parser = module.parser()
    given: argparse.Namespace = parser.parsed(arguments[1:])
    if given.help or given.version:
        output.result(parser.format_help() if given.help else version())
        return Status.SAME
    output.is_quiet, output.colour = getattr(given, "quiet", False), getattr(given, "color", "auto")
    if getattr(given, "output", None) == "-":
        given.output = None
    status: int = module.run(given, output)
    return status


def failed(failure: Failure, output: Output, is_json: bool) -> int:
    """Reports a failure, and returns its status."""
    output.end(failure.status)
    say(f"zonectl: {failure.sentence()}")
    if is_json:
        with contextlib.suppress(Failure):  # where standard output is what failed
            output.result(json.dumps({
                "format": "zonectl-error/1", "status": int(failure.status), "source": failure.source, "fault": failure.fault or None,
                "name": failure.name, "line": failure.line, "text": failure.text,
            }) + "\n")
    return failure.status


def main(arguments: list[str]) -> int:
    """Returns the exit status of a command line."""
    output = Output()
    end = arguments.index("--") if "--" in arguments else len(arguments)
    is_json = bool({"--json", "--format=json"} & set(arguments[:end]))
    try:
        try:
            status = run(arguments, output)
            output.end(status)
            return status
        except Failure as failure:
            return failed(failure, output, is_json)
    except KeyboardInterrupt:
        return failed(Undone("interrupted"), output, False)
    except BrokenPipeError:
        return Status.UNDONE
    except OSError as error:
        return failed(Undone(system_reason(error)), output, False)
    except MemoryError:
        return failed(Undone("out of memory"), output, False)
    except Exception as error:  # which no user has to read as a traceback
        if "--debug" in arguments:
            import traceback

            traceback.print_exc()
        return failed(Undone(f"a fault of zonectl itself: {type(error).__name__} (--debug shows where)"), output, False)


def _interrupt(_number: int, _frame: object) -> NoReturn:
    for number in SIGNALS:  # another one doesn't interrupt the end
        signal.signal(number, signal.SIG_IGN)
    raise KeyboardInterrupt


def script() -> NoReturn:
    """Runs the command line of the process."""
    for number in SIGNALS:
        if signal.getsignal(number) != signal.SIG_IGN:
            signal.signal(number, _interrupt)
    for stream in filter(None, (sys.stdout, sys.stderr)):
        stream.reconfigure(errors="zonectl")  # type: ignore[attr-defined]
    status = main(sys.argv[1:])
    try:
        if sys.stdout:
            to_standard_output(b"")
    except (OSError, Undone):
        status = Status.UNDONE
    os._exit(int(status))  # at once, whatever threads wait for
