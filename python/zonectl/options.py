"""The command line: a parser of each subcommand, made when it is needed."""
from __future__ import annotations

import argparse
import os
from collections.abc import Callable, Iterator, Sequence
from typing import TYPE_CHECKING, NoReturn, TypeVar

from . import bounds
from .bounds import Limits
from .errors import Failure, Undone, Usage, about
from .names import absolute
from .outputs import Output
from .reading import Access
from .texts import counted
from .trust import Trust
from .zones import Reader

if TYPE_CHECKING:
    from .tsig import Key

MOST_OF_KEYS = 1 << 20
T = TypeVar("T")
R = TypeVar("R")


class Parser(argparse.ArgumentParser):
    """A parser that raises Usage. Options and operands come in any order; after `--` come operands alone."""

    def __init__(self, name: str, usage: str, about: str) -> None:
        super().__init__(
            prog=f"zonectl {name}", usage=f"zonectl {name} {usage}", description=about, allow_abbrev=False, add_help=False,
            formatter_class=argparse.RawDescriptionHelpFormatter)
        self.name = name
        self.alone: dict[str, str] = {}  # what options that may have no value mean without one
        self.words: tuple[str, ...] = ()  # what the first operand is
        self.add_argument("operands", nargs="*", help=argparse.SUPPRESS)
        self.add_argument("-h", "--help", action="store_true", help="print this help")
        self.add_argument("-V", "--version", action="store_true", help="print the versions of zonectl, zonenorm and the text")
        self.add_argument("--debug", action="store_true", help=argparse.SUPPRESS)

    def error(self, message: str) -> NoReturn:
        """Raises Usage."""
        raise Usage(f"{message.removeprefix('argument ')} (zonectl {self.name} --help)")

    def parsed(self, arguments: list[str]) -> argparse.Namespace:
        """Returns what a command line says. Raises Usage."""
        end = arguments.index("--") if "--" in arguments else len(arguments)
        given = self.parse_intermixed_args([f"{it}={self.alone[it]}" if it in self.alone else it for it in arguments[:end]])
        given.operands += arguments[end + 1 :]
        return given

    def option(self, *names: str, type: Callable[[str], T] | None = None, **more: object) -> None:
        """Adds an option. What its type raises as ValueError is the text of a usage error."""

        def checked(text: str) -> T:
            assert type
            try:
                return type(text)
            except ValueError as error:
                raise argparse.ArgumentTypeError(str(error)) from None

        if type:
            more["type"] = checked
        self.add_argument(*names, **more)  # type: ignore[arg-type]

    def options(self) -> list[argparse.Action]:
        """Returns the options that help shows."""
        return [it for it in self._actions if it.option_strings and it.help != argparse.SUPPRESS]


def add_output(parser: Parser, has_json: bool = True) -> None:
    """Adds what every subcommand has."""
    parser.option("-o", "--output", metavar="FILE", help="write there, whole or not at all (standard output)")
    parser.option("-q", "--quiet", action="store_true", help="no output and no notes where the status is 0")
    if has_json:
        parser.option("--json", action="store_true", help="the result as a JSON object")
    parser.option("--color", choices=("auto", "always", "never"), default="auto", metavar="WHEN",
                  help="colours: auto (on a terminal), always or never")


def form_of(given: argparse.Namespace) -> str:
    """Returns the format that a command line asks for. Raises Usage."""
    if given.json and given.format not in (None, "json"):
        raise Usage(f"--json and --format={given.format} don't go together")
    return given.format or ("json" if given.json else "text")


def add_sources(parser: Parser, has_origin: bool = True) -> None:
    """Adds how sources are read."""
    if has_origin:
        parser.option("-O", "--origin", type=absolute, metavar="NAME", help="the zone of a file")
        parser.option("--origin-from", choices=("name", "text"), metavar="WHICH",
                      help="name or text: which one says the zone of a file, where its name and its text disagree")
    parser.option("-k", "--key", action="append", default=[], metavar="FILE",
                  help="TSIG keys as tsig-keygen writes them; may be repeated")
    parser.option("--tls-ca", metavar="FILE", help="trust these certificates (PEM) instead of the system's")
    parser.option("--tls-name", metavar="NAME", help="the name in the server's certificate, if it isn't HOST")
    parser.option("--tls-client", metavar="FILE", help="client certificate and key (PEM)")
    parser.option("--tls-no-verify", action="store_true", help="don't check the server's certificate")
    parser.option("-t", "--timeout", type=bounds.seconds, default=30.0, metavar="TIME", help="bound of each wait (30s; 0: none)")
    parser.option("--deadline", type=bounds.seconds, default=600.0, metavar="TIME", help="bound of one source (10m; 0: none)")
    parser.option("--run-deadline", type=bounds.seconds, default=3600.0, metavar="TIME", help="bound of the command (1h; 0: none)")
    parser.option("--max-size", type=bounds.octets, default=128 << 20, metavar="SIZE",
                  help="bound of one source after decompression (128M; at most 1G)")


def add_jobs(parser: Parser) -> None:
    """Adds how many inputs are read at once."""
    parser.option("-j", "--jobs", type=bounds.whole(1000), metavar="N",
                  help="so many inputs at once (the number of CPUs, at most 8)")


def default_jobs() -> int:
    """Returns how many inputs are read at once if nothing is said."""
    return min(os.cpu_count() or 1, 8)


def at_once(
    items: Sequence[T], number: int | None, work: Callable[[T], R], output: Output, named: Callable[[T], str],
) -> Iterator[R | Failure]:
    """Yields what each item comes to, or why to nothing, in their order. Several are done at once by processes, if there are several."""

    def tried(item: T) -> R | Failure:
        try:
            return work(item)
        except Failure as failure:
            return failure

    number = min(number or default_jobs(), len(items))
    if number < 2:
        yield from map(tried, items)
        return
    import pickle

    from .workers import Gone, answers

    def make(_worker: int) -> Callable[[int], str]:
        output.is_quiet = True  # so notes are held back, for this process to write

        def one(at: int) -> str:
            output.held.clear()
            return pickle.dumps((tried(items[at]), output.held)).hex()

        return one

    came: dict[int, R | Failure] = {}
    for at, answer in answers(len(items), number, make):
        if answer is None or isinstance(answer, Gone):
            came[at] = Undone(answer or "out of memory", named(items[at]))
        else:
            came[at], notes = pickle.loads(bytes.fromhex(answer))
            output.notes(notes)
    yield from (came[at] for at in range(len(items)))


def access_of(given: argparse.Namespace, output: Output) -> Access:
    """Returns how sources are reached. Raises Failure."""
    limits = Limits(given.max_size, given.timeout, given.deadline, given.run_deadline)
    keys: dict[bytes, Key] = {}
    for path in given.key:
        for key in keys_of_file(path, output):
            if key.name in keys:
                raise Usage("a key of this name was read before", path)
            keys[key.name] = key
    trust = Trust(given.tls_ca, given.tls_name, given.tls_client, not given.tls_no_verify)
    return Access(limits, keys, trust)


def reader_of(given: argparse.Namespace, output: Output) -> Reader:
    """Returns how sources become copies. Raises Failure."""
    return Reader(
        access_of(given, output), given.origin, given.origin_from, getattr(given, "require_zonemd", False),
        lambda source, text: output.note(text, source))


def keys_of_file(path: str, output: Output) -> list[Key]:
    """Returns the keys of a file. What is wrong with it is reported without its text."""
    from .tsig import keys_of

    try:
        with about(path), open(path, encoding="ascii") as file:
            if os.fstat(file.fileno()).st_mode & 0o004:
                output.note("everyone may read this key file", path)
            text = file.read(MOST_OF_KEYS + 1)
        if len(text) > MOST_OF_KEYS:
            raise ValueError(f"it has more than {counted(MOST_OF_KEYS, 'octet')}")
        return keys_of(text)
    except UnicodeDecodeError:
        raise Usage("it holds no key: it isn't ASCII", path) from None
    except ValueError as error:
        raise Usage(f"it holds no key: {error}", path) from None
