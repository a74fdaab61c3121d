"""Definitions by their names, applied to octets, texts and records as Python has them."""
import multiprocessing
import re
from collections.abc import Callable, Iterator, Sequence
from contextlib import contextmanager
from typing import TypeVar

from program import Program
from solver import Solver
from steps import settled
from values import Fields, Made, Refused, Unknown, Value, front_of, list_of, octets_of, shown, take_back

ITEM, SPELLING, TOKENS = "zone_rdata.specs.Item", "zone_name.specs.Spelling", "zone_text.specs.Tokens"
TOKEN = re.compile(r'(?P<blank>[ \t\r])|(?P<opening>\()|(?P<closing>\))|(?P<line_feed>\n)|(?P<comment>;[^\n]*)'
                   r'|(?P<quoted>"(?:\\.|[^"\\])*")|(?P<bare>(?:\\.|[^\s"();\\])+)')
FAR = 200_000
T = TypeVar("T")


@contextmanager
def refused_in(name: str) -> Iterator[None]:
    """Names the definition in which something can't be evaluated."""
    try:
        yield
    except Refused as e:
        raise Refused(f"{name}: {e}") from e
    except RecursionError as e:
        raise Refused(f"{name}: something that rests on itself") from e


class Machine:
    """Runs the definitions of a program, some of them perhaps changed."""

    def __init__(self, program: Program | None = None) -> None:
        self.program = program or Program()
        self.solver = Solver(self.program)

    def of(self, name: str, *given: Value) -> Value:
        """The definition of a name, as `zone_name.specs.Name.wire`, with its arguments."""
        module, own = name.rsplit(".", 1)
        return self.solver.eval.apply(self.solver.eval.named(self.program.brought(module, own)), list(given))

    def begin(self) -> None:
        take_back(0)
        self.solver.owed()
        self.solver.steps = 0

    def holds(self, name: str, *given: Value) -> bool:
        self.begin()
        with refused_in(name):
            return self.solver.holds([self.solver.goal(self.of(name, *given))])

    def found(self, name: str, *given: Value) -> list[Value]:
        """Each value for the last argument with which the proposition holds."""
        self.begin()
        last = Unknown()
        values = []
        with refused_in(name):
            for _ in self.solver.solutions([self.solver.goal(self.of(name, *given, last))]):
                value = settled(last)
                if value not in values:
                    values.append(value)
        return values

    def octets(self, name: str, *given: Value) -> bytes:
        """The octets that a function gives."""
        self.begin()
        octets = octets_of(self.of(name, *given))
        if octets is None:
            raise ValueError(f"{name} gives no octets")
        return octets

    def rows(self, name: str) -> list[Value]:
        return [shown(row) for row in front_of(self.of(name))[0]]


def jobs_of(words: list[str]) -> int:
    """How many processes are to run, as `--jobs N` says, which is taken out of the words: one where it isn't there."""
    if "--jobs" not in words:
        return 1
    at = words.index("--jobs")
    jobs = int(words[at + 1])
    del words[at:at + 2]
    return jobs


def answers(answer: Callable[[T], str], of: Sequence[T], jobs: int) -> list[str]:
    """The answer on each, found by so many processes."""
    if jobs == 1:
        return [answer(one) for one in of]
    with multiprocessing.Pool(jobs) as pool:
        return pool.map(answer, of, chunksize=1)


def text(value: str | bytes) -> Value:
    return list_of(value.encode("latin-1") if isinstance(value, str) else value)


def truth(is_so: bool) -> Value:
    return Made("true" if is_so else "false")


def items_in(line: str) -> list[tuple[str, str, bool]]:
    """The items of a line: of which kind each is, its text, and whether it touches the one before it."""
    found = []
    at = 0
    while at < len(line):
        if line[at] == " ":
            at += 1
            continue
        quoted, touches = line[at] == '"', at > 0 and line[at - 1] != " "
        begin = at + quoted
        at = begin
        while at < len(line) and line[at] not in ('"' if quoted else ' "'):
            at += 2 if line[at] == "\\" else 1
        found.append(("quoted" if quoted else "bare", line[begin:at], touches))
        at += quoted
    return found


def units_in(inside: str) -> Value:
    """The octets of an item as they are written: by themselves, or by escapes."""
    found = []
    at = 0
    while at < len(inside):
        size = 1 if inside[at] != "\\" else 4 if inside[at + 1:at + 4].isdigit() else 2
        kind = {1: "plain", 2: "escaped", 4: "decimal"}[size]
        found.append(Made(f"{SPELLING}.{kind}", tuple(ord(c) for c in inside[at:at + size][size > 1:])))
        at += size
    return list_of(found)


def token(kind: str, inside: str) -> Value:
    """A token of a master file."""
    given: tuple[Value, ...] = ()
    if kind == "blank":
        given = (ord(inside),)
    elif kind == "comment":
        given = (text(inside[1:]),)
    elif kind in ("bare", "quoted"):
        given = (units_in(inside if kind == "bare" else inside[1:-1]),)
    return Made(f"{TOKENS}.{kind}", given)


def tokens_in(file: str) -> Value:
    """The tokens of a master file."""
    return list_of([token(str(part.lastgroup), part.group()) for part in TOKEN.finditer(file)])


def raw_items(line: str) -> Value:
    return list_of([Made(f"{ITEM}.{kind}", (text(inside),)) for kind, inside, _ in items_in(line)])


def touching_items(line: str) -> Value:
    items = front_of(raw_items(line))[0]
    return list_of([Fields({"item": item, "touches": truth(touches)}) for item, (_, _, touches) in zip(items, items_in(line))])


def labels_of(name: str) -> Value:
    """The labels of an absolute name, its escapes undone."""
    labels: list[bytes] = []
    label = b""
    at = 0
    while at < len(name) and name != ".":
        if name[at] == "\\" and name[at + 1].isdigit():
            label, at = label + bytes([int(name[at + 1:at + 4])]), at + 4
        elif name[at] == "\\":
            label, at = label + name[at + 1].encode(), at + 2
        elif name[at] == ".":
            labels, label, at = [*labels, label], b"", at + 1
        else:
            label, at = label + name[at].encode(), at + 1
    return list_of([list_of(label) for label in labels])


def record(owner: str, ttl: int, kind: int, octets: Value, record_class: int = 1) -> Value:
    return Fields({"owner": labels_of(owner), "class": record_class, "kind": kind, "ttl": ttl, "octets": octets})


def zone(apex: str, records: Sequence[Value]) -> Value:
    return Fields({"apex": labels_of(apex), "class": 1, "records": list_of(records)})
