"""The values of definitions: what is known, what is still unknown, and the trail by which a choice is taken back."""
from collections.abc import Callable, Iterable, Iterator
from dataclasses import dataclass
from typing import Any

Value = Any
NIL, CONS = "[]", "∷"


class Refused(Exception):
    """What can't be evaluated here, by the name of its definition."""


class Fails(Exception):
    """A proposition doesn't hold, whatever is still unknown."""


class Unknown:
    """A value that isn't known yet: nothing or what was found for it, what kind of thing it is, and the members of a list of which
    only the order isn't known."""

    __slots__ = ("found", "kind", "members")

    def __init__(self, kind: Value = None, members: list[Value] | None = None) -> None:
        self.found: Value = None
        self.kind = kind
        self.members = members


@dataclass(slots=True, frozen=True)
class Made:
    """A constructor by its whole name, with its arguments."""

    name: str
    parts: tuple[Value, ...] = ()


@dataclass(slots=True, frozen=True)
class Fields:
    """A record's fields, or a tuple's by their numbers."""

    parts: dict[str, Value]


@dataclass(slots=True)
class Stuck:
    """An application whose value rests on something unknown. `choices` lists what may become known, each a step that binds it, and `least` is
    the least number that it can be."""

    again: Callable[[], Value]
    rests_on: "list[Unknown | Stuck]"
    choices: Callable[[], list[Callable[[], None]]] | None = None
    inverse: Callable[[Value], bool] | None = None
    found: Value = None
    least: int = 0
    of: str = ""
    given: tuple[Value, ...] = ()
    guessed: bool = False


@dataclass(slots=True)
class Function:
    """A function that waits for more arguments, and the values that it cites."""

    call: Callable[..., Value]
    wants: int
    given: tuple[Value, ...] = ()
    near: tuple[Value, ...] = ()


@dataclass(slots=True, frozen=True)
class Later:
    """An expression that is evaluated when its value is asked for."""

    tree: tuple[Any, ...]
    names: dict[str, Value]
    scope: Any


@dataclass(slots=True)
class Goal:
    """A proposition, or a type: what kind it is, what it is of, and the definition that it stands in."""

    kind: str
    parts: tuple[Value, ...]
    where: str = ""
    waits: "list[Unknown | Stuck] | None" = None


TRAIL: list[Unknown | Stuck] = []


def bind(unknown: Unknown | Stuck, value: Value) -> None:
    unknown.found = value
    TRAIL.append(unknown)


def take_back(mark: int) -> None:
    while len(TRAIL) > mark:
        TRAIL.pop().found = None


def shown(value: Value) -> Value:
    """The value as far as it is known: at its head no unknown that was found, and nothing that can be applied."""
    while True:
        if isinstance(value, Unknown) and value.found is not None:
            value = value.found
        elif isinstance(value, Stuck) and value.found is not None:
            value = value.found
        elif isinstance(value, Stuck) and any(u.found is not None for u in value.rests_on):
            new = value.again()
            bind(value, new)
            value = new
        else:
            return value


def list_of(values: Iterable[Value], end: Value = Made(NIL)) -> Value:
    made = end
    for value in reversed(list(values)):
        made = Made(CONS, (value, made))
    return made


def front_of(value: Value) -> tuple[list[Value], Value]:
    """The known elements of a list, and what is left: an empty list, or what isn't known."""
    items = []
    value = shown(value)
    while isinstance(value, Made) and value.name == CONS:
        items.append(value.parts[0])
        value = shown(value.parts[1])
    return items, value


def is_nil(value: Value) -> bool:
    return isinstance(value, Made) and value.name == NIL


def octets_of(value: Value) -> bytes | None:
    """A list of octets, if all of it is known."""
    items, end = front_of(value)
    numbers = [shown(item) for item in items]
    if not is_nil(end) or not all(isinstance(n, int) and 0 <= n < 256 for n in numbers):
        return None
    return bytes(numbers)


def unknowns_in(value: Value, seen: set[int] | None = None) -> Iterator[Unknown]:
    """What is unknown in a value."""
    seen = set() if seen is None else seen
    waiting = [value]
    while waiting:
        one = shown(waiting.pop())
        if isinstance(one, (int, str)) or one is None or id(one) in seen:
            continue
        seen.add(id(one))
        if isinstance(one, Unknown):
            yield one
        elif isinstance(one, Goal) and one.kind in ("all", "some"):
            waiting += [one.parts[2][name] for name in names_in(one.parts[:2]) if name in one.parts[2]]
        elif isinstance(one, (Made, Goal)):
            waiting += one.parts
        elif isinstance(one, Fields):
            waiting += one.parts.values()
        elif isinstance(one, Function):
            waiting += [*one.given, *one.near]
        elif isinstance(one, Later):
            waiting += [one.names[name] for name in names_in(one.tree) if name in one.names]
        elif isinstance(one, Stuck):
            waiting += one.rests_on


NAMES: dict[Any, tuple[Any, frozenset[str]]] = {}


def names_in(tree: Any) -> frozenset[str]:
    """The names that an expression cites."""
    place = tuple(map(id, tree))
    known = NAMES.get(place)
    if known is None:
        found: set[str] = set()
        waiting = [tree]
        while waiting:
            one = waiting.pop()
            if isinstance(one, tuple) and one and one[0] == "name":
                found.add(one[1])
            elif isinstance(one, (tuple, list)):
                waiting += one
        known = NAMES[place] = (tree, frozenset(found))
    return known[1]


def same(a: Value, b: Value) -> list[Goal]:
    """Makes two values the same as far as they are known, and returns what is still to be shown."""
    left: list[Goal] = []
    waiting = [(a, b)]
    while waiting:
        a, b = map(shown, waiting.pop())
        if a is b:
            continue
        if isinstance(a, Unknown) or isinstance(b, Unknown):
            one, other = (a, b) if isinstance(a, Unknown) else (b, a)
            bind(one, other)
        elif isinstance(a, Stuck) or isinstance(b, Stuck):
            if not solved(a, b):
                left.append(Goal("same", (a, b), waits=rests_of(a) + rests_of(b)))
        else:
            waiting += parts_of(a, b)
    return left


def solved(a: Value, b: Value) -> bool:
    """Whether an application's inverse made two values the same."""
    first = isinstance(a, Stuck) and a.inverse is not None and a.inverse(b)
    return bool(first or isinstance(b, Stuck) and b.inverse is not None and b.inverse(a))


def rests_of(value: Value) -> list[Unknown | Stuck]:
    if isinstance(value, Stuck):
        return value.rests_on
    items, end = front_of(value) if isinstance(value, Made) else ([], None)
    more: list[Unknown | Stuck] = [one for item in items if isinstance(one := shown(item), Unknown)]
    return more + ([end] if isinstance(end, Unknown) else end.rests_on if isinstance(end, Stuck) else [])


def parts_of(a: Value, b: Value) -> list[tuple[Value, Value]]:
    """The pairs that have to be the same so that two known values are."""
    if isinstance(a, Made) and a.name == "suc" and isinstance(b, int):
        a, b = b, a
    if isinstance(a, int) and isinstance(b, Made) and b.name == "suc":
        if a == 0:
            raise Fails
        return [(a - 1, b.parts[0])]
    if isinstance(a, Made) and isinstance(b, Made):
        if a.name != b.name or len(a.parts) != len(b.parts):
            raise Fails
        return list(zip(a.parts, b.parts))[::-1]
    if isinstance(a, Fields) and isinstance(b, Fields) and a.parts.keys() == b.parts.keys():
        return [(a.parts[name], b.parts[name]) for name in a.parts]
    if isinstance(a, (int, Made)) and type(a) is type(b) and a != b:
        raise Fails
    if isinstance(a, (Function, Goal)) or type(a) is not type(b):
        raise Refused(f"whether {type(a).__name__} and {type(b).__name__} are the same")
    return []
