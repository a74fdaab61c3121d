"""The words of std that definitions cite: those on lists, and propositions. `numerals` has those on numbers, and `prelude` the rest."""
from collections.abc import Callable
from functools import partial
from typing import Any

from values import (NIL, Fails, Goal, Made, Refused, Stuck, Unknown, Value, bind, front_of, is_nil, list_of, octets_of, same,
                    shown)

NAMES: dict[str, Any] = {}
ARITY: dict[Any, int] = {}
def word(name: str, arity: int) -> Callable[[Callable[..., Value]], Callable[..., Value]]:
    def put(function: Callable[..., Value]) -> Callable[..., Value]:
        NAMES[name] = function
        ARITY[function] = arity
        return function
    return put


def truth(is_so: bool) -> Made:
    return Made("true" if is_so else "false")


def unknown_parts(*values: Value) -> list[Any]:
    """What known values of these rest on."""
    found: list[Any] = []
    for value in values:
        one = shown(value)
        found += [one] if isinstance(one, Unknown) else one.rests_on if isinstance(one, Stuck) else []
        if isinstance(one, Made) and one.name == "suc":
            found += unknown_parts(one.parts[0])
    return found


def choices_of(*values: Value) -> Callable[[], list[Callable[[], None]]] | None:
    return next((one.choices for one in map(shown, values) if isinstance(one, Stuck) and one.choices), None)


def list_rests(value: Value) -> list[Any]:
    items, end = front_of(value) if isinstance(value, Made) else ([], NIL)
    return unknown_parts(*items, end)


# ---- lists

@word("length", 1)
def length(ev: Any, xs: Value) -> Value:
    items, end = front_of(xs)
    if is_nil(end):
        return len(items)
    return Stuck(lambda: length(ev, xs), unknown_parts(end), choices_of(end), lambda n: has_length(len(items), end, shown(n)),
                 least=len(items))


def has_length(known: int, end: Value, n: Value) -> bool:
    if isinstance(n, int) and n < known:
        raise Fails
    if not isinstance(n, int) or not isinstance(end, Unknown):
        return False
    kind = shown(end.kind)
    of = kind.parts[1] if isinstance(kind, Goal) and kind.kind == "List" else None
    bind(end, list_of([Unknown(of) for _ in range(n - known)]))
    return True


@word("++", 2)
def append(ev: Any, xs: Value, ys: Value) -> Value:
    items, end = front_of(xs)
    if is_nil(end):
        return list_of(items, ys)
    rest = Stuck(lambda: append(ev, end, ys), unknown_parts(end), None, guessed=isinstance(end, Stuck) and end.guessed)
    rest.choices = partial(ev.constructors, end, "List") if isinstance(end, Unknown) else end.choices
    rest.inverse = lambda z: back_matches(end, ys, z)
    return list_of(items, rest)


def back_matches(end: Value, ys: Value, z: Value) -> bool:
    """Where both lists are known to their ends, what is appended is the end of the whole."""
    whole, stop_at = front_of(z)
    back, nil = front_of(ys)
    if not is_nil(stop_at) or not is_nil(nil):
        return False
    if len(back) > len(whole):
        raise Fails
    cut = len(whole) - len(back)
    return not [goal for a, b in zip(back, whole[cut:]) for goal in same(a, b)] and not same(end, list_of(whole[:cut]))


@word("indices", 1)
def indices(ev: Any, xs: Value) -> Value:
    items, end = front_of(xs)
    if is_nil(end):
        return list_of(range(len(items)))
    return Stuck(lambda: indices(ev, xs), unknown_parts(end), choices_of(end))


@word("bytes_eq", 2)
def bytes_eq(ev: Any, xs: Value, ys: Value) -> Value:
    a, b = octets_of(xs), octets_of(ys)
    if a is None or b is None:
        rests = [r for v in (xs, ys) for r in list_rests(shown(v)) + unknown_parts(v)]
        return Stuck(lambda: bytes_eq(ev, xs, ys), rests)
    return truth(a == b)


@word("find", 2)
def find(ev: Any, test: Value, xs: Value) -> Value:
    items, end = front_of(xs)
    for place, item in enumerate(items):
        passes = shown(ev.apply(test, [item]))
        if not isinstance(passes, Made):
            return first_of(ev, test, items[place:], is_nil(end), Stuck(lambda: find(ev, test, xs), unknown_parts(passes)))
        if passes.name == "true":
            return Made("Some", (item,))
    return Made("None") if is_nil(end) else Stuck(lambda: find(ev, test, xs), unknown_parts(end), choices_of(end))


def first_of(ev: Any, test: Value, items: list[Value], ends: bool, made: Stuck) -> Stuck:
    """What is found in a list rests on what isn't known yet: it can be each of the elements, and none."""
    made.choices = lambda: [partial(found, ev, test, items, place, made) for place in range(len(items) + ends)]
    return made


def found(ev: Any, test: Value, items: list[Value], place: int, made: Stuck) -> None:
    """Takes an element to be the first that passes, or none to pass. At last it is shown that none before it does."""
    if place < len(items):
        bind(made, Made("Some", (items[place],)))
        if same(shown(ev.apply(test, [items[place]])), Made("true")):
            raise Fails
    else:
        bind(made, Made("None"))
    ev.last.append(lambda: none_passes(ev, test, items[:place]))


def none_passes(ev: Any, test: Value, items: list[Value]) -> bool:
    answers = [shown(ev.apply(test, [item])) for item in items]
    if not all(isinstance(answer, Made) for answer in answers):
        raise Refused("which element of a list is found")
    return all(answer.name == "false" for answer in answers)


# ---- propositions, and kinds of values

for _name, _kind in {"≡": "same", "≢": "differ", "<": "below", "≤": "most", "IsPermutation": "permutation"}.items():
    word(_name, 2)(partial(lambda kind, ev, a, b: Goal(kind, (a, b)), _kind))
for _name, _arity in {"List": 1, "Option": 1, "Result": 2, "Type": 1}.items():
    word(_name, _arity)(partial(lambda kind, ev, *of: Goal(kind, (None, *of)), _name))
for _name in ("ℕ", "Bool", "Ordering", "Width"):
    NAMES[_name] = Goal(_name, ())
NAMES.update({"⊤": Goal("true", ()), "⊥": Goal("false", ()), "Unit": Goal("true", ())})
