"""The words of std on numbers, and between numbers, octets and texts."""
import base64
import hashlib
from collections.abc import Callable
from functools import partial
from typing import Any

from builtin import NAMES, choices_of, list_rests, truth, unknown_parts, word
from values import Fails, Goal, Made, Stuck, Unknown, Value, bind, front_of, list_of, octets_of, same, shown

Inverse = Callable[[Value, Value, Value], bool]


def arithmetic(name: str, compute: Callable[[int, int], Value], inverse: Inverse | None = None) -> None:
    """A function of two numbers, with what its value says of one of them."""
    def call(ev: Any, a: Value, b: Value) -> Value:
        x, y = shown(a), shown(b)
        if isinstance(x, int) and isinstance(y, int):
            return compute(x, y)
        back = (lambda z: inverse(x, y, shown(z))) if inverse else None
        if name in COMPARED:
            return compared(ev, name, x, y, lambda: call(ev, x, y), back)
        ways = choices_of(x, y)
        if name == "/" and isinstance(y, int) and isinstance(x, Unknown):
            back = lambda z: divides(x, y, shown(z))
        return Stuck(lambda: call(ev, x, y), unknown_parts(x, y), ways, back)
    word(name, 2)(call)


def divides(x: Unknown, y: int, z: Value) -> bool:
    """A number whose quotient is known is that, and a rest that isn't known yet."""
    if not isinstance(z, int):
        return False
    rest = Unknown()
    bind(x, Stuck(lambda: z * y + shown(rest), [rest], lambda: [partial(bind, rest, n) for n in range(y)]))
    return True


def plus(x: Value, y: Value, z: Value) -> bool:
    if not isinstance(z, int) or not (isinstance(x, int) or isinstance(y, int)):
        return False
    known, other = (x, y) if isinstance(x, int) else (y, x)
    if z < known:
        raise Fails
    return not same(other, z - known)


def equal(x: Value, y: Value, z: Value) -> bool:
    return isinstance(z, Made) and z.name == "true" and not same(x, y)


COMPARED = {"==": ("same", "differ"), "nat_le": ("most", "below"), "nat_lt": ("below", "most")}


def compared(ev: Any, name: str, x: Value, y: Value, again: Callable[[], Value], back: Any) -> Stuck:
    """A test of numbers of which one isn't known: it can be assumed to be true, and to be false."""
    made = Stuck(again, [*unknown_parts(x, y)], None, back, guessed=choices_of(x, y) is None)

    def assume(is_so: bool) -> None:
        bind(made, truth(is_so))
        turned = not is_so and name != "=="
        ev.owed.append(Goal(COMPARED[name][not is_so], (y, x) if turned else (x, y), "an assumption"))
    made.choices = choices_of(x, y) or (lambda: [lambda: assume(True), lambda: assume(False)])
    return made


arithmetic("+", lambda a, b: a + b, plus)
arithmetic("-", lambda a, b: max(0, a - b))
arithmetic("*", lambda a, b: a * b)
arithmetic("/", lambda a, b: a // b if b else 0)
arithmetic("%", lambda a, b: a % b if b else a)
arithmetic("^", lambda a, b: a ** b)
arithmetic("==", lambda a, b: truth(a == b), equal)
arithmetic("nat_le", lambda a, b: truth(a <= b))
arithmetic("nat_lt", lambda a, b: truth(a < b))
arithmetic("min", min)
arithmetic("max", max)


@word("suc", 1)
def suc(ev: Any, n: Value) -> Value:
    known = shown(n)
    return known + 1 if isinstance(known, int) else Made("suc", (n,))


def text_word(name: str, arity: int, make: Callable[..., bytes], undo: Callable[..., Value]) -> None:
    """A function from what is known to a text, and back from the text."""
    def call(ev: Any, *given: Value) -> Value:
        *front, last = map(shown, given)
        known = last if isinstance(last, int) else octets_of(last)
        if known is not None and not isinstance(last, (Unknown, Stuck)):
            return list_of(make(*front, known))
        return Stuck(lambda: call(ev, *given), unknown_parts(last) + list_rests(last), None, lambda z: back(front, last, z))

    def back(front: list[Value], last: Value, z: Value) -> bool:
        text = octets_of(z)
        if text is None:
            return False
        found = undo(*front, text)
        if found is None:
            raise Fails
        return not same(last, found)
    word(name, arity)(call)


def number_of_decimal(text: bytes) -> Value:
    return int(text) if text.isdigit() and str(int(text)).encode() == text else None


def octets_of_hex(text: bytes) -> Value:
    try:
        return list_of(bytes.fromhex(text.decode())) if text == text.lower() and b" " not in text else None
    except ValueError:
        return None


def octets_of_base64(engine: Value, text: bytes) -> Value:
    try:
        octets = base64.b64decode(text, validate=True)
    except ValueError:
        return None
    return list_of(octets) if base64.b64encode(octets) == text else None


text_word("decimal", 1, lambda n: str(n).encode(), number_of_decimal)
text_word("encode_lower", 1, lambda octets: bytes(octets.hex(), "ascii"), octets_of_hex)
text_word("encode_of", 2, lambda engine, octets: base64.b64encode(octets), octets_of_base64)


@word("digits", 3)
def digits(ev: Any, base: Value, upper: Value, n: Value) -> Value:
    shapes = {10: "d", 8: "o", 16: "X" if shown(upper).name == "true" else "x"}
    known = shown(n)
    if isinstance(known, int):
        return list_of(format(known, shapes[shown(base)]).encode())
    return Stuck(lambda: digits(ev, base, upper, n), unknown_parts(known))


@word("digit_glyph", 2)
def digit_glyph(ev: Any, upper: Value, d: Value) -> Value:
    return ord(format(shown(d), "X" if shown(upper).name == "true" else "x"))


def decoded(text: bytes) -> Value:
    octets = None if len(text) % 2 or not text.isalnum() and text else octets_of_hex(text.lower())
    return Made("Err", (0,)) if octets is None else Made("Ok", (octets,))


@word("decode_of", 1)
def decode_of(ev: Any, text: Value) -> Value:
    known = octets_of(text)
    return decoded(known) if known is not None else undecoded(text, lambda: decode_of(ev, text))


@word("decode_sized", 2)
def decode_sized(ev: Any, text: Value, size: Value) -> Value:
    known = octets_of(text)
    if known is None:
        return undecoded(text, lambda: decode_sized(ev, text, size))
    return decoded(known) if len(known) == 2 * shown(size) else Made("Err", (0,))


def undecoded(text: Value, again: Callable[[], Value]) -> Value:
    """Of a text that isn't known to its end: an error where what is known of it has no digit at some place."""
    items, _ = front_of(text)
    if any(isinstance(c, int) and c not in b"0123456789abcdefABCDEF" for c in map(shown, items)):
        return Made("Err", (0,))
    return Stuck(again, list_rests(shown(text)) + unknown_parts(text))


@word("to_be_bytes", 2)
def to_be_bytes(ev: Any, width: Value, n: Value) -> Value:
    known, size = shown(n), shown(width)
    if isinstance(known, int):
        return list_of((known % 256 ** size).to_bytes(size, "big"))
    octets: list[Any] = [Unknown() for _ in range(size)]
    number = Stuck(lambda: number_of(octets), octets, None, lambda z: spread(octets, shown(z)))
    if isinstance(known, Unknown):
        bind(known, number)
    else:
        ev.owed.append(Goal("same", (known, number), "to_be_bytes"))
    return list_of(octets)


def number_of(octets: list[Any]) -> Value:
    """The number that octets make, the highest first, once all are known."""
    known = [shown(o) for o in octets]
    if all(isinstance(o, int) for o in known):
        return int.from_bytes(bytes(known), "big")
    return Stuck(lambda: number_of(octets), unknown_parts(*known), None, lambda z: spread(octets, shown(z)))


def spread(octets: list[Any], n: Value) -> bool:
    if not isinstance(n, int):
        return False
    if n >= 256 ** len(octets):
        raise Fails
    return not [goal for o, value in zip(octets, n.to_bytes(len(octets), "big")) for goal in same(o, value)]


for _name, _value in {"w8": 1, "w16": 2, "w32": 4, "standard": 0}.items():
    NAMES[_name] = _value


@word("byte_len", 1)
def byte_len(ev: Any, width: Value) -> Value:
    return shown(width)


@word("codes", 1)
def codes(ev: Any, text: Value) -> Value:
    return text


def digest_word(name: str, make: Callable[[bytes], bytes]) -> None:
    def call(ev: Any, octets: Value) -> Value:
        known = octets_of(octets)
        return Stuck(lambda: call(ev, octets), list_rests(shown(octets)) + unknown_parts(octets)) if known is None \
            else list_of(make(known))
    word(name, 1)(call)


digest_word("sha384", lambda octets: hashlib.sha384(octets).digest())
digest_word("sha512", lambda octets: hashlib.sha512(octets).digest())
