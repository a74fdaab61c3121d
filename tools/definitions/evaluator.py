"""Evaluates expressions of definitions: functions by their clauses, and propositions up to what they are made of."""
from collections.abc import Callable, Sequence
from functools import partial
from typing import Any

import builtin
import numerals
from program import Constructor, Definition, Program, Scope
from syntax import Tree
from values import (CONS, Fields, Function, Goal, Later, Made, Refused, Stuck, Unknown, Value, bind, list_of, names_in,
                    shown)

NOTHING: dict[str, Value] = {}
# operators whose sides are propositions, which are looked at only as far as is needed
BETWEEN = {"×": "both", "⊎": "either", "→": "implies", "↔": "equally"}


class Evaluator:
    """Evaluates over the definitions of a program."""

    def __init__(self, program: Program) -> None:
        self.program = program
        self.owed: list[Goal] = []
        self.last: list[Callable[[], bool]] = []

    def value(self, tree: Tree, names: dict[str, Value], scope: Scope) -> Value:
        kind = tree[0]
        if kind == "name":
            return names[tree[1]] if tree[1] in names else self.named(scope.find(tree[1]))
        if kind == "apply":
            return self.application(tree, names, scope)
        if kind == "number":
            return tree[1]
        if kind == "string":
            return list_of(tree[1].encode())
        if kind == "dot":
            return self.dotted(tree, names, scope)
        if kind == "lambda":
            inner, near = tree[1], tuple(names[name] for name in names_in(tree) if name in names)
            return Function(lambda *given: self.value(tree[2], {**names, **dict(zip(inner, given))}, scope), len(inner), (), near)
        if kind == "if":
            return self.choice(tree, names, scope)
        if kind == "record":
            base = {} if tree[2] is None else dict(self.fields(self.value(tree[2], names, scope)))
            return Fields({**base, **{name: self.value(e, names, scope) for name, e in tree[1]}})
        if kind == "tuple":
            return Fields({str(n): self.value(e, names, scope) for n, e in enumerate(tree[1])})
        if kind == "let":
            return self.value(tree[3], {**names, tree[1]: self.value(tree[2], names, scope)}, scope)
        if kind == "elim":
            return self.eliminated(tree[2], self.value(tree[1], names, scope), names, scope)
        return Goal(kind, (tree[1], tree[2], names, scope), scope.module)

    def fields(self, value: Value) -> dict[str, Value]:
        known = shown(value)
        if not isinstance(known, Fields):
            raise Refused("a record with changed fields of which not all are known")
        return known.parts

    def choice(self, tree: Tree, names: dict[str, Value], scope: Scope) -> Value:
        condition = shown(self.value(tree[1], names, scope))
        if isinstance(condition, Made):
            return self.value(tree[2] if condition.name == "true" else tree[3], names, scope)
        return self.stuck(condition, lambda: self.choice_of(condition, tree, names, scope), "Bool")

    def choice_of(self, condition: Value, tree: Tree, names: dict[str, Value], scope: Scope) -> Value:
        known = shown(condition)
        if isinstance(known, Made):
            return self.value(tree[2] if known.name == "true" else tree[3], names, scope)
        return self.stuck(known, lambda: self.choice_of(known, tree, names, scope), "Bool")

    def application(self, tree: Tree, names: dict[str, Value], scope: Scope) -> Value:
        head = tree[1]
        if head[0] == "name" and head[1] in BETWEEN and head[1] not in names:
            return Goal(BETWEEN[head[1]], tuple(Later(side, names, scope) for side in tree[2]), scope.module)
        if head[0] == "name" and head[1] in ("&&", "||"):
            return self.joined(head[1], tree[2], names, scope)
        return self.apply(self.value(head, names, scope), [self.value(e, names, scope) for e in tree[2]])

    def joined(self, operator: str, sides: Sequence[Tree], names: dict[str, Value], scope: Scope) -> Value:
        first = shown(self.value(sides[0], names, scope))
        if isinstance(first, Made):
            decided = first.name == ("false" if operator == "&&" else "true")
            return first if decided else self.value(sides[1], names, scope)
        again = ("apply", ("name", operator), [("name", "first"), sides[1]])
        return self.stuck(first, lambda: self.joined(operator, again[2], {**names, "first": first}, scope), "Bool")

    def dotted(self, tree: Tree, names: dict[str, Value], scope: Scope) -> Value:
        base, name = tree[1], tree[2]
        if base[0] == "name" and base[1] not in names and base[1] in scope.aliases:
            return self.named(scope.find_in(base[1], name))
        return self.field(self.value(base, names, scope), name)

    def field(self, value: Value, name: str) -> Value:
        known = shown(value)
        if isinstance(known, Unknown):
            made = self.unknown_fields(known.kind)
            if made is None:
                return Stuck(lambda: self.field(known, name), [known])
            bind(known, made)
            known = made
        if isinstance(known, Fields) and name in known.parts:
            return known.parts[name]
        if isinstance(known, Stuck):
            return self.stuck(known, lambda: self.field(known, name), "")
        raise Refused(f"the field {name} of {type(known).__name__}")

    def unknown_fields(self, kind: Value) -> Fields | None:
        """The fields of a record of which nothing is known yet."""
        kind = shown(kind)
        if isinstance(kind, Goal) and kind.kind == "of" and isinstance(kind.parts[0], Definition):
            d = kind.parts[0]
            if d.shape.kind == "record":
                return Fields({name: Unknown(self.value(e, NOTHING, d.scope)) for name, e in d.shape.fields})
        if isinstance(kind, Goal) and kind.kind == "declared":
            fields = self.program.fields_of(kind.parts[0])
            return Fields({name: Unknown() for name in fields}) if fields else None
        return None

    def named(self, found: Any) -> Value:
        """The value of a name: a definition's, a constructor's or a builtin one's."""
        if isinstance(found, Definition):
            wants = found.arity
            if found.shape.kind != "function":
                return Function(lambda *given: Goal("of", (found, *given), found.whole), wants) if wants else Goal("of", (found,))
            return Function(lambda *given: self.call(found, given), wants) if wants else self.constant(found)
        if isinstance(found, Constructor) and found.name in ("zero", "suc"):
            return 0 if found.name == "zero" else Function(lambda n: numerals.suc(self, n), 1)
        if isinstance(found, Constructor):
            return Function(lambda *given: Made(found.name, given), found.arity) if found.arity else Made(found.name)
        if isinstance(found, Goal):
            return found
        if callable(found):
            return Function(lambda *given: found(self, *given), builtin.ARITY[found])
        return found

    def constant(self, found: Definition) -> Value:
        if found.constant is None:
            found.constant = self.value(found.shape.clauses[0].body, NOTHING, found.scope)
        return found.constant

    def apply(self, function: Value, given: Sequence[Value]) -> Value:
        function = shown(function)
        if not given:
            return function
        if isinstance(function, Stuck):
            return self.stuck(function, lambda: self.apply(function, given), "")
        if not isinstance(function, Function):
            raise Refused(f"{function} is applied to {len(given)} values")
        every = (*function.given, *given)
        if len(every) < function.wants:
            return Function(function.call, function.wants, every, function.near)
        made = function.call(*every[:function.wants])
        return self.apply(made, every[function.wants:])

    def call(self, d: Definition, given: Sequence[Value]) -> Value:
        """What the first clause says whose patterns fit."""
        for clause in d.shape.clauses:
            names: dict[str, Value] = {}
            for pattern, value in zip(clause.patterns, given):
                fits = self.fits(pattern, value, names, d.scope)
                if fits is not True:
                    break
            else:
                return self.value(clause.body, names, d.scope)
            if fits is not False:
                made = self.stuck(fits[0], lambda: self.call(d, given), fits[1])
                made.of, made.given = d.name, tuple(given)
                return made
        raise Refused(f"no clause of {d.whole} fits")

    def stuck(self, value: Value, again: Callable[[], Value], family: str) -> Stuck:
        """What rests on a value that isn't known: on an unknown, or on what that rests on."""
        if isinstance(value, Unknown):
            return Stuck(again, [value], (lambda: self.constructors(value, family)) if family else None)
        if isinstance(value, Stuck):
            return Stuck(again, [value, *value.rests_on], value.choices, guessed=value.guessed)
        raise Refused(f"a value of kind {type(value).__name__} where a known one is due")

    def constructors(self, unknown: Unknown, family: str) -> list[Callable[[], None]]:
        """The ways to know which constructor a value has."""
        return [partial(self.construct, unknown, constructor) for constructor in self.program.family(family)]

    def construct(self, unknown: Unknown, c: Constructor) -> None:
        kinds = self.kinds_of(unknown, c)
        bind(unknown, 0 if c.name == "zero" else Made(c.name, tuple(Unknown(kind) for kind in kinds)))

    def kinds_of(self, unknown: Unknown, c: Constructor) -> list[Value]:
        kind = shown(unknown.kind)
        of = kind.parts[1] if isinstance(kind, Goal) and kind.kind == "List" and len(kind.parts) > 1 else None
        if c.name == CONS:
            return [of, kind]
        if c.types:
            return [self.value(t, NOTHING, c.scope) for t in c.types]
        return [None] * c.arity

    def fits(self, pattern: Tree, value: Value, names: dict[str, Value], scope: Scope) -> Any:
        """Whether a value fits a pattern, whose names it gets; or what isn't known of it, and of which family it has to be."""
        if pattern[0] == "name" and not scope.is_constructor(pattern[1]):
            if pattern[1] != "_":
                names[pattern[1]] = value
            return True
        known = shown(value)
        if pattern[0] == "number":
            return known == pattern[1] if isinstance(known, int) else (known, "ℕ")
        if pattern[0] == "tuple":
            return self.all_fit(pattern[1], [self.field(known, str(n)) for n in range(len(pattern[1]))], names, scope)
        head, inner = (pattern[1], pattern[2]) if pattern[0] == "apply" else (pattern, [])
        c = scope.find_in(head[1][1], head[2]) if head[0] == "dot" else scope.find(head[1])
        if not isinstance(c, Constructor):
            raise Refused(f"the pattern {head} of {scope.module}")
        if isinstance(known, int):
            return self.fits_number(c, inner, known, names, scope)
        if not isinstance(known, Made):
            return known, c.family
        if known.name != c.name:
            return False
        return self.all_fit(inner, known.parts, names, scope)

    def fits_number(self, c: Constructor, inner: Sequence[Tree], n: int, names: dict[str, Value], scope: Scope) -> Any:
        if c.name == "zero":
            return n == 0
        return n > 0 and self.fits(inner[0], n - 1, names, scope)

    def all_fit(self, patterns: Sequence[Tree], values: Sequence[Value], names: dict[str, Value], scope: Scope) -> Any:
        for pattern, value in zip(patterns, values):
            fits = self.fits(pattern, value, names, scope)
            if fits is not True:
                return fits
        return True

    def eliminated(self, cases: Sequence[tuple[Tree, Tree]], value: Value, names: dict[str, Value], scope: Scope) -> Value:
        for pattern, body in cases:
            inner: dict[str, Value] = {}
            fits = self.fits(pattern, value, inner, scope)
            if fits is True:
                return self.value(body, {**names, **inner}, scope)
            if fits is not False:
                return self.stuck(fits[0], lambda: self.eliminated(cases, value, names, scope), fits[1])
        raise Refused(f"no case fits in {scope.module}")

    def now(self, value: Value) -> Value:
        """The value of what was put off."""
        return self.value(value.tree, value.names, value.scope) if isinstance(value, Later) else value
