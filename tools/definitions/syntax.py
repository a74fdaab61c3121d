"""The syntax of definitions (.antt): expressions as trees, and the clauses, fields and cases of a definition."""
import re
from collections.abc import Sequence
from dataclasses import dataclass, field
from typing import Any

# An expression: ("name", TEXT), ("number", N), ("apply", F, ARGUMENTS), ("lambda", PARAMETERS, BODY), ("if", C, A, B),
# ("record", FIELDS), ("tuple", PARTS), ("dot", E, FIELD), ("some", BINDERS, BODY) for (x : A) × B, ("all", BINDERS, BODY) for
# (x : A) → B, ("let", NAME, E, BODY) and ("elim", E, CASES). An operator is the name of its function.
Tree = tuple[Any, ...]

TOKEN = re.compile(
    r"(?P<space>\s+|--[^\n]*)|(?P<string>\"(?:\\.|[^\"\\])*\")|(?P<section>if◌then◌else◌|◌[^◌\s]+◌)|(?P<number>0x[0-9a-f]+|\d+)"
    r"|(?P<name>[^\W\d][\w']*|⊥|⊤|\[\])|(?P<mark>\+\+\?|\+\+|==|&&|\|\||[≡≢×→↔⊎∷+\-*/%^<≤λ.,;:(){}\[\]=↦|])")
# how tightly each operator binds, and to which side it groups
OPERATORS = {
    "→": (0, "r"), "↔": (1, "r"), "⊎": (2, "r"), "×": (3, "r"), "≡": (4, "l"), "≢": (4, "l"), "++": (5, "r"), "∷": (5, "r"),
    "++?": (5, "r"), "||": (6, "l"), "&&": (7, "l"), "==": (8, "l"), "<": (9, "l"), "≤": (9, "l"), "+": (10, "l"),
    "-": (10, "l"), "*": (11, "l"), "/": (11, "l"), "%": (11, "l"), "^": (12, "r")}
WORDS = {"if", "then", "else", "let", "in", "record", "elim", "where", "pub"}


class Unreadable(Exception):
    """A definition that isn't of the syntax that is read here."""


@dataclass
class Clause:
    patterns: list[Tree]
    body: Tree


@dataclass
class Shape:
    """A definition: a function of clauses, a record of fields, or data of cases, and the parameters of these."""

    kind: str
    parameters: list[str] = field(default_factory=list)
    types: list[Tree] = field(default_factory=list)
    clauses: list[Clause] = field(default_factory=list)
    fields: list[tuple[str, Tree]] = field(default_factory=list)
    cases: list[tuple[str, Tree]] = field(default_factory=list)


def tokens_of(text: str) -> list[tuple[str, str]]:
    """The tokens of a text, each with its kind. A dot between a value and a field, without spaces, is of kind `dot`."""
    tokens: list[tuple[str, str]] = []
    at = 0
    while at < len(text):
        found = TOKEN.match(text, at)
        if not found:
            raise Unreadable(f"no token at {text[at:at + 20]!r}")
        kind, value = str(found.lastgroup), found.group()
        glued = value == "." and at > 0 and not text[at - 1].isspace() and text[at + 1:at + 2].strip() not in ("", "(")
        if kind != "space":
            tokens.append(("dot" if glued else kind, value))
        at = found.end()
    return tokens


class Reader:
    """Reads expressions from tokens."""

    def __init__(self, text: str) -> None:
        self.tokens = tokens_of(text)
        self.at = 0

    def peek(self, ahead: int = 0) -> str:
        return self.tokens[self.at + ahead][1] if self.at + ahead < len(self.tokens) else ""

    def kind(self, ahead: int = 0) -> str:
        return self.tokens[self.at + ahead][0] if self.at + ahead < len(self.tokens) else ""

    def take(self, wanted: str = "") -> str:
        value = self.peek()
        if not value or wanted and value != wanted:
            raise Unreadable(f"{wanted!r} is due where {value!r} is")
        self.at += 1
        return value

    def expression(self, least: int = 0) -> Tree:
        left = self.prefix()
        while self.peek() in OPERATORS and self.kind() == "mark":
            operator = self.peek()
            level, side = OPERATORS[operator]
            if level < least:
                break
            self.take()
            right = self.expression(level if side == "r" else level + 1)
            left = ("apply", ("name", operator), [left, right])
        return left

    def prefix(self) -> Tree:
        """What begins an expression: a binder, a function, a choice, or an application."""
        if self.peek() == "λ":
            return self.function()
        if self.peek() == "if":
            self.take()
            condition = self.expression()
            self.take("then")
            first = self.expression()
            self.take("else")
            return ("if", condition, first, self.expression())
        if self.peek() == "let":
            self.take()
            name = self.take()
            self.take("=")
            value = self.expression()
            self.take("in")
            return ("let", name, value, self.expression())
        if self.peek() == "elim":
            return self.elimination()
        if self.is_binder():
            return self.bound()
        return self.application()

    def is_binder(self) -> bool:
        ahead = 1
        while self.kind(ahead) == "name":
            ahead += 1
        return self.peek() in ("(", "{") and ahead > 1 and self.peek(ahead) == ":"

    def binder(self) -> list[tuple[str, Tree]]:
        close = {"(": ")", "{": "}"}[self.take()]
        names = []
        while self.peek() != ":":
            names.append(self.take())
        self.take(":")
        kind = self.expression()
        self.take(close)
        return [(name, kind) for name in names]

    def bound(self) -> Tree:
        binders: list[tuple[str, Tree]] = []
        while self.is_binder():
            binders += self.binder()
        if self.take() == "×":
            return ("some", binders, self.expression(3))
        return ("all", binders, self.expression(0))

    def function(self) -> Tree:
        self.take("λ")
        names = []
        while self.peek() != "." or self.kind() == "dot":
            names += [name for name, _ in self.binder()] if self.is_binder() else [self.take()]
        self.take(".")
        return ("lambda", names, self.expression())

    def elimination(self) -> Tree:
        self.take("elim")
        value = self.atom()
        self.take("[")
        cases = []
        while self.peek() == "|":
            self.take("|")
            pattern = self.application()
            self.take("↦")
            cases.append((pattern, self.expression()))
        self.take("]")
        return ("elim", value, cases)

    def application(self) -> Tree:
        head = self.atom()
        arguments = []
        while self.begins_atom():
            if self.peek() == "{":
                self.skip_braces()
            else:
                arguments.append(self.atom())
        return ("apply", head, arguments) if arguments else head

    def begins_atom(self) -> bool:
        if self.peek() in WORDS:
            return self.peek() == "record"
        return self.kind() in ("name", "number", "string", "section") or self.peek() in ("(", "{")

    def skip_braces(self) -> None:
        while self.take() != "}":
            pass

    def atom(self) -> Tree:
        kind, value = self.kind(), self.take()
        if kind == "number":
            made: Tree = ("number", int(value, 0))
        elif kind == "string":
            made = ("string", value[1:-1].replace('\\"', '"').replace("\\\\", "\\"))
        elif kind == "section":
            made = ("name", value.strip("◌"))
        elif value == "record":
            made = self.record()
        elif value == "(":
            made = self.group()
        elif kind == "name" and value not in WORDS:
            made = ("name", value)
        else:
            raise Unreadable(f"no value begins with {value!r}")
        while self.kind() == "dot":
            self.take()
            made = ("dot", made, self.take())
        return made

    def record(self) -> Tree:
        """A record by its fields, or another one with some of them in place of its own."""
        base = None if self.peek() == "{" else self.atom()
        self.take("{")
        fields = []
        while self.peek() != "}":
            name = self.take()
            self.take("=")
            fields.append((name, self.expression()))
            if self.peek() == ";":
                self.take()
        self.take("}")
        return ("record", fields, base)

    def group(self) -> Tree:
        parts = [self.expression()]
        while self.peek() == ",":
            self.take()
            parts.append(self.expression())
        self.take(")")
        return ("tuple", parts) if len(parts) > 1 else parts[0]

    def ended(self) -> bool:
        return self.at >= len(self.tokens)


def read_expression(text: str) -> Tree:
    reader = Reader(text)
    made = reader.expression()
    if not reader.ended():
        raise Unreadable(f"{reader.peek()!r} is left over")
    return made


def items_of(lines: Sequence[str]) -> list[list[str]]:
    """Lines with those that are indented below each."""
    items: list[list[str]] = []
    for line in lines:
        if line[:1] not in (" ", ")", "}") or not items:
            items.append([])
        items[-1].append(line)
    return items


def read_definition(lines: Sequence[str]) -> Shape:
    """What the lines of a definition say."""
    first = re.sub(r"^(?:(?:abbrev|unfoldable|pub|ghost) )*", "", lines[0])
    if first.startswith(("record ", "data ")):
        return read_type([first, *lines[1:]])
    items = items_of([first, *lines[1:]])
    shape = Shape("function")
    shape.types = [read_expression(" ".join(items[0]).split(":", 1)[1])]
    for item in items[1:]:
        shape.clauses.append(read_clause("\n".join(item)))
    return shape


def read_clause(text: str) -> Clause:
    reader = Reader(text)
    reader.take()
    patterns = []
    infix = reader.kind() == "mark" and reader.peek() not in ("(", "{", "=")
    if infix:
        raise Unreadable("an operator is defined here")
    while reader.peek() != "=":
        if reader.peek() == "{":
            reader.skip_braces()
        else:
            patterns.append(reader.atom())
    reader.take("=")
    clause = Clause(patterns, reader.expression())
    if not reader.ended():
        raise Unreadable(f"{reader.peek()!r} is left over")
    return clause


def read_type(lines: Sequence[str]) -> Shape:
    """A record or data, with its parameters."""
    begun = next(n for n, line in enumerate(lines) if line.rstrip().endswith("where"))
    reader = Reader(" ".join(lines[:begun + 1]))
    shape = Shape(reader.take())
    reader.take()
    while reader.is_binder():
        before = reader.peek()
        binders = reader.binder()
        if before == "(":
            shape.parameters += [name for name, _ in binders]
            shape.types += [kind for _, kind in binders]
    pattern = r"^ +pub ([\w']+) :" if shape.kind == "record" else r"^  ([\w']+) :"
    parts: list[tuple[str, list[str]]] = []
    for line in lines[begun + 1:]:
        found = re.match(pattern, line)
        if found:
            parts.append((found.group(1), [line[found.end():]]))
        elif parts:
            parts[-1][1].append(line)
    read = [(name, read_expression("\n".join(text))) for name, text in parts]
    if shape.kind == "record":
        shape.fields = read
    else:
        shape.cases = read
    return shape
