"""Reads the text of a plan that `audb rewrite` prints into operators and terms: docs/FORMATS.md has its spelling."""
import re
from dataclasses import dataclass
from typing import NamedTuple

TOKEN = re.compile(r"'(?:[^']|'')*'|(?:[xy]\.)?c\d+|-?\d+|[A-Z]+|<=|[()<=+*,-]")
BRACKET = re.compile(r"'[^']*'|[()]")
COLUMN = re.compile(r"(?:([xy])\.)?c(\d+)")
AGGREGATE = re.compile(r"(SUM|MIN|MAX)\(c(\d+)\)")


class Column(NamedTuple):
    """A column: of the left or right rows of a join (x or y), else of the rows below ('')."""
    side: str
    place: int


class Literal(NamedTuple):
    """A number or a text, as it is written."""
    text: str


class Truth(NamedTuple):
    """TRUE or FALSE."""
    word: str


class Call(NamedTuple):
    """LEAST or GREATEST of two terms."""
    name: str
    left: tuple
    right: tuple


class One(NamedTuple):
    """A sign or NOT before a term."""
    operator: str
    term: tuple


class Two(NamedTuple):
    """An operator between two terms."""
    operator: str
    left: tuple
    right: tuple


class Case(NamedTuple):
    """One of two terms, by a condition."""
    test: tuple
    then: tuple
    other: tuple


@dataclass(eq=False)
class Scan:
    """The rows of a table tK."""
    table: str
    width: int


@dataclass(eq=False)
class Values:
    """These rows, of terms."""
    rows: list
    width: int


@dataclass(eq=False)
class Extend:
    """The rows below with one more column on the right."""
    child: object
    term: tuple

    @property
    def width(self):
        return self.child.width + 1


@dataclass(eq=False)
class Columns:
    """The columns of these places."""
    child: object
    places: list

    @property
    def width(self):
        return len(self.places)


@dataclass(eq=False)
class Filter:
    """The rows where a condition holds."""
    child: object
    on: tuple

    @property
    def width(self):
        return self.child.width


@dataclass(eq=False)
class Join:
    """The pairs of rows where a condition holds."""
    left: object
    right: object
    on: tuple

    @property
    def width(self):
        return self.left.width + self.right.width


@dataclass(eq=False)
class Union:
    """The rows of both."""
    left: object
    right: object

    @property
    def width(self):
        return self.left.width


@dataclass(eq=False)
class Group:
    """One row for each list of key values: the keys, and then aggregates, each an operator with a place."""
    child: object
    keys: list
    aggregates: list

    @property
    def width(self):
        return len(self.keys) + len(self.aggregates)


def closing(text, start):
    """Returns the place of the bracket that closes the one at a place. Quoted texts have none."""
    depth = 0
    for found in BRACKET.finditer(text, start):
        depth += (found[0] == "(") - (found[0] == ")")
        if not depth:
            return found.start()
    raise ValueError("a bracket is not closed")


def source(text):
    """Returns where the operator's ` FROM ` stands: outside brackets and quoted texts."""
    at = 0
    while not text.startswith(" FROM ", at):
        at = closing(text, at) + 1 if text[at] == "(" else text.index("'", at + 1) + 1 if text[at] == "'" else at + 1
    return at


def plan(text):
    """Returns the operator that is a plan's text."""
    if text.startswith("("):
        end = closing(text, 0)
        return Union(plan(text[1:end]), plan(text[end + len(") UNION ALL ("):-1]))
    at = source(text)
    head, rest = text[len("SELECT "):at], text[at + len(" FROM "):]
    if not rest.startswith("("):
        return Scan(rest, len(head.split(", ")))
    end = closing(rest, 0)
    if rest.startswith("VALUES ", 1):
        return values(rest[len("(VALUES "):end], rest[end:].count("c"))
    return above(plan(rest[1:end]), head, rest[end + len(") x"):])


def above(child, head, tail):
    """Returns the operator with this child, by its items and what stands behind the child."""
    if tail.startswith(", ("):
        end = closing(tail, len(", "))
        return Join(child, plan(tail[len(", ("):end]), term(tail[end + len(") y WHERE "):]))
    if head.startswith("x.*, "):
        return Extend(child, term(head[len("x.*, "):head.rindex(" AS ")]))
    if head == "*":
        return Filter(child, term(tail[len(" WHERE "):]))
    items = [item.rpartition(" AS ")[0] for item in head.split(", ")]
    found = [AGGREGATE.fullmatch(item) for item in items]
    if tail:
        keys = [int(item[1:]) for item, match in zip(items, found) if not match]
        return Group(child, keys, [(match[1], int(match[2])) for match in found if match])
    return Columns(child, [int(item[1:]) for item in items])


def values(text, width):
    """Returns the rows of VALUES."""
    cells = [leaf(token) for token in TOKEN.findall(text) if token not in ("(", ")", ",")]
    return Values([cells[at:at + width] for at in range(0, len(cells), width)] if width else [], width)


def leaf(token):
    """Returns the term that is one token."""
    if token in ("TRUE", "FALSE"):
        return Truth(token)
    match = COLUMN.fullmatch(token)
    return Column(match[1] or "", int(match[2])) if match else Literal(token)


class Terms:
    """Reads a term from its tokens."""

    def __init__(self, text):
        self.tokens, self.at = TOKEN.findall(text), 0

    def take(self, count=1):
        """Goes past tokens, and returns the last of them."""
        self.at += count
        return self.tokens[self.at - 1]

    def read(self):
        """Returns the term that begins here, and goes past it."""
        token = self.take()
        if token in ("LEAST", "GREATEST"):
            return Call(token, *self.parts((1, 1), 1))
        if token != "(":
            return leaf(token)
        if self.tokens[self.at] == "CASE":
            return Case(*self.parts((2, 1, 1), 2))
        if self.tokens[self.at] in ("-", "NOT"):
            return One(self.take(), *self.parts((0,), 1))
        left = self.read()
        return Two(self.take(), left, *self.parts((0,), 1))

    def parts(self, before, behind):
        """Returns terms with so many tokens before each of them and behind the last."""
        found = [self.take(count) and self.read() if count else self.read() for count in before]
        self.take(behind)
        return found


def term(text):
    """Returns the term that is a text."""
    return Terms(text).read()
