"""The words of a query, and its parts: SELECTs, their clauses and operands. It reads more than audb's grammar has."""
import re

from answers.rows import folded

TOKEN = re.compile(r"""(?P<blank>[ \t\r\n]+|--[^\n]*)|(?P<word>[A-Za-z_][A-Za-z0-9_]*)|(?P<quoted>"(?:[^"]|"")*")
|(?P<text>'(?:[^']|'')*')|(?P<number>[0-9]+(?:\.[0-9]+)?)|(?P<symbol><>|!=|<=|>=|[(),.*+\-=<>;])|(?P<other>.)""",
                   re.VERBOSE | re.DOTALL)
RESERVED = frozenset("SELECT DISTINCT ALL FROM WHERE GROUP BY HAVING UNION EXCEPT AS AND OR NOT CASE WHEN THEN ELSE END TRUE "
                     "FALSE".split())
AGGREGATES = ("COUNT", "SUM", "MIN", "MAX")
CLAUSES = ("SELECT", "FROM", "WHERE", "GROUP", "HAVING", "ORDER", "LIMIT", "OFFSET", "FETCH")
SETS = ("UNION", "EXCEPT", "INTERSECT")
COMPARISONS = ("=", "<>", "!=", "<", "<=", ">", ">=")
# What stands before and behind an operand of a comparison.
AROUND = frozenset((*CLAUSES, *SETS, *COMPARISONS, "AND", "OR", "NOT", "WHEN", "THEN", "ELSE", "ON", "BY", "AS", "BETWEEN", "IN",
                    "LIKE", "IS", ",", ";"))


class Token:
    """A word, name, text, number or symbol, and where it stands. `key` is its spelling in capitals."""

    __slots__ = ("kind", "text", "start", "end", "key")

    def __init__(self, kind, text, start):
        self.kind, self.text, self.start, self.end = kind, text, start, start + len(text)
        self.key = text.upper() if kind in ("word", "symbol") else None

    def is_name(self):
        return self.kind == "quoted" or self.kind == "word" and self.key not in RESERVED

    def name(self):
        """What a name stands for, without its quotes."""
        return self.text[1:-1].replace('""', '"') if self.kind == "quoted" else self.text


def tokens_of(text):
    return [Token(found.lastgroup, found[0], found.start()) for found in TOKEN.finditer(text) if found.lastgroup != "blank"]


def depth_of(key):
    """What a token adds to the depth of brackets and of CASE .. END."""
    return (key in ("(", "CASE")) - (key in (")", "END"))


class Clause:
    """A clause of a SELECT: its word, the place of that word, and those of its first token and of the one behind its last."""

    __slots__ = ("word", "at", "start", "end")

    def __init__(self, word, at, start):
        self.word, self.at, self.start, self.end = word, at, start, None


class Query:
    """A query's text and its tokens."""

    def __init__(self, text):
        self.text, self.tokens = text, tokens_of(text)

    def token(self, at):
        """The token at a place, one without a key where none is there."""
        return self.tokens[at] if 0 <= at < len(self.tokens) else Token("end", "", len(self.text))

    def key(self, at):
        return self.token(at).key

    def at_char(self, char):
        """Returns the place of the token that begins at a character or behind it."""
        return next((at for at, token in enumerate(self.tokens) if token.end > char), len(self.tokens))

    def part(self, start, end):
        """The text from one token up to another."""
        return self.text[self.tokens[start].start:self.tokens[end - 1].end] if start < end else ""

    def places(self, *keys):
        return [at for at, token in enumerate(self.tokens) if token.key in keys]

    def closing(self, at):
        """Returns the place of the bracket that closes the one at `at`, or None."""
        depth = 0
        for place in range(at, len(self.tokens)):
            depth += (self.key(place) == "(") - (self.key(place) == ")")
            if depth == 0:
                return place
        return None

    def back_to(self, at, stops=AROUND):
        """Returns where the operand begins that ends before `at`."""
        depth = 0
        while at > 0:
            key = self.key(at - 1)
            depth -= depth_of(key)
            if depth < 0 or depth == 0 and key in stops:
                break
            at -= 1
        return at

    def on_to(self, at, stops=AROUND):
        """Returns the place behind the operand that begins at `at`."""
        depth = 0
        while at < len(self.tokens):
            key = self.key(at)
            depth += depth_of(key)
            if depth < 0 or depth == 0 and key in stops:
                break
            at += 1
        return at

    def split(self, start, end, key=","):
        """Returns the places of the parts between the tokens of this key that stand outside brackets."""
        parts, depth, begin = [], 0, start
        for at in range(start, end):
            depth += depth_of(self.key(at))
            if depth == 0 and self.key(at) == key:
                parts.append((begin, at))
                begin = at + 1
        return parts + [(begin, end)]

    def select_at(self, at):
        """Returns the SELECT with a FROM in which a token stands, or None."""
        depth, start = 0, at
        while start > 0:
            key = self.key(start - 1)
            if key == ")":
                depth += 1
            elif key == "(" and depth == 0 and self.key(start) == "SELECT":
                break
            elif key == "(" and depth > 0:
                depth -= 1
            elif depth == 0 and key in SETS:
                start += self.key(start) in ("ALL", "DISTINCT")
                break
            start -= 1
        while self.key(start) == "(":
            start += 1
        select = Select(self, start) if self.key(start) == "SELECT" else None
        return select if select and select.clause("FROM") else None

    def edited(self, edits):
        """Returns the text in which other texts stand from one token up to another. No two of the edits overlap."""
        text = self.text
        for start, end, new in sorted(edits, reverse=True):
            begin = self.token(start).start
            stop = self.tokens[end - 1].end if end > start else begin
            text = text[:begin] + new + text[stop:]
        return text


class Select:
    """A SELECT: its clauses by their words, and the place behind it."""

    def __init__(self, query, start):
        self.query, self.start, self.clauses = query, start, {}
        depth, at = 0, start
        while at < len(query.tokens):
            key = query.key(at)
            depth += (key == "(") - (key == ")")
            if depth < 0 or depth == 0 and (key in SETS or key == ";"):
                break
            if depth == 0 and key in CLAUSES and self.begins(key, at):
                behind = at + 1 + (query.key(at + 1) == "BY" or key == "SELECT" and query.key(at + 1) in ("DISTINCT", "ALL"))
                self.clauses.setdefault(key, Clause(key, at, behind))
            at += 1
        self.end = at
        bounds = sorted(clause.at for clause in self.clauses.values()) + [at]
        for clause in self.clauses.values():
            clause.end = bounds[bounds.index(clause.at) + 1]

    def begins(self, key, at):
        """Whether a clause begins here. ORDER, LIMIT and the like are names elsewhere."""
        following = self.query.token(at + 1)
        if key == "ORDER":
            return following.key == "BY"
        if key == "FETCH":
            return following.key in ("FIRST", "NEXT")
        return key not in ("LIMIT", "OFFSET") or following.kind == "number"

    def clause(self, word):
        return self.clauses.get(word)

    def items(self):
        """Returns the places of each item."""
        clause = self.clauses["SELECT"]
        return self.query.split(clause.start, clause.end)

    def sources(self):
        """Returns the places of each FROM item."""
        clause = self.clauses["FROM"]
        return self.query.split(clause.start, clause.end)

    def own(self, *words):
        """Yields the places of tokens in these clauses that stand in no inner query."""
        for clause in filter(None, map(self.clause, words)):
            at = clause.start
            while at < clause.end:
                if self.query.key(at) == "(" and self.query.key(at + 1) == "SELECT":
                    at = self.query.closing(at) or clause.end
                yield at
                at += 1

    def named_item(self, item):
        """Returns the places of an item without its alias, and the alias or None."""
        start, end = item
        last, before = self.query.token(end - 1), self.query.token(end - 2)
        if end - start > 1 and last.is_name() and before.key not in (".", "AS", "+", "-", "*", *COMPARISONS, "AND", "OR", "NOT"):
            return start, end - 1, last.name()
        if end - start > 2 and before.key == "AS":
            return start, end - 2, last.name()
        return start, end, None


def visible_name(query, source):
    """The name under which a FROM item is visible, as it is written."""
    last = query.token(source[1] - 1)
    return last.text if last.is_name() else None


def column_name(query, start, end):
    """The name of the column that is written between two places, or None where something else stands there."""
    token = query.token(end - 1)
    alone = end - start == 1 or end - start == 3 and query.key(start + 1) == "." and query.token(start).is_name()
    return token.name() if alone and token.is_name() else None


def written(name):
    """A name as a query writes it: in quotes where it must."""
    if re.fullmatch(r"[A-Za-z_][A-Za-z0-9_]*", name) and name.upper() not in RESERVED:
        return name
    return '"' + name.replace('"', '""') + '"'


def fresh(text, names, wanted):
    """A name that neither the query nor its tables have."""
    taken = {folded(token.name()) for token in tokens_of(text) if token.is_name()} | set(map(folded, names))
    number = 1
    while folded(wanted if number == 1 else f"{wanted}{number}") in taken:
        number += 1
    return wanted if number == 1 else f"{wanted}{number}"
