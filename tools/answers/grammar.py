"""Where a query leaves audb's grammar. audb names a byte at which some reading of it ends, which may be the query's end; here it
is the first token at which no query can go on, with what could stand there."""
from answers.queries import AGGREGATES, COMPARISONS


class Stuck(Exception):
    """The place of the first token that doesn't fit, and what would."""

    def __init__(self, at, wanted):
        super().__init__(at, wanted)
        self.at, self.wanted = at, wanted


class Reader:
    """Reads the tokens of a query from the left, by the rules of the grammar."""

    def __init__(self, query):
        self.query, self.at = query, 0

    def key(self):
        return self.query.key(self.at)

    def takes(self, *keys):
        """Passes a token of one of these keys, where one stands here."""
        found = self.key() in keys
        self.at += found
        return found

    def wants(self, key):
        if not self.takes(key):
            raise Stuck(self.at, key)

    def name(self, wanted="a name"):
        if not self.query.token(self.at).is_name():
            raise Stuck(self.at, wanted)
        self.at += 1

    def listed(self, read):
        """Reads one thing, and more behind commas."""
        read()
        while self.takes(","):
            read()

    def text(self):
        self.whole_query()
        self.takes(";")
        if self.at < len(self.query.tokens):
            raise Stuck(self.at, "the end")

    def whole_query(self):
        self.operand()
        while self.takes("UNION", "EXCEPT"):
            self.takes("ALL")
            self.operand()

    def operand(self):
        if self.takes("("):
            self.whole_query()
            self.wants(")")
        else:
            self.select()

    def select(self):
        self.wants("SELECT")
        self.takes("DISTINCT", "ALL")
        self.listed(self.item)
        self.wants("FROM")
        self.listed(self.source)
        if self.takes("WHERE"):
            self.expression()
        if self.takes("GROUP"):
            self.wants("BY")
            self.listed(lambda: self.column("a column's name"))
        if self.takes("HAVING"):
            self.expression()

    def item(self):
        if self.takes("*"):
            return
        if self.query.token(self.at).is_name() and self.query.key(self.at + 1) == "." and self.query.key(self.at + 2) == "*":
            self.at += 3
            return
        self.expression()
        self.alias()

    def alias(self):
        """Passes an alias, where one stands here."""
        if self.takes("AS") or self.query.token(self.at).is_name():
            self.name()

    def source(self):
        if not self.takes("("):
            self.name("a table's name")
            self.alias()
            return
        self.whole_query()
        self.wants(")")
        self.takes("AS")
        self.name("a name for the inner query")

    def expression(self):
        """Reads operands between AND, OR, comparisons and signs; the depth of their grouping says nothing of where they end."""
        self.conjunct()
        while self.takes("AND", "OR"):
            self.conjunct()

    def conjunct(self):
        self.takes("NOT")
        self.sum()
        if self.takes(*COMPARISONS):
            self.sum()

    def sum(self):
        self.factor()
        while self.takes("+", "-", "*"):
            self.factor()

    def factor(self):
        self.takes("-")
        token = self.query.token(self.at)
        if token.kind in ("number", "text") or token.key in ("TRUE", "FALSE"):
            self.at += 1
        elif self.takes("("):
            self.expression()
            self.wants(")")
        elif self.takes("CASE"):
            self.cases()
        elif token.key in AGGREGATES and self.query.key(self.at + 1) == "(":
            self.aggregate(token.key == "COUNT")
        else:
            self.column("a value")

    def cases(self):
        self.wants("WHEN")
        while True:
            self.expression()
            self.wants("THEN")
            self.expression()
            if not self.takes("WHEN"):
                break
        self.wants("ELSE")
        self.expression()
        self.wants("END")

    def aggregate(self, counts):
        self.at += 2
        if not (counts and self.takes("*")):
            self.expression()
        self.wants(")")

    def column(self, wanted):
        self.name(wanted)
        if self.takes("."):
            self.name("a column's name")


def stuck(query):
    """Returns where a query leaves the grammar, or None where it doesn't."""
    try:
        Reader(query).text()
    except Stuck as found:
        return found
    return None
