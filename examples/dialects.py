"""How PostgreSQL and SQLite spell what examples/split_plan.py writes."""
import re

from plan_terms import columns
from plan_text import Call, Case, Column, Literal, One, Truth

FLAGS = {"MIN": "bool_and", "MAX": "bool_or"}
PART = re.compile(r"\bp\d+\b")


class PostgreSQL:
    """Nested texts, numbers of the type numeric, temporary tables, and a GiST index over ranges. With `parallel` the tables are
    unlogged instead, so that several processes may read them."""

    def __init__(self, parallel=False, collated=True):
        self.table, self.collated = "UNLOGGED TABLE" if parallel else "TEMPORARY TABLE", collated
        self.schema = "" if parallel else "pg_temp."

    def setup(self):
        """Returns the statements before all others."""
        return [f'CREATE TYPE {self.schema}textrange AS RANGE (subtype = text, collation = "C")']

    def show(self, term):
        """Returns the text of a term."""
        if isinstance(term, Literal) and term.text.startswith("'"):
            return term.text
        return f"{term.text}::numeric" if isinstance(term, Literal) else shown(term, self.show, "LEAST", "GREATEST")

    def show_column(self, term):
        """Returns the text of a term that becomes a column. A text without a column in it would have the database's own order."""
        text = self.show(term)
        return f'({text} COLLATE "C")' if self.collated and "'" in text and not columns(term) else text

    def aggregate(self, operator, kind):
        """Returns the name of an aggregate. There are no MIN and MAX of flags."""
        return FLAGS.get(operator, operator) if kind == "flag" else operator

    def source(self, text):
        """Returns what stands behind FROM for the rows of a text."""
        return f"({text})"

    def union(self, texts):
        """Returns the text of the rows of all these."""
        return f"({') UNION ALL ('.join(texts)})"

    def values(self, rows, names):
        """Returns the text of these rows."""
        cells = ", ".join(f"({', '.join(map(self.show_column, row))})" for row in rows)
        return f"SELECT * FROM (VALUES {cells}) x({names})"

    def fenced(self, text):
        """Returns a text whose columns' terms stand for no names above it: PostgreSQL would write them out."""
        return f"{text} OFFSET 0"

    def made(self, name, text):
        """Returns the statements that make a table of the rows of a text."""
        return [f"CREATE {self.table} {name} AS {text}", f"ANALYZE {name}"]

    def ranges_meet(self, kind, ends, others):
        """Returns a test whether two ranges overlap that an index over ranges serves."""
        return f"{self.span(kind, *ends)} && {self.span(kind, *others)} AND {ends[0]} <= {others[1]} AND {others[0]} <= {ends[1]}"

    def span(self, kind, low, high):
        """Returns a range of a kind, from one end to the other also where the upper one is less: such pairs meet within it."""
        name, cast = f"{self.schema}textrange" if kind == "text" else "numrange", "::integer" if kind == "flag" else ""
        ends = f"{low}{cast}, {high}{cast}"
        return f"{name}(LEAST({ends}), GREATEST({ends}), '[]')"

    def span_index(self, table, ranges):
        """Returns the statement for an index over ranges of these kinds and ends."""
        return f"CREATE INDEX ON {table} USING gist ({', '.join(self.span(*each) for each in ranges)})"

    def index(self, table, names):
        """Returns the statement for an ordinary index."""
        return f"CREATE INDEX ON {table} ({names})"

    def whole(self, text):
        """Returns a text as a statement."""
        return text


class SQLite:
    """Each operator a named part of a WITH, since texts may not nest deeply. There is no index over ranges."""

    def __init__(self):
        self.names, self.indexes = {}, 0

    def setup(self):
        """Returns the statements before all others."""
        return []

    def show(self, term):
        """Returns the text of a term."""
        return term.text if isinstance(term, Literal) else shown(term, self.show, "MIN", "MAX")

    show_column = show

    def aggregate(self, operator, _kind):
        """Returns the name of an aggregate."""
        return operator

    def source(self, text):
        """Returns what stands behind FROM for the rows of a text: a part's name."""
        return self.names.setdefault(text, f"p{len(self.names)}")

    def union(self, texts):
        """Returns the text of the rows of all these."""
        return " UNION ALL ".join(f"SELECT * FROM {self.source(text)}" for text in texts)

    def values(self, rows, names):
        """Returns the text of these rows."""
        cells = ", ".join(f"({', '.join(map(self.show, row))})" for row in rows)
        items = ", ".join(f"column{place} AS {name}" for place, name in enumerate(names.split(", "), 1))
        return f"SELECT {items} FROM {self.source(f'VALUES {cells}')}"

    def fenced(self, text):
        """Returns a text whose columns' terms stand for no names above it."""
        return f"{text} LIMIT -1 OFFSET 0"

    def made(self, name, text):
        """Returns the statements that make a table of the rows of a text."""
        return [f"CREATE TEMPORARY TABLE {name} AS {self.whole(text)}"]

    def ranges_meet(self, _kind, ends, others):
        """Returns a test whether two ranges overlap."""
        return f"{ends[0]} <= {others[1]} AND {others[0]} <= {ends[1]}"

    def span_index(self, table, ranges):
        """Returns the statement for an index over the ends of ranges."""
        return self.index(table, ", ".join(low for _, low, _ in ranges))

    def index(self, table, names):
        """Returns the statement for an ordinary index."""
        self.indexes += 1
        return f"CREATE INDEX i{self.indexes} ON {table} ({names})"

    def whole(self, text):
        """Returns a text as a statement, with the parts that it reads, each behind those that it reads itself."""
        texts = {name: part for part, name in self.names.items()}
        found = {}

        def find(part):
            for name in PART.findall(part):
                if name in texts and name not in found:
                    find(texts[name])
                    found[name] = texts[name]
        find(text)
        parts = ", ".join(f"{name} AS ({part})" for name, part in found.items())
        return f"WITH {parts} {text}" if parts else text


def shown(term, show, least, greatest):
    """Returns the text of a term that is no literal, with the names of the two functions."""
    if isinstance(term, Column):
        return f"{term.side}.c{term.place}" if term.side else f"c{term.place}"
    if isinstance(term, Truth):
        return term.word
    if isinstance(term, Call):
        return f"{least if term.name == 'LEAST' else greatest}({show(term.left)}, {show(term.right)})"
    if isinstance(term, One):
        return f"({term.operator} {show(term.term)})"
    if isinstance(term, Case):
        return f"(CASE WHEN {show(term.test)} THEN {show(term.then)} ELSE {show(term.other)} END)"
    return f"({show(term.left)} {term.operator} {show(term.right)})"
