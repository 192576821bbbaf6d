"""Writes a plan as several statements of SQL: the same rows, for tables past what its one text is for.

- Parts of the plan that are read more than once, and the sides of a join of ranges, are made once, as tables.
- A join whose condition asks that ranges overlap, also one that the plan has in three parts (split_joins.py), becomes four, no pair
  in two of them: sure with sure by equality, sure with unsure by BETWEEN over an ordinary index, twice, and unsure with unsure over
  an index of the unsure rows alone.
- The rows that a grouping or a difference joins with its boxes are first summed by the ranges of their keys (key_sums.py).
- A grouping of one table whose rows lie on several servers is done on each of them first.
- A term that becomes large where a database writes it out instead of its name is fenced.
"""
import collections

from key_sums import KeySums, NoSums
from plan_terms import columns, conjuncts, kind, mapped, overlaps, size
from plan_text import Column, Columns, Extend, Filter, Group, Join, Scan, Union, Values
from split_joins import rejoined

LARGE = 200


def names(count, alias=""):
    """Returns the names of so many columns."""
    return ", ".join(f"{alias}c{place}" for place in range(count))


def numbered(items):
    """Returns items with the names of the columns that they become."""
    return ", ".join(f"{item} AS c{place}" for place, item in enumerate(items))


def is_row_by_row(node):
    """Whether an operator makes its rows from those of one table, row by row."""
    return isinstance(base(node), Scan)


def base(node):
    """Returns the operator below all that work row by row."""
    while isinstance(node, (Extend, Columns, Filter)):
        node = node.child
    return node


def sided(term, width):
    """Returns a term over a join's rows, of which the left ones have this width, as one over both sides."""
    return mapped(term, lambda c: Column("x", c.place) if c.place < width else Column("y", c.place - width))


def bare(term):
    """Returns a term over one side of a join as one over its rows."""
    return mapped(term, lambda c: Column("", c.place))


class SplitPlan:
    """The statements of a plan. `kinds` has the kinds of each table's columns, `shards` for some tables the names of those whose rows
    together are theirs."""

    def __init__(self, dialect, kinds, shards=()):
        self.dialect, self.table_kinds, self.shards = dialect, kinds, dict(shards)
        self.statements, self.tables, self.scanned, self.kinds_of, self.sizes_of = dialect.setup(), {}, {}, {}, {}

    def last(self, plan):
        """Returns the text of the last statement, which gives the plan's rows. The others are `statements`, in order."""
        return self.dialect.whole(self.text(rejoined(plan)))

    # What is known of an operator's columns.

    def kinds(self, node):
        """Returns the kinds of an operator's columns."""
        if node not in self.kinds_of:
            self.kinds_of[node] = self.found_kinds(node)
        return self.kinds_of[node]

    def found_kinds(self, node):
        if isinstance(node, Scan):
            return self.table_kinds[node.table]
        if isinstance(node, Values):
            return [kind(cell, None) for cell in (node.rows or [[]])[0]]
        if isinstance(node, (Join, Union)):
            left = self.kinds(node.left)
            return left + self.kinds(node.right) if isinstance(node, Join) else left
        below = self.kinds(node.child)
        if isinstance(node, Extend):
            return [*below, kind(node.term, lambda column: below[column.place])]
        if isinstance(node, Columns):
            return [below[place] for place in node.places]
        if isinstance(node, Group):
            return [below[key] for key in node.keys] + [below[place] for _, place in node.aggregates]
        return below

    def sizes(self, node):
        """Returns how large each column's term becomes where it is written out instead of its name."""
        if node not in self.sizes_of:
            self.sizes_of[node] = self.found_sizes(node)
        return self.sizes_of[node]

    def found_sizes(self, node):
        if isinstance(node, Extend):
            new = self.new_size(node)
            return [1] * node.width if new > LARGE else [*self.sizes(node.child), new]
        if isinstance(node, Columns):
            return [self.sizes(node.child)[place] for place in node.places]
        if isinstance(node, Filter):
            return self.sizes(node.child)
        if isinstance(node, Join):
            return self.sizes(node.left) + self.sizes(node.right)
        if isinstance(node, Union):
            return list(map(max, self.sizes(node.left), self.sizes(node.right)))
        return [1] * node.width

    def new_size(self, node):
        """Returns how large the term of a new column becomes."""
        uses = collections.Counter()

        def count(term):
            if isinstance(term, Column):
                uses[term.place] += 1
            for part in term:
                if isinstance(part, tuple):
                    count(part)
        count(node.term)
        below = self.sizes(node.child)
        return 1 + sum(number * below[place] for place, number in uses.items())

    # Tables.

    def make(self, text):
        """Returns the name of the table of these rows, made once."""
        if text not in self.tables:
            self.tables[text] = f"m{len(self.tables)}"
            self.statements += self.dialect.made(self.tables[text], text)
        return self.tables[text]

    def index(self, statement, *words):
        """Makes an index, once."""
        if (statement, *words) not in self.tables:
            self.tables[(statement, *words)] = ""
            self.statements.append(statement(*words))

    def made(self, node, conditions=()):
        """Returns a text of an operator's rows that costs little to read again."""
        text = self.text(node, conditions)
        return text if is_row_by_row(node) else f"SELECT {names(node.width)} FROM {self.make(text)}"

    # Texts.

    def text(self, node, conditions=()):
        """Returns a text of an operator's rows, where those that fail one of the conditions need not be among them."""
        if isinstance(node, Scan):
            return f"SELECT {names(node.width)} FROM {self.scanned.get(node.table, node.table)}"
        if isinstance(node, Values):
            return self.dialect.values(node.rows, names(node.width))
        if isinstance(node, Union):
            return self.dialect.union([self.text(node.left), self.text(node.right)])
        if isinstance(node, Join):
            return self.join(node, conditions)
        if isinstance(node, Group):
            return self.group(node)
        return self.row_by_row(node, conditions)

    def row_by_row(self, node, conditions):
        """Returns the text of an operator that works row by row. The conditions hold below it in its own terms."""
        below = node.child.width
        if isinstance(node, Filter):
            text = self.text(node.child, self.kept([*conditions, *conjuncts(node.on)]))
            return f"SELECT * FROM {self.dialect.source(text)} x WHERE {self.dialect.show(node.on)}"
        if isinstance(node, Columns):
            down = [mapped(term, lambda column: Column("", node.places[column.place])) for term in conditions]
            return f"SELECT {numbered(f'c{place}' for place in node.places)} FROM {self.dialect.source(self.text(node.child, down))} x"
        down = [mapped(term, lambda column: node.term if column.place == below else column) for term in conditions]
        text = self.dialect.source(self.text(node.child, self.kept(down)))
        text = f"SELECT x.*, {self.dialect.show_column(node.term)} AS c{below} FROM {text} x"
        return self.dialect.fenced(text) if self.new_size(node) > LARGE else text

    def kept(self, conditions):
        """Returns the conjuncts of conditions that are small enough to be looked at below."""
        return [part for term in conditions for part in conjuncts(term) if size(part) <= LARGE]

    # Joins.

    def join(self, node, conditions):
        """Returns the text of a join, split where its own condition or one above asks that ranges overlap."""
        left, right = node.left, node.right
        down, own, above = {"x": [], "y": []}, conjuncts(node.on), []
        for term in [sided(term, left.width) for term in conditions]:
            sides = {column.side for column in columns(term)}
            if len(sides) == 1:
                down[sides.pop()].append(bare(term))
            else:
                above.append(term)
        pairs, rest = overlaps(list(dict.fromkeys(own + above)))
        rest = [term for term in rest if term in own]
        head = numbered([*names(left.width, "x.").split(", "), *names(right.width, "y.").split(", ")])
        if not pairs:
            texts = [self.dialect.source(self.text(*each)) for each in ((left, down["x"]), (right, down["y"]))]
            return f"SELECT {head} FROM {texts[0]} x, {texts[1]} y WHERE {self.dialect.show(node.on)}"
        texts = self.made(left, down["x"]), self.made(right, down["y"])
        kinds = {"x": self.kinds(left), "y": self.kinds(right)}
        return self.split(head, texts, pairs, rest, [kind(low, lambda c: kinds[c.side][c.place]) for (low, _), _ in pairs])

    def split(self, head, texts, pairs, rest, kinds):
        """Returns the text of a join of ranges as four joins. Each pair compares ranges of a kind."""
        show, dialect = self.dialect.show, self.dialect
        places = range(len(pairs))
        (sure, unsure), (sure_right, unsure_right) = (self.sides(text, [pair[k] for pair in pairs]) for k, text in enumerate(texts))
        lows = ", ".join(f"l{i}" for i in places)
        self.index(dialect.index, sure_right, lows)
        self.index(dialect.index, sure, lows)
        self.index(dialect.span_index, unsure_right, tuple((kinds[i], f"l{i}", f"h{i}") for i in places))

        def arm(left, right, test):
            on = " AND ".join([test(i) for i in places] + [show(term) for term in rest])
            return f"SELECT {head} FROM {left} x, {right} y WHERE {on}"
        return dialect.union([
            arm(sure, sure_right, lambda i: f"x.l{i} = y.l{i}"),
            arm(unsure, sure_right, lambda i: f"y.l{i} BETWEEN x.l{i} AND x.h{i}"),
            arm(sure, unsure_right, lambda i: f"x.l{i} BETWEEN y.l{i} AND y.h{i}"),
            arm(unsure, unsure_right, lambda i: dialect.ranges_meet(kinds[i], (f"x.l{i}", f"x.h{i}"), (f"y.l{i}", f"y.h{i}")))])

    def sides(self, text, ends):
        """Returns the tables of the rows of a text whose ranges with these ends are all sure, and of the others, with the ends."""
        show = self.dialect.show
        keys = ", ".join(f"{show(bare(low))} AS l{i}, {show(bare(high))} AS h{i}" for i, (low, high) in enumerate(ends))
        sure = " AND ".join(f"l{i} = h{i}" for i in range(len(ends)))
        whole = f"SELECT x.*, {keys} FROM {self.dialect.source(text)} x"
        if " GROUP BY " in text:
            whole = f"SELECT * FROM {self.make(whole)}"
        source = self.dialect.source(whole)
        return [self.make(f"SELECT * FROM {source} x WHERE {test}") for test in (sure, f"NOT ({sure})")]

    # Groupings.

    def group(self, node):
        """Returns the text of a grouping, over rows that are summed by their keys' ranges first where that can be said."""
        child = node.child
        if isinstance(child, Union) and all(operator == "SUM" for operator, _ in node.aggregates):
            sums = {place for _, place in node.aggregates}
            text = self.summed(child.right, [("SUM" if place in sums else None, place) for place in range(child.width)])
            if text:
                return self.grouped(node, self.dialect.union([self.made(child.left), text]))
        if node.keys:
            text = self.summed(child, [(None, key) for key in node.keys] + node.aggregates)
            if text:
                keys, place = range(len(node.keys)), len(node.keys)
                return self.grouped(Group(child, list(keys), [(op, i) for i, (op, _) in enumerate(node.aggregates, place)]), text,
                                    [self.kinds(child)[at] for _, at in node.aggregates])
        kinds = [self.kinds(child)[place] for _, place in node.aggregates]
        items = [f"c{key}" for key in node.keys] + self.aggregates(node.aggregates, kinds)
        return self.by_shards(child, items, len(node.keys), [op for op, _ in node.aggregates], kinds)

    def aggregates(self, aggregates, kinds):
        """Returns the items of aggregates of columns of these kinds."""
        return [f"{self.dialect.aggregate(op, of)}(c{place})" for (op, place), of in zip(aggregates, kinds)]

    def grouped(self, node, text, kinds=None):
        """Returns the text of a grouping of the rows of a text."""
        kinds = kinds or [self.kinds(node.child)[place] for _, place in node.aggregates]
        items = [f"c{key}" for key in node.keys] + self.aggregates(node.aggregates, kinds)
        return self.grouping(items, len(node.keys), self.dialect.source(text))

    def grouping(self, items, keys, source):
        """Returns the text of a grouping by the first of these items."""
        tail = f"GROUP BY {', '.join(items[:keys])}" if keys else "HAVING COUNT(*) > 0"
        return f"SELECT {numbered(items)} FROM {source} x {tail}"

    def by_shards(self, node, items, keys, operators, kinds):
        """Returns the text of a grouping of an operator's rows: of a table in shards, each shard's rows are grouped by themselves, and
        what is found is merged."""
        table = getattr(base(node), "table", None)
        if table not in self.shards:
            return self.grouping(items, keys, self.dialect.source(self.text(node)))
        texts = []
        for shard in self.shards[table]:
            self.scanned[table] = shard
            texts.append(self.grouping(items, keys, self.dialect.source(self.text(node))))
        del self.scanned[table]
        outer = names(keys).split(", ") if keys else []
        outer += self.aggregates([(op, place) for place, op in enumerate(operators, keys)], kinds)
        return self.grouping(outer, keys, self.dialect.source(self.dialect.union(texts)))

    def summed(self, node, wanted):
        """Returns a text with the wanted columns of a join of ranges whose right rows are summed by their keys' ranges, or None
        where that can't be said. A column is wanted with the operator by which it is aggregated, or None for a key."""
        try:
            sums = KeySums(self, node, wanted)
        except NoSums:
            return None
        left = self.made(sums.join.left)
        right = self.by_shards(sums.join.right, sums.items(), len(sums.keyed), *sums.operators())
        head = numbered(sums.outs)
        return self.split(head, (left, right), sums.pairs, sums.rest, sums.pair_kinds())
