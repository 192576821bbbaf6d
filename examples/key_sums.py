"""Sums the right rows of a join of ranges by the ranges of their keys, where what stands above the join aggregates them.

What a row adds to a box depends on the box through tests on its keys alone. So rows of equal keys are aggregated first, once for each
outcome of the tests, and each box then chooses among the sums by the tests.
"""
from plan_terms import FALSE, TRUE, Overlap, columns, conjuncts, folded, kind, mapped, overlaps, replaced, size, tests
from plan_text import Column, Columns, Extend, Join, Literal

LARGE = 20_000
MOST_TESTS = 4


class NoSums(Exception):
    """The rows can't be summed first."""


class KeySums:
    """The rows of a join's right side summed by the columns `keyed`, and the items `outs` over both sides that are the wanted
    columns, so far as they are aggregates of parts. `pairs` and `rest` are the join's condition over the sums."""

    def __init__(self, writer, node, wanted):
        self.writer, self.parts = writer, {}
        self.join, terms = self.reached(node, [Column("", place) for _, place in wanted])
        width = self.join.left.width
        terms = [mapped(term, lambda c: Column("x", c.place) if c.place < width else Column("y", c.place - width)) for term in terms]
        pairs, rest = overlaps(conjuncts(self.join.on))
        self.keyed = sorted({low.place + i for _, (low, _) in pairs for i in range(3)} if self.are_columns(pairs) else ())
        self.left = {Column("x", place) for place in range(width)}
        self.inside = self.left | {Column("y", place) for place in self.keyed}
        if not self.keyed or any(not columns(term) <= self.inside for term in rest):
            raise NoSums
        self.pairs = [Overlap((left, tuple(map(self.moved, right)))) for left, right in pairs]
        self.rest = [self.moved(term) for term in rest]
        self.outs = [self.out(operator, term) for (operator, _), term in zip(wanted, terms)]

    @staticmethod
    def reached(node, terms):
        """Returns the join below operators that add and choose columns, and the terms over its rows."""
        while isinstance(node, (Extend, Columns)):
            child, last = node.child, node.child.width
            if isinstance(node, Extend):
                terms = [mapped(term, lambda c: node.term if c.place == last else c) for term in terms]
            else:
                terms = [mapped(term, lambda c: Column("", node.places[c.place])) for term in terms]
            if sum(map(size, terms)) > LARGE:
                raise NoSums
            node = child
        if not isinstance(node, Join):
            raise NoSums
        return node, terms

    @staticmethod
    def are_columns(pairs):
        """Whether the right ranges are columns: a lower bound and, two places on, its upper bound."""
        return all(isinstance(low, Column) and high == Column("y", low.place + 2) for _, (low, high) in pairs)

    def moved(self, term):
        """Returns a term over both sides as one over the sums."""
        return mapped(term, lambda c: c if c.side == "x" else Column("y", self.keyed.index(c.place)))

    def out(self, operator, term):
        """Returns the item of a wanted column."""
        if operator:
            return self.chosen(operator, term, {}, self.asked(term))
        if not columns(term) <= self.left:
            raise NoSums
        return self.writer.dialect.show(term)

    def asked(self, term):
        """Returns the tests on keys in a term."""
        found = sorted(tests(term, self.inside), key=repr)
        if len(found) > MOST_TESTS:
            raise NoSums
        return found

    def chosen(self, operator, term, values, asked):
        """Returns the item of an aggregate of a term, in which some tests have values and others are still asked."""
        if not asked:
            return self.part(operator, folded(replaced(term, values)))
        yes, no = (self.chosen(operator, term, {**values, asked[0]: value}, asked[1:]) for value in (TRUE, FALSE))
        return yes if yes == no else f"(CASE WHEN {self.writer.dialect.show(self.moved(asked[0]))} THEN {yes} ELSE {no} END)"

    def part(self, operator, term):
        """Returns the item of an aggregate of a term over the right rows alone."""
        if any(column.side == "x" for column in columns(term)):
            raise NoSums
        if isinstance(term, Literal) and (operator != "SUM" or term.text == "0"):
            return self.writer.dialect.show_column(term)
        term = mapped(term, lambda c: Column("", c.place))
        return f"y.c{len(self.keyed) + self.parts.setdefault((operator, term), len(self.parts))}"

    # What is read of the sums.

    def right_kind(self, term):
        """Returns the kind of a term over the right rows."""
        kinds = self.writer.kinds(self.join.right)
        return kind(term, lambda column: kinds[column.place])

    def items(self):
        """Returns the items of the sums: the keys, and then the aggregates."""
        dialect = self.writer.dialect
        return [f"c{place}" for place in self.keyed] + [
            f"{dialect.aggregate(operator, self.right_kind(term))}({dialect.show(term)})" for operator, term in self.parts]

    def operators(self):
        """Returns the operators of the aggregates, and the kinds that they give."""
        return [operator for operator, _ in self.parts], [self.right_kind(term) for _, term in self.parts]

    def pair_kinds(self):
        """Returns the kinds of the ranges that the condition compares."""
        return [self.right_kind(Column("", self.keyed[low.place])) for _, (low, _) in self.pairs]
