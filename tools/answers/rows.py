"""The rows of an answer: cells with their bounds, how often each row is there, and rows in another order or fewer of them."""
import csv
import io
import re
from functools import partial

from answers.outcome import WORDS, Refused

NUMBER = re.compile(r"-?(?:0|[1-9][0-9]*)(?:\.([0-9]{1,9}))?", re.ASCII)
MARKS = ("certain", "expected", "possible")


def folded(name):
    """A name in small letters, as audb compares names: the ASCII letters alone."""
    return "".join(c.lower() if c.isascii() else c for c in name)


class Row:
    """A row: its cells, each a lower bound, a guess and an upper bound, and how often it is there."""

    __slots__ = ("count", "cells", "mark")

    def __init__(self, count, cells):
        self.count, self.cells = count, cells
        self.mark = "certain" if count[0] > 0 else "expected" if count[1] > 0 else "possible"


class Column:
    """A column: its name, and its kind as its cells show it."""

    __slots__ = ("name", "kind")

    def __init__(self, name, kind):
        self.name, self.kind = name, kind


class Answer:
    """The columns and rows of an answer, and how many rows were left out of it, by which word."""

    def __init__(self, columns, rows):
        self.columns, self.rows, self.left_out = columns, rows, {}

    def place(self, name):
        """Returns the place of the column that a word names."""
        places = [at for at, column in enumerate(self.columns) if folded(column.name) == folded(name)]
        if len(places) == 1:
            return places[0]
        names = ", ".join(column.name for column in self.columns)
        raise Refused(WORDS, f"--sort {name}: " + (f"{len(places)} columns have this name; give each an alias, as in "
                                                   f"'{name} AS first'" if places else f"no such column; there are {names}"))

    def sort(self, words):
        """Orders the rows by their guesses, as these words say, `COLUMN` or `COLUMN:desc`, the first before the others."""
        for word in reversed(words):
            name, _, way = word.rpartition(":")
            if way not in ("asc", "desc") or any(folded(column.name) == folded(word) for column in self.columns):
                name, way = word, "asc"
            at = self.place(name)
            self.rows.sort(key=partial(guess_order, self.columns[at], at), reverse=way == "desc")

    def keep(self, mark):
        """Leaves out all rows but those of this mark."""
        kept = [row for row in self.rows if row.mark == mark]
        self.left_out["--only"] = len(self.rows) - len(kept)
        self.rows = kept

    def cut(self, limit):
        """Leaves out all rows behind so many."""
        self.left_out["--limit"] = max(0, len(self.rows) - limit)
        self.rows = self.rows[:limit]

    def counts(self):
        """Returns the number of rows of each mark."""
        counts = dict.fromkeys(MARKS, 0)
        for row in self.rows:
            counts[row.mark] += 1
        return counts

    def omission(self):
        """Says how many rows were left out, '' where none was."""
        return ", ".join(f"{count:,} by {word}" for word, count in self.left_out.items() if count)


def units(text):
    """A number as a whole number of units of its last digit."""
    return int(text.replace(".", ""))


def guess_order(column, at, row):
    """What a row is ordered by in a column."""
    guess = row.cells[at][1]
    return units(guess) if column.kind == "number" else guess


def is_number_column(cells):
    """Whether each cell is a number, all with one number of digits behind the point, and their order is that of numbers."""
    digits = set()
    for cell in cells:
        for text in cell:
            found = NUMBER.fullmatch(text)
            if found is None:
                return False
            digits.add(found[1] and len(found[1]))
    return len(digits) == 1 and all(units(lo) <= units(guess) <= units(hi) for lo, guess, hi in cells)


def kind_of(cells):
    """The kind of a column of these cells. audb prints no kinds, so a text column of numbers alone is taken for numbers."""
    if is_number_column(cells):
        return "number"
    return "flag" if cells and all(text in ("true", "false") for cell in cells for text in cell) else "text"


def read_answer(text):
    """Reads what `audb answer` prints."""
    records = csv.reader(io.StringIO(text, newline=""))
    names = next(records)[4::3]
    rows = []
    for record in records:
        fields = [tuple(record[at:at + 3]) for at in range(0, len(record), 3)]
        rows.append(Row(tuple(map(int, fields[0])), fields[1:]))
    cells = zip(*(row.cells for row in rows)) if rows else [()] * len(names)
    return Answer([Column(name, kind_of(column)) for name, column in zip(names, cells)], rows)
