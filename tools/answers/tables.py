"""Table files as audb reads them: columns, records with their lines, and how much of a table is unsure."""
import csv
import io
import re

from answers.rows import folded

csv.field_size_limit(2**31 - 1)
LEADS = (("_block", "_role", "_times"), ("_block", "_role"))
DECIMALS = tuple(f"dec{digits}" for digits in range(1, 10))
NUMBER_KINDS = ("int", *DECIMALS)
KINDS = (*NUMBER_KINDS, "text", "flag")
NUMERAL = re.compile(r"-?[0-9]{1,39}", re.ASCII)
DECIMAL = re.compile(r"-?[0-9]{1,39}(?:\.([0-9]{1,9}))?", re.ASCII)
# What people write for a number: signs, separators of thousands, an exponent, a unit of money or a percentage.
LIKE_NUMBER = re.compile(r"\s*[-+]?[$\u20ac\u00a3]?\s*[0-9][0-9.,' \u00a0]*(?:[eE][-+]?[0-9]+)?\s*[%$\u20ac\u00a3]?\s*", re.ASCII)
ESCAPED = re.compile("[\udc80-\udcff]")


class Record:
    """A record: its number, the line where it begins, and its fields."""

    __slots__ = ("number", "line", "fields")

    def __init__(self, number, line, fields):
        self.number, self.line, self.fields = number, line, fields

    def __str__(self):
        return f"record {self.number} (line {self.line})"


class TableColumn:
    """A column of a file: its name, the kind that the header writes or None, and the kind that audb gives it."""

    def __init__(self, name, written):
        self.name, self.written, self.kind = name, written, written


def is_numeral(text):
    return NUMERAL.fullmatch(text) is not None and -(2**127) <= int(text) < 2**127


def records_of(text):
    """Yields the records of a text: lines without a field are none. Quotes are read as leniently as audb does."""
    reader = csv.reader(io.StringIO(text, newline=""))
    number, line = 0, 1
    for fields in reader:
        if fields:
            yield Record(number, line, fields)
            number += 1
        line = reader.line_num + 1


class Table:
    """A table file under its name in the query. Bytes that are no UTF-8 stand in its texts as lone surrogates."""

    def __init__(self, name, path):
        self.name, self.path = name, path
        with open(path, "rb") as file:
            text = file.read().removeprefix(b"\xef\xbb\xbf").decode("utf-8", "surrogateescape")
        self.records = list(records_of(text))
        header = self.records[0].fields if self.records else []
        self.lead = next((len(lead) for lead in LEADS if tuple(header[:len(lead)]) == lead), 0)
        self.columns = [self.column(at, field) for at, field in enumerate(header[self.lead:], 1)]
        self.settle()

    def column(self, place, field):
        """Returns the column of a header field. Its kind is cut off where one is written, or in a block table any colon."""
        name, colon, kind = field.rpartition(":")
        if not colon or not self.lead and kind not in KINDS:
            name, kind = field, None
        return TableColumn(name or f"col{place}", kind)

    def rows(self):
        """Yields the records of alternatives."""
        for record in self.records[1:]:
            if not self.lead or len(record.fields) > 1 and not record.fields[1].startswith("absent"):
                yield record

    def cells(self, at):
        """Yields the field of a column in each alternative, with its record."""
        at += self.lead
        for record in self.rows():
            if at < len(record.fields):
                yield record, record.fields[at]

    def settle(self):
        """Gives each column without a written kind the one that its cells show."""
        for at, column in enumerate(self.columns):
            if column.kind is None:
                texts = {text for _, text in self.cells(at)}
                column.kind = "int" if texts and all(map(is_numeral, texts)) else "text"

    def find(self, name):
        """Returns the place of a column, or None."""
        return next((at for at, column in enumerate(self.columns) if folded(column.name) == folded(name)), None)

    def names(self):
        return [column.name for column in self.columns]

    def blocks(self):
        """Returns the records of each block, in the order of their first ones."""
        blocks = {}
        for record in self.records[1:]:
            blocks.setdefault(record.fields[0] if self.lead else record.number, []).append(record)
        return list(blocks.values())


def least_and_most(text):
    """The ends of a field that may be a range."""
    parts = text.split("..")
    return (parts[0], parts[2]) if len(parts) == 3 else (text, text)


class Share:
    """How much of a table is unsure: of its rows those that may be absent or several, and of each column's cells."""

    def __init__(self, table):
        self.rows, self.open, self.cells = 0, 0, [0] * len(table.columns)
        ranges = [table.lead == 3 and column.kind in NUMBER_KINDS for column in table.columns]
        for block in table.blocks() if table.lead else ():
            self.add(block, table.lead, ranges)
        if not table.lead:
            self.rows = len(table.records) - 1

    def add(self, block, lead, ranges):
        rows = [record.fields for record in block if not record.fields[1].startswith("absent")]
        times = [least_and_most(fields[2]) for fields in rows] if lead == 3 else []
        self.rows += 1
        self.open += len(rows) < len(block) or len({end for ends in times for end in ends}) > 1
        for at, is_range in enumerate(ranges, lead):
            texts = {fields[at] for fields in rows}
            unsure = len(texts) > 1 or is_range and len(set(least_and_most(next(iter(texts))))) > 1
            self.cells[at - lead] += unsure

    def share(self):
        """The share of unsure cells in all."""
        count = self.rows * len(self.cells)
        return sum(self.cells) / count if count else 0.0


class Reason:
    """Why a column is text though it looks like numbers: the record and its field, and the digits that a `dec` kind would need."""

    def __init__(self, record, text, digits=None):
        self.record, self.text, self.digits = record, text, digits


def reason_of_text(table, at):
    """Returns why a column without a written kind is text, or None where most of its cells are no numbers."""
    if table.columns[at].written is not None:
        return None
    cells = list(table.cells(at))
    odd = [(record, text) for record, text in cells if not is_numeral(text)]
    if not odd or 2 * sum(1 for _, text in odd if not LIKE_NUMBER.fullmatch(text)) >= len(cells):
        return None
    decimals = [DECIMAL.fullmatch(text) for _, text in cells]
    if all(decimals):
        return Reason(*odd[0], max(len(found[1] or "") for found in decimals))
    return Reason(*next((record, text) for (record, text), found in zip(cells, decimals) if not found))
