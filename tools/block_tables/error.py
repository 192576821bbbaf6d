"""`blocks error`: numbers that may be off by an error."""
import re
from fractions import Fraction

from .cells import LEAST, MOST, digits_of, is_range, most_digits, number_kind, number_text, span_of, span_text
from .impute import with_choices
from .sources import Refusal, shown
from .tables import no_number, read_table, settle

AMOUNT = re.compile(r"([0-9]+)(?:\.([0-9]+))?(%?)", re.ASCII)


def amount(text):
    """What an error's text says: a number, and whether it is a percentage; None where it is no error."""
    found = AMOUNT.fullmatch(text)
    return found and (Fraction(f"{found[1]}.{found[2] or 0}"), found[3] == "%")


def amount_in(row, table, at):
    """The error that stands in a cell: none where it is empty, and the greatest of a range."""
    text = row.cells[at]
    if row.source.copies and is_range(text):
        text = text.rpartition("..")[2]
    number = table.marks.plain(text.removesuffix("%")) + text[len(text.removesuffix("%")):]
    found = amount(number or "0")
    if not found:
        raise row.refusal(table.names[at], f"{text!r} is no error")
    return found


def size_of(word, table, digits):
    """Returns how far off a value may be, in units, as a function of its row and the value."""
    told = amount(word)
    at = None if told else table.place_of(word)

    def size(row, value):
        number, percent = told or amount_in(row, table, at)
        return abs(value) * number / 100 if percent else number * 10**digits

    return size


def error_ends(table, at, below, above, digits):
    """Gives for a row its number and the ends that its error allows, and for a range the range with its ends moved outwards.

    The least and the greatest value that an error makes of a range come of its ends, also where the error is more than the
    whole value: what is taken off grows with the distance from 0."""
    def choose(row):
        span = span_of(row.cells[at], digits)
        low = min((end - below(row, end)).__floor__() for end in (span[0], span[2]))
        high = max((end + above(row, end)).__ceil__() for end in (span[0], span[2]))
        if low < LEAST or high > MOST:
            raise row.refusal(table.names[at], "an end leaves 128 bits")
        if span[0] < span[2]:
            return [span_text((low, span[1], high), digits)]
        return list(dict.fromkeys(number_text(end, digits) for end in (span[1], low, high)))

    return choose


def number_column(table, at):
    """Returns the digits of a column of numbers, whose kind may be text where it is written so."""
    name = table.names[at]
    if digits_of(table.kinds[at]) is None:
        for row in table.rows():
            if most_digits([row.cells[at]]) is None:
                raise row.refusal(name, "empty; impute it first" if row.cells[at] == "" else no_number(row.cells[at]))
        digits = most_digits([row.cells[at] for row in table.rows()])
        if digits is None:
            raise Refusal(f"{shown(table.path)}: the numbers of column {name} together have more digits than a kind has")
        table.kinds[at] = number_kind(digits)
    return digits_of(table.kinds[at])


def error(options, warnings):
    """Returns a block table of a file in which a column's numbers have an error."""
    table = read_table(options.file, options, warnings)
    at = table.place_of(options.column)
    words = [options.below or "0", options.above or "0"]
    gone = {table.place_of(word) for word in words if not amount(word)}
    if at in gone:
        raise Refusal(f"column {table.names[at]} can't be its own error")
    settle(table, options, warnings, silent=gone)
    digits = number_column(table, at)
    choose = error_ends(table, at, *(size_of(word, table, digits) for word in words), digits)
    return with_choices(table, at, choose, options, warnings, gone=gone)
