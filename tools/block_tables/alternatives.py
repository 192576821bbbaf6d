"""Blocks whose rows become alternatives."""
from .cells import digits_of, is_range, span_of, span_text
from .tables import Block, with_value


MANY = 3  # values of which a range is made again each time


def expanded(block, choices):
    """A block in which each row is replaced by rows of other cells. `choices` gives the lists of cells of a row, its guess
    first."""
    rows, guess, seen = [], None, {}
    for n, row in enumerate(block.rows):
        for k, cells in enumerate(choices(row)):
            made = row.of(cells)
            found = seen.setdefault(made.value(), len(rows))
            if found == len(rows):
                rows.append(made)
            if n == block.guess and k == 0:
                guess = found
    return Block(block.label, rows, guess, block.optional)


def with_cell(at, choices):
    """Lists of cells that differ in column `at`: those of the values that `choices` gives of a row."""
    return lambda row: (with_value(row.cells, at, value) for value in choices(row))


def without(blocks, gone):
    """The blocks without some columns."""
    for block in blocks:
        rows = [row.of(tuple(cell for at, cell in enumerate(row.cells) if at not in gone)) for row in block.rows]
        yield merged(Block(block.label, rows, block.guess, block.optional))


def merged(block):
    """A block in which equal rows are one."""
    place_of, rows = {}, []
    for row in block.rows:
        if place_of.setdefault(row.value(), len(rows)) == len(rows):
            rows.append(row)
    guess = None if block.guess is None else place_of[block.rows[block.guess].value()]
    return Block(block.label, rows, guess, block.optional)


def ranged(choices, digits):
    """One range in the place of all values that `choices` gives of a row: from the least to the greatest, and the guess of
    the first."""
    known = {}

    def choose(row):
        values = tuple(choices(row))
        if len(values) <= MANY:
            return [range_of(values, digits)]
        if values not in known:
            known[values] = [range_of(values, digits)]
        return known[values]

    return choose


def range_of(values, digits):
    """The range from the least to the greatest of these values, with the guess of the first."""
    spans = [span_of(text, digits) for text in values]
    return span_text((min(low for low, _, _ in spans), spans[0][1], max(high for _, _, high in spans)), digits)


def compared(row, table, at):
    """The cell of a row in a column of which cells are compared, where none may be a range."""
    text = row.cells[at]
    if row.source.copies and digits_of(table.kinds[at]) is not None and is_range(text):
        raise row.refusal(table.names[at], f"{text} is a range, which can't be compared")
    return text
