"""`blocks indicators`: a column of 0 and 1 for each value of a column."""
from .alternatives import expanded
from .cells import cell_text, digits_of, is_range, number_kind, number_text, span_of, span_text
from .impute import order_of
from .outputs import block_text
from .sources import Refusal, short, shown
from .tables import check_names, folded, read_table, settle, with_value

HINT = " (--values gives them to some values alone)"


def values_seen(table, at):
    """Returns the values of a column in their order."""
    values = {}
    for row in table.rows():
        if is_in_range(table, row, at):
            raise row.refusal(table.names[at], f"{row.cells[at]} is a range; --values says which values get a column")
        values[row.cells[at]] = None
    return sorted(values, key=order_of(table.kinds[at]))


def is_in_range(table, row, at):
    return row.source.copies and digits_of(table.kinds[at]) is not None and is_range(row.cells[at])


def values_told(table, at, words, warnings):
    """Returns the values of the command line as cells of the column."""
    seen, values = {row.cells[at] for row in table.rows()}, []
    for word in words:
        value = cell_text(table.kinds[at], word)
        if value is None:
            raise Refusal(f"{shown(table.path)}: column {table.names[at]} is {table.kinds[at]}, and {short(word)} is none")
        if value not in seen and not any(is_in_range(table, row, at) for row in table.rows()):
            warnings.append(f"{shown(table.path)}: no cell of column {table.names[at]} is {short(value)}")
        values.append(value)
    return list(dict.fromkeys(values))


def distinct_names(taken, wanted):
    """Returns the names that are wanted, with a number behind those that are taken."""
    held, names = {folded(name) for name in taken}, []
    for name in wanted:
        number, free = 1, name
        while folded(free) in held:
            number += 1
            free = f"{name}_{number}"
        held.add(folded(free))
        names.append(free)
    return names


def pieces(span, values):
    """The parts of a range between values, and the values in it, that with the guess first."""
    low, guess, high = span
    edges = sorted(value for value in values if low <= value <= high)
    parts, start = [], low
    for value in edges:
        parts += [(start, value - 1), (value, value)]
        start = value + 1
    parts = [(first, last) for first, last in parts + [(start, high)] if first <= last]
    parts.sort(key=lambda part: not part[0] <= guess <= part[1])
    return [(first, guess if first <= guess <= last else first, last) for first, last in parts]


def split(table, at, values):
    """Gives the lists of cells of a row of which each says whether the cell is one of the values."""
    digits = digits_of(table.kinds[at])
    units = [span_of(value, digits)[0] for value in values] if digits is not None else []

    def parts(row):
        if not is_in_range(table, row, at):
            return [row.cells]
        spans = pieces(span_of(row.cells[at], digits), units)
        return [with_value(row.cells, at, span_text(span, digits)) for span in spans]

    return parts


def summed_columns(table, names):
    """Returns the places of the columns of numbers that are to be added for each value, and their zeros."""
    places = [table.place_of(name) for name in names]
    for at in places:
        if digits_of(table.kinds[at]) is None:
            raise Refusal(f"{shown(table.path)}: column {table.names[at]} is {table.kinds[at]}, and only numbers are added")
    return places, [number_text(0, digits_of(table.kinds[at])) for at in places]


def indicators(options, warnings):
    """Returns a block table with a column of 0 and 1 for each value of a column."""
    table = read_table(options.file, options, warnings)
    settle(table, options, warnings)
    at = table.place_of(options.column)
    told = values_told(table, at, options.values, warnings) if options.values else None
    values = told or values_seen(table, at)
    places, zeros = summed_columns(table, options.sum)
    wanted = [f"{table.names[n]}_{value}" for n in [at, *places] for value in values]
    names = table.names + distinct_names(table.names, wanted)
    check_names(shown(options.file), names, HINT)
    kinds = table.kinds + [number_kind(0)] * len(values) + [table.kinds[n] for n in places for _ in values]
    parts = split(table, at, values)

    def marked(row):
        for cells in parts(row):
            is_value = [cells[at] == value for value in values]
            added = [cells[n] if is_it else zero for n, zero in zip(places, zeros) for is_it in is_value]
            yield (*cells, *("1" if is_it else "0" for is_it in is_value), *added)

    blocks = (expanded(block, marked) for block in table.blocks)
    return block_text(names, kinds, blocks, table.copies)
