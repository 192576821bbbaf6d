"""`blocks merge`: what several files say of one key as alternatives."""
import os

from .alternatives import compared, merged
from .cells import digits_of, joint_kind, most_digits, number_kind
from .outputs import block_text
from .sources import Refusal, short, shown
from .tables import Block, Table, check_names, find, folded, read_table, settle, with_points


class Several(Table):
    """Several tables of the same columns as one."""

    def __init__(self, tables, names, kinds):
        super().__init__(tables[0].path, names, kinds, (), False, any(table.copies for table in tables))
        self.tables = tables

    def rows(self):
        return (row for table in self.tables for row in table.rows())


def align(tables, common):
    """Puts the columns of all tables in the order of the first, and returns their names and written kinds."""
    first = tables[0]
    names = list(first.names)
    sets = [{folded(name) for name in table.names} for table in tables]
    if common:
        names = [name for name in names if all(folded(name) in held for held in sets)]
    kept = {folded(name) for name in names}
    for table in tables:
        extra = [name for name in table.names if folded(name) not in kept]
        if extra and not common:
            raise Refusal(f"{shown(first.path)}: no column {extra[0]}, which {shown(table.path)} has (--common leaves it out)")
        places = [table.place_of(name) if common else place_in(table, name, first) for name in names]
        for row in table.rows():
            row.cells = tuple(row.cells[at] for at in places)
        table.kinds = [table.kinds[at] for at in places]
    return names, [written_kind(tables, at, name) for at, name in enumerate(names)]


def place_in(table, name, first):
    """The place of a column of the first table in another."""
    for at, other in enumerate(table.names):
        if folded(other) == folded(name):
            return at
    raise Refusal(f"{shown(table.path)}: no column {name}, which {shown(first.path)} has (--common leaves it out)")


def written_kind(tables, at, name):
    """The kind that is written for a column in any of the tables: of numbers one for the digits that all of them have."""
    kind, first = None, None
    for table in tables:
        other = table.kinds[at]
        joint = other if kind is None else kind if other is None else joint_kind(kind, other)
        if joint is None and other is not None:
            raise Refusal(f"column {name} is {kind} in {shown(first.path)} and {other} in {shown(table.path)}")
        if joint != kind:
            kind, first = joint, table
    for table in tables if digits_of(kind) is not None else ():
        digits = most_digits([row.cells[at] for row in table.rows()]) if table.kinds[at] is None else None
        kind = kind if digits is None else joint_kind(kind, number_kind(digits))
    return kind


def key_label(key):
    """The label of a block with this key: the cells, with `/` between them."""
    if len(key) == 1:
        return key[0]
    return "/".join(cell.replace("\\", "\\\\").replace("/", "\\/") for cell in key)


def key_of(block, table, places):
    """Returns the key of a block, which all of its rows have."""
    keys = {tuple(compared(row, table, at) for at in places): row for row in reversed(block.rows)}
    key = tuple(block.rows[0].cells[at] for at in places)
    for other, row in keys.items():
        if "" in other:
            raise row.refusal(table.names[places[other.index("")]], "an empty key")
        if other != key:
            raise row.refusal(table.names[places[0]], f"its block has the keys {short(key_label(key))} and "
                              f"{short(key_label(other))}")
    return key


def by_keys(tables, whole, places):
    """Returns for each key the block of each table, None where the table has no such key."""
    held = {}
    for n, table in enumerate(tables):
        for block in table.blocks:
            key = key_of(block, whole, places)
            blocks = held.setdefault(key, [None] * len(tables))
            if blocks[n]:
                other = blocks[n].rows[0].record
                raise block.rows[0].refusal(whole.names[places[0]], f"record {other} has the key {short(key_label(key))} too")
            blocks[n] = block
    return held


def joined(key, blocks, optional):
    """The block of a key. `blocks` are those of the files, that of the guesses first, and None where a file has none."""
    held = [block for block in blocks if block]
    rows = [row for block in held for row in block.rows]
    lacking = optional and len(held) < len(blocks)
    guess = None if lacking and not blocks[0] else held[0].guess
    return merged(Block(key_label(key), rows, guess, lacking or any(block.optional for block in held)))


def merge(options, warnings):
    """Returns a block table of files of which each key's rows are alternatives."""
    tables = [read_table(path, options, warnings) for path in options.files]
    paths = [os.path.normpath(path) for path in options.files]
    favourite = os.path.normpath(options.guess or options.files[0])
    if favourite not in paths:
        raise Refusal(f"{options.guess}: --guess names none of the files")
    first = paths.index(favourite)
    for table in tables:
        with_points(table, warnings)
    names, kinds = align(tables, options.common)
    whole = Several(tables, names, kinds)
    settle(whole, options, warnings)
    check_names(options.files[0], names)
    places = [find(names, key, options.files[0]) for key in options.key]
    order = [first] + [n for n in range(len(tables)) if n != first]
    held = by_keys(tables, whole, places)
    blocks = (joined(key, [blocks[n] for n in order], options.optional) for key, blocks in held.items())
    return block_text(names, whole.kinds, blocks, whole.copies)
