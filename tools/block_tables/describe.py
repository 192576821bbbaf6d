"""`blocks describe`: how much of a table is unsure, before one asks."""
from .cells import digits_of, is_range, most_copies
from .outputs import Text
from .sources import shown
from .tables import read_table, settle


class Share:
    """A line of the description: how many of a sort are unsure."""

    def __init__(self, name, kind=""):
        self.name, self.kind, self.unsure, self.all = name, kind, 0, 0

    def add(self, unsure):
        self.unsure += unsure
        self.all += 1

    def fields(self):
        share = f"{100 * self.unsure / self.all:.1f}%" if self.all else "-"
        return [self.name, self.kind, f"{self.unsure:,}", f"{self.all:,}", share]


def numbers_of(copies):
    """The least and the greatest number of copies."""
    return int(copies.partition("..")[0]), most_copies(copies)


def is_unsure(rows, at, kind):
    """Whether the cell of a block in a column has several values: alternatives that differ, or a range."""
    texts = {row.cells[at] for row in rows}
    if len(texts) > 1:
        return True
    return digits_of(kind) is not None and any(row.source.copies and is_range(row.cells[at]) for row in rows)


def has_unsure_copies(block):
    """Whether a block's row may be missing, or be there in several numbers."""
    numbers = {number for row in block.rows for number in numbers_of(row.copies)} | ({0} if block.optional else set())
    return len(numbers) > 1


def shares(table):
    """Returns the shares of blocks, rows, all cells and the cells of each column that are unsure."""
    blocks, rows, cells = Share("blocks"), Share("rows"), Share("cells")
    columns = [Share(f"column {line_of(name)}", kind) for name, kind in zip(table.names, table.kinds)]
    for block in table.blocks:
        held = [row for row in block.rows if most_copies(row.copies)]
        unsure = [is_unsure(held, at, kind) for at, kind in enumerate(table.kinds)]
        rows.add(has_unsure_copies(block))
        blocks.add(any(unsure) or has_unsure_copies(block))
        for column, found in zip(columns, unsure):
            column.add(found)
            cells.add(found)
    return [blocks, rows, cells, *columns]


def line_of(text):
    """A text as audb prints it in a table for people: control characters as `?`."""
    return "".join("?" if c < " " or c == "\x7f" else c for c in text)


def aligned(lines):
    """Returns lines of fields as a table for people: the first two columns to the left, numbers to the right."""
    widths = [max(map(len, fields)) for fields in zip(*lines)]
    padded = [[text.ljust(width) if at < 2 else text.rjust(width) for at, (text, width) in enumerate(zip(fields, widths))]
              for fields in lines]
    rule = "-+-".join("-" * width for width in widths)
    first, *rest = [" | ".join(fields) for fields in padded]
    return "".join(f"{line}\n" for line in [first, rule, *rest])


def describe(options, warnings):
    """Returns a text that says how much of a file is unsure."""
    table = read_table(options.file, options, warnings)
    settle(table, options, warnings)
    alternatives = sum(len(block.rows) for block in table.blocks)
    what = "an ordinary file" if table.plain else "a block table with copies" if table.copies else "a block table"
    head = f"{line_of(shown(options.file))}: {what} of {len(table.blocks):,} blocks with {alternatives:,} alternatives\n"
    lines = [["", "kind", "unsure", "of", "share"], *(share.fields() for share in shares(table))]
    return Text([head, aligned(lines)])
