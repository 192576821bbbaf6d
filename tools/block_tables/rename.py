"""`blocks rename`: the ids of copies become those of the rows that stay."""
from .alternatives import compared, expanded, with_cell
from .cells import cell_text
from .outputs import block_text
from .pairs import read_pairs
from .sources import Refusal, short, shown
from .tables import read_table, settle


def id_of(table, at):
    """Returns how a field of a pair is read: as a cell of the column."""
    def read(row, header, n):
        found = cell_text(table.kinds[at], row.cells[n])
        if found is None or row.cells[n] == "":
            raise row.refusal(header[n], f"{short(row.cells[n])} is no {table.kinds[at]}, as column {table.names[at]} is")
        return found

    return read


class Renaming:
    """For each id that is the second of pairs, the pairs in their order."""

    def __init__(self, pairs):
        self.pairs = {}
        for pair in pairs:
            self.pairs.setdefault(pair.second, []).append(pair)

    def reached(self, start, sure=False):
        """The id and all that it may be a copy of, from second to first: along a pair as far as it goes, then along the next;
        by sure pairs alone where `sure` says so."""
        found, stack = {}, [start]
        while stack:
            name = stack.pop()
            if name not in found:
                found[name] = None
                stack += [pair.first for pair in reversed(self.pairs.get(name, ())) if pair.sure or not sure]
        return list(found)

    def stays(self, name):
        """Whether the id may be one that stays: it is no sure copy."""
        return not any(pair.sure for pair in self.pairs.get(name, ()))

    def choices(self, start, guess):
        """The ids that a cell may have, the guess first: by all pairs one that is no copy, or by sure pairs alone."""
        reached = self.reached(start)
        nearest = [name for name in self.reached(start, sure=True) if self.stays(name)]
        last = [name for name in reached if name not in self.pairs]
        if not nearest or not last:
            raise ring(self.pairs, reached)
        first = last[0] if guess == "first" else nearest[0]
        return list(dict.fromkeys([first] + [name for name in reached if self.stays(name)]))


def ring(pairs, reached):
    """The refusal of ids each of which is a copy of another."""
    pair = min((pair for name in reached for pair in pairs.get(name, ())), key=lambda pair: pair.row.record)
    return Refusal(f"{pair.row.place()}: a ring of pairs, in which each id is a second one")


def rename(options, warnings):
    """Returns a block table of a file in which a column's ids of copies are those of the rows that stay, or either."""
    table = read_table(options.file, options, warnings)
    settle(table, options, warnings)
    at = table.place_of(options.column)
    sure = options.sure or not options.probable
    renaming = Renaming(read_pairs(options.by, options, id_of(table, at), sure))
    known = {name: renaming.choices(name, options.guess) for name in renaming.pairs}

    def choose(row):
        return known.get(row.cells[at], [row.cells[at]])

    found = False
    for row in table.rows():
        found |= compared(row, table, at) in known
    if not found:
        warnings.append(f"{shown(options.file)}: no cell of column {table.names[at]} is the second of a pair")
    blocks = (expanded(block, with_cell(at, choose)) for block in table.blocks)
    return block_text(table.names, table.kinds, blocks, table.copies)
