"""`blocks duplicates`: rows that may be absent, since they are probably copies of others."""
from .alternatives import compared
from .cells import cell_text
from .outputs import block_text
from .pairs import read_pairs
from .sources import Refusal, short, shown
from .tables import Block, read_table, settle


def key_places(table, at):
    """Returns the number of the block of each key."""
    places, firsts = {}, []
    for n, block in enumerate(table.blocks):
        firsts.append(block.rows[0].record)
        for row in block.rows:
            key = compared(row, table, at)
            if places.setdefault(key, n) != n:
                raise row.refusal(table.names[at], f"record {firsts[places[key]]} has the key {short(key)} too")
    return places


def placed_by(places, kind):
    """Returns how a field of a pair is read: as the number of the block with this key."""
    def place(row, header, at):
        text = row.cells[at]
        found = places.get(text, places.get(cell_text(kind, text)))
        if found is None:
            raise row.refusal(header[at], f"no row has the key {short(text)}")
        return found

    return place


def check_rings(pairs):
    """Refuses pairs by which all of some rows may be absent at once, though one of them must be there."""
    seconds, links = {pair.second: pair.row for pair in pairs}, {}
    for pair in pairs:
        links.setdefault(pair.first, []).append(pair.second)
        links.setdefault(pair.second, []).append(pair.first)
    seen = set()
    for start in links:
        group, stack = [], [start]
        while stack:
            n = stack.pop()
            if n not in seen:
                seen.add(n)
                group.append(n)
                stack += links[n]
        if group and all(n in seconds for n in group):
            row = seconds[min(group, key=lambda n: seconds[n].record)]
            raise Refusal(f"{row.place()}: a ring of pairs, in which each row is a second one")


def may_be_absent(block, guess):
    """The block as one that may be absent, and is so by the guess where `guess` says so."""
    if guess == "present" or block.guess is None:
        return Block(block.label, block.rows, block.guess, True)
    first = block.rows[block.guess]
    return Block(block.label, [first] + [row for row in block.rows if row is not first], None, True)


def duplicates(options, warnings):
    """Returns a block table of a file in which the second of each pair may be absent."""
    table = read_table(options.file, options, warnings)
    if not table.names:
        raise Refusal(f"{shown(options.file)}: no column")
    settle(table, options, warnings)
    at = table.place_of(options.key) if options.key else 0
    pairs = read_pairs(options.pairs, options, placed_by(key_places(table, at), table.kinds[at]))
    check_rings(pairs)
    seconds = {pair.second for pair in pairs}
    blocks = (may_be_absent(block, options.guess) if n in seconds else block for n, block in enumerate(table.blocks))
    return block_text(table.names, table.kinds, blocks, table.copies)
