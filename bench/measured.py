"""The block table and the queries by which databases are measured.

The columns: kn, a key of as many values as there are blocks, unsure in 5 of 100 blocks, its alternatives next to each other; kw, the
same with an alternative anywhere; g, one of 100 groups, unsure in 5 of 100 blocks with the next group; gw, the same with any group;
many, a group of about 10 blocks, unsure with the next one; amount, unsure in 20 of 100. 2 of 100 blocks may be absent, half of these
by the guess. id is always sure.
"""
import random

QUERIES = {
    "scan": "SELECT id, amount FROM s WHERE amount < 100",
    "DISTINCT": "SELECT DISTINCT many FROM s",
    "100 groups": "SELECT g, COUNT(*) AS n, SUM(amount) AS t FROM s GROUP BY g",
    "100 groups, any alternative": "SELECT gw, COUNT(*) AS n, SUM(amount) AS t FROM s GROUP BY gw",
    "many groups": "SELECT many, COUNT(*) AS n, SUM(amount) AS t, MIN(amount) AS m FROM s GROUP BY many",
    "join, sure keys": "SELECT x.id, y.amount FROM s x, s y WHERE x.id = y.id",
    "join, unsure keys": "SELECT x.id, y.amount FROM s x, s y WHERE x.kn = y.kn",
    "EXCEPT": "SELECT kn FROM s EXCEPT SELECT many FROM s",
}
HEADER = "_block,_role,id:int,kn:int,kw:int,g:text,gw:text,many:int,amount:int\n"


def lines(blocks, seed=1):
    """Yields the lines of the table."""
    draw = random.Random(seed).random
    yield HEADER
    for label in range(blocks):
        yield from block(label, blocks, draw)


def block(label, blocks, draw):
    """Yields the records of a block."""
    near, anywhere, group, other = int(draw() * blocks), int(draw() * blocks), int(draw() * 100), int(draw() * 100)
    many, amount, absent = int(draw() * blocks / 10), int(draw() * 1000), draw()
    yield f"b{label},{'alt' if absent < .01 else 'guess'},{label},{near},{anywhere},g{group:02},g{other:02},{many},{amount}\n"
    unsure = [draw() < part for part in (.05, .05, .05, .05, .05, .2)]
    if any(unsure):
        near += int(draw() * 3) - 1 if unsure[0] else 0
        anywhere = int(draw() * blocks) if unsure[1] else anywhere
        group = min(99, group + unsure[2])
        other = int(draw() * 100) if unsure[3] else other
        many += unsure[4]
        amount += int(draw() * 20) - 10 if unsure[5] else 0
        yield f"b{label},alt,{label},{near},{anywhere},g{group:02},g{other:02},{many},{amount}\n"
    if absent < .02:
        yield f"b{label},{'absent-guess' if absent < .01 else 'absent'},,,,,,,\n"


def write(path, blocks):
    """Writes the table file."""
    with open(path, "w", encoding="utf-8") as file:
        file.writelines(lines(blocks))


def multiplied(table, blocks, times):
    """Returns the items and the source of a query whose rows are copies of an encoded table of so many blocks, each with ids and
    keys of its own. Groups of the columns g and gw are the same in all."""
    shifts = dict.fromkeys(range(9), blocks) | dict.fromkeys(range(15, 18), blocks // 10)
    items = ", ".join(f"c{place} + k * {shifts[place]} AS c{place}" if place in shifts else f"c{place}" for place in range(24))
    return f"{items} FROM {table}, generate_series(0, {times - 1}) k"
