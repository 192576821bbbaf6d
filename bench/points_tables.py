"""The tables over which groups by points are measured: merged customers, line items, and lines of orders.

Each is a list of blocks, and `text` is its file. The same seed makes the same blocks.
"""
import random
from bisect import bisect_left, bisect_right
from typing import NamedTuple

# How many of a thousand customers live in each city, the larger ones of Norway; some lists have none.
CITIES = {
    "Oslo": 267, "Bergen": 104, "Trondheim": 76, "Stavanger": 54, "Drammen": 43, "Fredrikstad": 43, "Kristiansand": 41, "Sandnes": 32,
    "Tromsø": 28, "Sarpsborg": 27, "Skien": 27, "Ålesund": 27, "Sandefjord": 26, "Haugesund": 25, "Tønsberg": 25, "Moss": 24,
    "Porsgrunn": 23, "Bodø": 22, "Arendal": 20, "Hamar": 19, "Larvik": 15, "Ås": 12, "Øystese": 8, "": 12,
}
SHOPS, DOUBLES = 2_000, 40
LINE_ITEMS = 24_000
LINES_OF_ORDER = 4
DAYS = 2_526


class Block(NamedTuple):
    """The rows that may be chosen, the guessed one first, and whether none may be."""
    rows: list
    optional: bool = False


def text(header, blocks):
    """Yields the lines of a table file. The cells have no commas or quotes."""
    yield "_block,_role," + header + "\n"
    for label, block in enumerate(blocks):
        for place, row in enumerate(block.rows):
            yield f"{label},{'alt' if place else 'guess'},{','.join(map(str, row))}\n"
        if block.optional:
            yield f"{label},absent" + "," * len(block.rows[0]) + "\n"


def write(path, header, blocks):
    with open(path, "w", encoding="utf-8", newline="") as file:
        file.writelines(text(header, blocks))


# Customers

CUSTOMER = "id:int,city:text"


def customers(part, seed=1):
    """Returns the customers of two shops: of a part of those of both the cities differ, and some of the second shop's may be the
    first one's."""
    draw = random.Random(seed)
    city = lambda: draw.choices(list(CITIES), CITIES.values())[0]
    blocks = []
    for number in range(SHOPS):
        name = city()
        unsure = draw.random() < part
        names = [name, draw.choice([other for other in CITIES if other != name])] if unsure else [name]
        blocks.append(Block([(number, name) for name in names]))
    return blocks + [Block([(SHOPS + number, city())], True) for number in range(DOUBLES)]


def unsure_at(blocks, city):
    """Returns how many unsure customers have a range of cities that holds a city, and how many may live there and may not."""
    holding = possible = 0
    for block in blocks:
        names = [name.encode() for _, name in block.rows]
        if len(names) > 1 or block.optional:
            holding += min(names) <= city.encode() <= max(names)
            possible += city.encode() in names
    return holding, possible


# Line items

LINE_ITEM = "returnflag:text,linestatus:text,quantity:int,price:dec2,discount:dec2,tax:dec2,shipped:int"


def line_item(draw):
    """Returns a line of an order, as TPC-H draws them: what was received before a day is returned or accepted, and what was
    shipped after it is open."""
    shipped, quantity = draw.randrange(DAYS), draw.randrange(1, 51)
    received, today = shipped + draw.randrange(1, 31), DAYS * 2 // 3
    price = quantity * draw.randrange(90_000, 200_000)
    cents = lambda number: f"{number // 100}.{number % 100:02}"
    return ("N" if received > today else draw.choice("RA"), "O" if shipped > today else "F", quantity, cents(price),
            cents(draw.randrange(11)), cents(draw.randrange(9)), shipped)


def line_items(part, seed=1):
    """Returns line items, of which each cell is unsure with this probability: it may be that of another line."""
    draw = random.Random(seed)
    for _ in range(LINE_ITEMS):
        row, other = line_item(draw), line_item(draw)
        maybe = tuple(b if draw.random() < part else a for a, b in zip(row, other))
        yield Block([row] if maybe == row else [row, maybe])


# Lines of orders

ORDER_LINE = "number:int,quantity:int"


def order_lines(orders, part, reach, seed=1):
    """Returns the lines of so many orders, of which a part may belong to another order that is at most so many away."""
    draw = random.Random(seed)
    blocks = []
    for number in range(orders * LINES_OF_ORDER):
        order, quantity = number // LINES_OF_ORDER, draw.randrange(1, 51)
        other = draw.randrange(max(0, order - reach), min(orders, order + reach + 1))
        blocks.append(Block([(order, quantity), (other, quantity)] if draw.random() < part and other != order else [(order, quantity)]))
    return blocks


def held_points(blocks):
    """Returns how many pairs there are of a row and a guessed key that lies in the range of its first cell."""
    points = sorted({block.rows[0][0] for block in blocks})
    ends = [sorted(row[0] for row in block.rows) for block in blocks]
    return sum(bisect_right(points, end[-1]) - bisect_left(points, end[0]) for end in ends)
