"""Whether an ordinary answer's rows can be dealt out to the rows that a bounded answer prints.

An ordinary answer is a Counter of rows of values. By a distribution each of its copies goes to a printed row that holds it, and each
printed row gets between its least and its most copies.
"""
import itertools
from typing import NamedTuple


class Row(NamedTuple):
    """A printed row: how many rows it stands for, and the bounds and the guess of each cell."""
    least: int
    guess: int
    most: int
    cells: tuple

    def holds(self, values):
        return all(lo <= value <= hi for value, (lo, _, hi) in zip(values, self.cells, strict=True))


class Dealing:
    """Printed rows with the copies that each one was given, as the row of values of each."""

    def __init__(self, rows, holders):
        self.rows, self.holders, self.given = rows, holders, [[] for _ in rows]

    def give(self, values, limits, tried):
        """Gives a copy to a printed row that holds it and is below its limit, or takes it in the place of another copy that finds
        such a row. No printed row is left with fewer. Returns whether there is a way, along printed rows that were not tried."""
        for place in self.holding(values):
            if place in tried:
                continue
            tried.add(place)
            given = self.given[place]
            if len(given) < limits[place]:
                given.append(values)
                return True
            moved = next((other for other in set(given) if self.give(other, limits, tried)), None)
            if moved is not None:
                given[given.index(moved)] = values
                return True
        return False

    def holding(self, values):
        """Returns the places of the printed rows that hold a row of values."""
        if values not in self.holders:
            self.holders[values] = [place for place, row in enumerate(self.rows) if row.holds(values)]
        return self.holders[values]


def can_be_dealt(answer, rows, holders):
    """Whether the copies of an ordinary answer can be dealt out: a greatest flow with the leasts as limits must fill these, and one
    that goes on from it with the mosts as limits must use all copies. `holders` keeps which printed rows hold which values."""
    dealing = Dealing(rows, holders)
    left = list(answer.elements())
    for limits in ([row.least for row in rows], [row.most for row in rows]):
        left = [values for values in left if not dealing.give(values, limits, set())]
    return not left and all(row.least <= len(given) <= row.most for given, row in zip(dealing.given, rows))


def guesses(rows):
    """Returns the guesses of printed rows as an ordinary answer."""
    counted = {}
    for row in rows:
        values = tuple(guess for _, guess, _ in row.cells)
        counted[values] = counted.get(values, 0) + row.guess
    return {values: number for values, number in counted.items() if number}


def subsets(things):
    return itertools.chain.from_iterable(itertools.combinations(things, size) for size in range(1, len(things) + 1))


def fails_by_subsets(answer, rows):
    """Whether some rows of an ordinary answer have more copies than all printed rows that hold one of them may get, or some printed
    rows must get more than all that they hold: exactly then the answer can't be dealt out, as flows and cuts have it."""
    many = any(sum(answer[values] for values in some) > sum(row.most for row in rows if any(map(row.holds, some)))
               for some in subsets(list(answer)))
    return many or any(sum(row.least for row in some) > sum(number for values, number in answer.items()
                                                           if any(row.holds(values) for row in some))
                       for some in subsets(rows))


def spoilt(rows, draw):
    """Yields what was done and the printed rows with one of them changed, for each way in which one can be."""
    place = draw.randrange(len(rows))
    row = rows[place]
    wide = [at for at, (lo, _, hi) in enumerate(row.cells) if lo != hi]

    def instead(*changed):
        return [*rows[:place], *changed, *rows[place + 1:]]

    yield "row left out", instead()
    yield "most lowered", instead(row._replace(least=min(row.least, row.most - 1), most=row.most - 1))
    yield "least raised", instead(row._replace(least=row.least + 1, most=max(row.least + 1, row.most)))
    if wide:
        at = draw.choice(wide)
        end = draw.choice((row.cells[at][0], row.cells[at][2]))
        yield "range narrowed", instead(row._replace(cells=(*row.cells[:at], (end,) * 3, *row.cells[at + 1:])))
