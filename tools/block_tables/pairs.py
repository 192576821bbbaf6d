"""Files of pairs of keys, of which the second is probably a copy of the first."""
from .sources import Refusal, check_width, read_records
from .tables import Row, folded


class Pair:
    """The two keys of a pair, whether it is sure, and the record that says so."""

    __slots__ = ("first", "second", "sure", "row", "names")

    def __init__(self, first, second, sure, row, names):
        self.first, self.second, self.sure, self.row, self.names = first, second, sure, row, names

    def refusal(self, column, text):
        return self.row.refusal(self.names[column], text)


def read_pairs(path, options, key, sure=True):
    """Returns the pairs of a file. `key` makes of a field a key as the table has it, or says with None that it can't be one.
    `sure` says whether pairs are sure, or is the name of a column that says so of each."""
    source, header, found, _ = read_records(path, options)
    if len(header) < 2:
        raise Refusal(f"{source.place(0)}: {len(header)} columns, where a pair wants two")
    at = place_of_sure(source, header, sure) if isinstance(sure, str) else None
    pairs = []
    for record in found:
        check_width(source, header, record)
        if any(record.fields):
            row = Row(record.fields, "1", source, record.number)
            told = sure if at is None else flag(row, header, at)
            pairs.append(Pair(key(row, header, 0), key(row, header, 1), told, row, header))
            if pairs[-1].first == pairs[-1].second:
                raise pairs[-1].refusal(1, "a row is no duplicate of itself")
    return pairs


def place_of_sure(source, header, name):
    for at, other in enumerate(header):
        if folded(other) == folded(name):
            return at
    raise Refusal(f"{source.place(0)}: no column {name}; there are {', '.join(header)}")


def flag(row, header, at):
    text = row.cells[at].lower()
    if text not in ("true", "false"):
        raise row.refusal(header[at], "neither true nor false")
    return text == "true"
