"""A query that can be asked in the place of one that audb refuses.

Words that the grammar lacks are replaced first, whatever audb named; then each defect that audb still finds is mended where that
can be done. What comes out is handed on only where audb takes it.
"""
import difflib
import re

from answers.queries import AGGREGATES, COMPARISONS, Query, fresh, visible_name, written
from answers.rows import folded
from answers.unsupported import FIRST, Step, column_names, columns_in_sight

FAULT = re.compile(r"(?:query|limit): (.+) at byte ([0-9]+)")
MOST_STEPS = 40


class Suggestion:
    """What is said of a query: notes, and where there is one the text that audb takes, with words for tools/ask."""

    def __init__(self):
        self.notes, self.text, self.words = [], None, []

    def add(self, step):
        """Takes a step over, and returns its text."""
        if step.note not in self.notes:
            self.notes.append(step.note)
        self.words += step.words
        return step.text


def suggestion(text, line, tables, ask):
    """Returns what is said of a query that audb refused by a line. `ask` gives the line that audb has for a text, '' for none."""
    found = Suggestion()
    better = text
    for _ in range(MOST_STEPS):
        query = Query(better)
        step = next(filter(None, (look(query, tables) for look in FIRST)), None)
        if step is None and better != text:
            line = ask(better)
            if line == "":
                found.text = better
                return found
        step = step or mended(query, line, tables)
        better = step and found.add(step)
        if better is None:
            return found
    return found


def mended(query, line, tables):
    """Returns the step that mends the defect which a line names, or None."""
    fault = FAULT.fullmatch(line)
    if fault is None or fault[1] not in MENDS:
        return None
    at = query.at_char(len(query.text.encode()[:int(fault[2])].decode("utf-8", "ignore")))
    return MENDS[fault[1]](query, at, tables) if at < len(query.tokens) else None


def counted(query, at, tables):
    """COUNT over a join: a sum of a column of ones, which one of the joined tables is given."""
    select = query.select_at(at)
    note = ("COUNT isn't counted over a join, nor is a SUM of what names no column: give one of the tables a column of ones, and "
            "sum that.")
    if not select or not select.sources() or not visible_name(query, select.sources()[0]):
        return Step(note)
    one = fresh(query.text, column_names(tables), "one")
    own = f"{visible_name(query, select.sources()[0])}.{one}"
    edits = [with_ones(query, select, one)]
    for place in select.own("SELECT", "HAVING"):
        close = query.closing(place + 1) if query.key(place) in AGGREGATES and query.key(place + 1) == "(" else None
        if close and query.key(place) == "COUNT":
            edits.append((place, close + 1, f"SUM({own})"))
        elif close and query.key(place) == "SUM" and not any(query.token(n).is_name() for n in range(place + 2, close)):
            edits.append((place, close + 1, f"SUM(({query.part(place + 2, close)}) * {own})"))
    return Step(note, query.edited(edits))


def with_ones(query, select, one):
    """The edit by which a SELECT's first FROM item has a column of ones more."""
    start, end = select.sources()[0]
    name = visible_name(query, (start, end))
    whole = query.key(start) == "("
    inner = query.part(start, end) if whole else query.part(start, start + 1)
    return start, end, f"(SELECT *, 1 AS {one} FROM {inner}) {name}"


def grouped_by_ones(query, at, tables):
    """MIN and MAX without GROUP BY: one group of all rows."""
    select = query.select_at(at)
    note = "MIN and MAX stand with GROUP BY: a column of ones makes all rows one group. Where there is no row, there is no group."
    if not select or not select.sources() or not visible_name(query, select.sources()[0]):
        return Step(note)
    one = fresh(query.text, column_names(tables), "one")
    clause = select.clause("WHERE") or select.clause("FROM")
    edits = [with_ones(query, select, one)]
    group = f" GROUP BY {visible_name(query, select.sources()[0])}.{one}"
    if clause.word == "FROM" and len(select.sources()) == 1:
        edits = [(*edits[0][:2], edits[0][2] + group)]
    else:
        edits.append((clause.end - 1, clause.end, query.part(clause.end - 1, clause.end) + group))
    return Step(note, query.edited(edits))


def grouped_more(query, at, _):
    """A column that is no key: one key more."""
    select = query.select_at(at)
    note = "Beside aggregates stand only columns of GROUP BY: each group has one row."
    having = select and select.clause("HAVING")
    if not select or query.key(at) == "*" or query.key(at + 2) == "*":
        return Step(note)
    if having and at >= having.start:
        return Step(note + " A condition on single rows stands in WHERE.")
    column = query.part(at, at + 3 if query.key(at + 1) == "." else at + 1)
    group = select.clause("GROUP")
    last = (group or select.clause("WHERE") or select.clause("FROM")).end
    text = f", {column}" if group else f" GROUP BY {column}"
    return Step(note, query.edited([(last - 1, last, query.part(last - 1, last) + text)]))


def to_having(query, at, _):
    """An aggregate in WHERE: its conjunct goes into HAVING."""
    select = query.select_at(at)
    where = select and select.clause("WHERE")
    note = "An aggregate is known once the groups are: its condition stands in HAVING, and never inside another aggregate."
    if not where or not where.start <= at < where.end:
        return Step(note)
    parts = query.split(where.start, where.end, "AND")
    if len(query.split(where.start, where.end, "OR")) > 1:
        return Step(note)
    moved = [query.part(*part) for part in parts if part[0] <= at < part[1]]
    kept = [query.part(*part) for part in parts if not part[0] <= at < part[1]]
    having, group = select.clause("HAVING"), select.clause("GROUP")
    moved += [query.part(having.start, having.end)] if having else []
    text = f"WHERE {' AND '.join(kept)} " if kept else ""
    text += query.part(group.at, group.end) + " " if group else ""
    return Step(note, query.edited([(where.at, (having or group or where).end, f"{text}HAVING {' AND '.join(moved)}")]))


def listed(names):
    """Some names in one line."""
    names = list(dict.fromkeys(names))
    return ", ".join(names[:12]) + (f" and {len(names) - 12} more" if len(names) > 12 else "")


def near(name, names):
    """The name that was meant by one that isn't there, or None."""
    plain = {folded(other): other for other in names}
    found = difflib.get_close_matches(folded(name), plain, 1, 0.6)
    return plain[found[0]] if found else None


def perhaps(meant):
    """Says that another name may be meant, where there is one."""
    return f"; perhaps {meant} is meant" if meant else ""


def known_column(query, at, tables):
    """An unknown column: another spelling, a text that stands without its quotes, or the alias of an item."""
    select = query.select_at(at)
    last = at + 2 if query.key(at + 1) == "." else at
    token = query.token(last)
    alias = item_of_alias(query, select, token) if last == at else None
    if alias and in_condition(select, at):
        return Step("The alias of an item isn't known in WHERE, GROUP BY and HAVING: repeat what it stands for.",
                    query.edited([(at, at + 1, alias)]))
    names = [name for _, name in columns_in_sight(query, select, tables)]
    meant = near(token.name(), names)
    note = f"The columns there are {listed(names)}{perhaps(meant)}." if names else "No such column is in sight."
    if token.kind == "quoted" and not meant or not meant and compared(query, at):
        text = "'" + token.name().replace("'", "''") + "'"
        return Step("A text stands between single quotes; a name, in double quotes or without, is a column's.",
                    query.edited([(at, at + 1, text)]))
    return Step(note, meant and query.edited([(last, last + 1, written(meant))]))


def item_of_alias(query, select, token):
    """What the item of a SELECT stands for that has a name as its alias, or None."""
    for item in select.items() if select else []:
        start, end, alias = select.named_item(item)
        if alias is not None and folded(alias) == folded(token.name()):
            alone = end - start == 1 or query.key(start + 1) in (".", "(")
            return query.part(start, end) if alone else f"({query.part(start, end)})"
    return None


def in_condition(select, at):
    """Whether a place stands in WHERE or HAVING."""
    return any(clause and clause.start <= at < clause.end for clause in map(select.clause, ("WHERE", "HAVING", "GROUP")))


def compared(query, at):
    """Whether a name alone is one side of a comparison."""
    return query.key(at - 1) in COMPARISONS and query.key(at + 1) != "."


def known_table(query, at, tables):
    """An unknown table or qualifier: another spelling."""
    select, names = query.select_at(at), [table.name for table in tables]
    clause = select and select.clause("FROM")
    if clause and not clause.start <= at < clause.end:
        names = [name for name in (visible_name(query, source) for source in select.sources()) if name]
        note = f"The tables in sight here are {listed(names)}"
    else:
        note = f"The tables are {listed(names)}, by the names before the = of their words"
    meant = near(query.token(at).name(), names) if query.token(at).is_name() else None
    note += perhaps(meant) + "."
    return Step(note, meant and query.edited([(at, at + 1, written(meant) if meant in names else meant)]))


def qualified(query, at, tables):
    """An ambiguous column: one with the name of its table."""
    name = query.token(at).name() if query.token(at).is_name() else None
    owners = [table for table, column in columns_in_sight(query, query.select_at(at), tables)
              if name is not None and folded(column) == folded(name)]
    column = query.part(at, at + 1)
    if len(owners) < 2:
        return Step("Several tables have this column: write the table's name and a point before it.")
    choices = " or ".join(f"{owner}.{column}" for owner in owners)
    return Step(f"Several tables have this column: write {choices}.", query.edited([(at, at + 1, f"{owners[0]}.{column}")]))


def renamed_source(query, at, _):
    """Two FROM items of one name: a name of its own for the later one."""
    select = query.select_at(at)
    source = next((source for source in select.sources() if source[0] == at), None) if select else None
    note = "Each table in FROM has a name of its own: give one an alias."
    if not source or source[1] - source[0] != 1:
        return Step(note)
    name = fresh(query.text, [], query.token(at).name() + "_again")
    return Step(note, query.edited([(at, at + 1, f"{query.part(at, at + 1)} {written(name)}")]))


def unquoted_number(query, at, tables):
    """A number that is compared with a text, or with a column of another kind."""
    if query.key(at) not in COMPARISONS:
        return None
    for place, other in ((at + 1, at - 1), (at - 1, at + 1)):
        token = query.token(place)
        number = token.kind == "text" and re.fullmatch(r"'-?[0-9]+(\.[0-9]+)?'", token.text)
        names = {column.name: column.kind for table in tables for column in table.columns}
        kind = names.get(query.token(other).name()) if query.token(other).is_name() else None
        if number and kind not in (None, "text", "flag"):
            return Step("A number stands without quotes.", query.edited([(place, place + 1, token.text[1:-1])]))
        if token.kind == "number" and kind == "text":
            return Step(f"{query.token(other).name()} is a column of texts, and a text stands between single quotes.",
                        query.edited([(place, place + 1, f"'{token.text}'")]))
    return None


MENDS = {
    "count over a join": counted,
    "MIN and MAX need GROUP BY": grouped_by_ones,
    "column is not grouped": grouped_more,
    "misplaced aggregate": to_having,
    "unknown column": known_column,
    "unknown table": known_table,
    "ambiguous column": qualified,
    "repeated table name": renamed_source,
    "kinds do not fit": unquoted_number,
}
