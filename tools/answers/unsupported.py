"""What SQL people write and audb's grammar lacks: each call finds one such thing in a query, and says what to write instead.

A call takes a query and its tables, and returns a step, or None where the query has nothing of the kind. A step without a text
says only what helps.
"""
import re

from answers.queries import COMPARISONS, column_name, fresh, visible_name, written
from answers.rows import folded


class Step:
    """A note of what is changed, the text that comes of it or None, and words for tools/ask that do the rest."""

    __slots__ = ("note", "text", "words")

    def __init__(self, note, text=None, words=()):
        self.note, self.text, self.words = note, text, list(words)


def column_names(tables):
    return [name for table in tables for name in table.names()]


def kind_of(tables, name):
    """The kind of the one column of this name, or None."""
    kinds = {table.columns[at].kind for table in tables for at in [table.find(name)] if at is not None}
    return kinds.pop() if len(kinds) == 1 else None


def columns_in_sight(query, select, tables):
    """The columns of the tables that a SELECT names, each with the name by which its table is visible."""
    found = []
    for start, end in select.sources() if select else []:
        table = next((table for table in tables if folded(table.name) == folded(query.token(start).name())), None)
        if table and query.token(start).is_name():
            found += [(visible_name(query, (start, end)), name) for name in table.names()]
    return found


def bracketed(query, start, end):
    """A condition in brackets, where it has an OR outside of them."""
    text = query.part(start, end)
    return f"({text})" if len(query.split(start, end, "OR")) > 1 else text


# Joins

JOINING = ("JOIN", "INNER", "CROSS", "LEFT", "RIGHT", "FULL", "OUTER", "NATURAL")
OUTER = ("LEFT", "RIGHT", "FULL")


class Joined:
    """A FROM clause with JOIN: its items, the conditions behind ON and USING, and the words of its joins."""

    def __init__(self, query, clause):
        self.query, self.items, self.conditions, self.words = query, [], [], set()
        at = clause.start
        while at < clause.end:
            at = self.part(at, clause.end)

    def part(self, at, end):
        """Reads the part that begins here, and returns the place behind it."""
        key = self.query.key(at)
        if key in JOINING or key == ",":
            self.words.add(key)
            return at + 1
        begin = at + (key in ("ON", "USING"))
        behind = min(end, self.query.on_to(begin, {*JOINING, ",", "ON", "USING"}))
        if key == "ON":
            self.conditions.append(bracketed(self.query, begin, behind))
        elif key == "USING":
            self.conditions += self.using(begin + 1, behind - 1)
        else:
            self.items.append((begin, behind))
        return max(behind, at + 1)

    def using(self, start, end):
        """The conditions of a list of columns behind USING."""
        names = [visible_name(self.query, item) for item in self.items[-2:]]
        if len(names) < 2 or None in names:
            return []
        columns = [self.query.part(*part) for part in self.query.split(start, end)]
        return [f"{names[0]}.{column} = {names[1]}.{column}" for column in columns]


def join_words(query, _):
    """JOIN .. ON: a comma, and the condition in WHERE."""
    for at in query.places("JOIN"):
        select = query.select_at(at)
        clause = select and select.clause("FROM")
        if not clause or not clause.start < at < clause.end:
            continue
        joined = Joined(query, clause)
        if "NATURAL" in joined.words:
            return Step("There is no NATURAL JOIN: name both tables in FROM and compare their columns in WHERE.")
        note = "There is no JOIN: tables stand in FROM with commas, and what joins them in WHERE."
        if joined.words.intersection(OUTER):
            note += (" There is no outer join, so the rows without a partner are missing here; a second query with EXCEPT finds "
                     "their keys.")
        return Step(note, with_conditions(query, select, joined))
    return None


def with_conditions(query, select, joined):
    """The text in which the joins of a SELECT are commas, and their conditions stand in WHERE."""
    clause, where = select.clause("FROM"), select.clause("WHERE")
    conditions = joined.conditions + ([bracketed(query, where.start, where.end)] if where else [])
    text = ", ".join(query.part(*item) for item in joined.items)
    text += f" WHERE {' AND '.join(conditions)}" if conditions else ""
    return query.edited([(clause.start, where.end if where else clause.end, text)])


# Order and limit


def order_and_limit(query, tables):
    """ORDER BY, LIMIT and OFFSET: words of tools/ask."""
    for at in query.places("ORDER", "LIMIT", "OFFSET", "FETCH"):
        select = query.select_at(at)
        clauses = [select.clause(word) for word in ("ORDER", "LIMIT", "OFFSET", "FETCH")] if select else []
        found = [clause for clause in clauses if clause]
        if not any(clause.at == at for clause in found):
            continue
        if query.key(select.end) == ")" or "OFFSET" in select.clauses or "FETCH" in select.clauses:
            return Step("An answer has no order of its own, so there is no LIMIT in an inner query, no OFFSET and no FETCH.")
        first = min(clause.at for clause in found)
        words, lost = (sum(parts, []) for parts in zip(*(words_of(query, select, clause, tables) for clause in found)))
        note = "An answer has no order of its own: --sort and --limit order and cut what is shown."
        note += f" No one column of it stands for {' and '.join(lost)}." if lost else ""
        return Step(note, re.sub(r"\s+(;?)\s*$", r"\1", query.edited([(first, select.end, "")])), words)
    return None


def words_of(query, select, clause, tables):
    """The words of tools/ask for ORDER BY or LIMIT, and the items of ORDER BY that no one column of the answer stands for."""
    if clause.word == "LIMIT":
        return ["--limit", query.part(clause.start, clause.start + 1)], []
    words, lost, named = [], [], query.select_at(0) or select
    outputs = [name and folded(name) for name in output_names(query, named, tables)]
    for start, end in query.split(clause.start, clause.end):
        way = query.key(end - 1) if query.key(end - 1) in ("ASC", "DESC") else None
        name = sorted_name(query, named, start, end - bool(way))
        if name is not None and (outputs.count(folded(name)) == 1 or None in outputs):
            words += ["--sort", name + ":desc" * (way == "DESC")]
        else:
            lost.append(query.part(start, end))
    return words, lost


def sorted_name(query, select, start, end):
    """The name of the output column by which an item of ORDER BY orders, or None."""
    token, items = query.token(start), select.items()
    if end - start == 1 and token.kind == "number" and token.text.isdecimal() and 0 < int(token.text) <= len(items):
        return output_name(query, select, int(token.text))
    wanted = query.part(start, end)
    for place, item in enumerate(items, 1):
        begin, behind, _ = select.named_item(item)
        if query.part(begin, behind) == wanted:
            return output_name(query, select, place)
    return column_name(query, start, end)


def output_name(query, select, place):
    """The name that the answer's column of this place has, from 1."""
    start, end, alias = select.named_item(select.items()[place - 1])
    return alias or column_name(query, start, end) or f"col{place}"


def output_names(query, select, tables):
    """The names of the answer's columns; None stands for those of a star that aren't known."""
    names = []
    for place, (start, end) in enumerate(select.items(), 1):
        if query.key(end - 1) != "*":
            names.append(output_name(query, select, place))
            continue
        known = all(query.token(begin).is_name() for begin, _ in select.sources())
        owner = query.part(start, start + 1) if end - start > 1 else None
        names += [name for table, name in columns_in_sight(query, select, tables) if owner in (None, table)] if known else [None]
    return names


# Conditions


def operand(query, at):
    """Returns where the operand before a word begins, where NOT before that word counts to the word, and whether it stands."""
    negated = query.key(at - 1) == "NOT"
    return query.back_to(at - negated), negated


def between(query, _):
    """BETWEEN: two comparisons."""
    for at in query.places("BETWEEN"):
        start, negated = operand(query, at)
        middle = query.on_to(at + 1)
        end = query.on_to(middle + 1)
        if query.key(middle) != "AND":
            continue
        value = query.part(start, at - negated)
        low, high = query.part(at + 1, middle), query.part(middle + 1, end)
        text = f"({value} < {low} OR {value} > {high})" if negated else f"({value} >= {low} AND {value} <= {high})"
        return Step("There is no BETWEEN: write both comparisons.", query.edited([(start, end, text)]))
    return None


def in_list(query, tables):
    """IN: comparisons with each value, or a join with the inner query."""
    for at in query.places("IN"):
        close = query.closing(at + 1) if query.key(at + 1) == "(" else None
        if close is None:
            continue
        start, negated = operand(query, at)
        if query.key(at + 2) == "SELECT":
            return in_query(query, tables, (start, at, close), negated)
        value, sign, word = query.part(start, at - negated), "<>" if negated else "=", " AND " if negated else " OR "
        tests = [f"{value} {sign} {query.part(*part)}" for part in query.split(at + 2, close)]
        return Step("There is no IN: write a comparison for each value.",
                    query.edited([(start, close + 1, f"({word.join(tests)})")]))
    return None


def in_query(query, tables, places, negated):
    """IN with an inner query: its distinct rows as one more FROM item, where the test stands among the conjuncts of WHERE."""
    start, at, close = places
    outer, inner = query.select_at(start), query.select_at(at + 3)
    where = outer and outer.clause("WHERE")
    alone = where and (start, close + 1) in query.split(where.start, where.end, "AND")
    if negated or not alone or not inner or len(inner.items()) != 1 or inner.end != close:
        return Step("There is no IN with an inner query: name that query in FROM and compare in WHERE; what another query has not "
                    "is the first EXCEPT the second.")
    name = fresh(query.text, column_names(tables), "listed")
    item = inner.named_item(inner.items()[0])
    clause = inner.clause("SELECT")
    text = f"(SELECT DISTINCT {query.part(item[0], item[1])} AS {name} {query.part(clause.end, close)}) {name}_rows"
    stars = [(begin, end, own_stars(query, outer)) for begin, end in outer.items() if query.part(begin, end) == "*"]
    last = outer.clause("FROM").end - 1
    edits = stars + [(last, last + 1, f"{query.part(last, last + 1)}, {text}"),
                     (start, close + 1, f"{query.part(start, at)} = {name}_rows.{name}")]
    return Step("There is no IN with an inner query: its distinct rows are one more table in FROM.", query.edited(edits))


def own_stars(query, select):
    """All columns of the FROM items of a SELECT, item by item."""
    return ", ".join(f"{visible_name(query, source)}.*" for source in select.sources())


def like(query, _):
    """LIKE: texts that begin so lie in a range."""
    for at in query.places("LIKE", "ILIKE"):
        pattern = query.token(at + 1)
        start, negated = operand(query, at)
        text = like_test(query.part(start, at - negated), pattern, negated) if query.key(at) == "LIKE" else None
        if text is None:
            return Step("There is no LIKE. Texts that begin alike lie in a range (x >= 'Os' AND x < 'Ot'); of other patterns the "
                        "file needs a column that says who fits.")
        return Step("There is no LIKE: texts that begin alike lie in a range.", query.edited([(start, at + 2, text)]))
    return None


def like_test(value, pattern, negated):
    """The comparison that a pattern stands for, or None: one without a sign, or with one % at its end."""
    if pattern.kind != "text":
        return None
    text = pattern.text[1:-1]
    front = text[:-1] if text.endswith("%") else text
    if "%" in front or "_" in front or front == "":
        return None
    if front == text:
        return f"{value} {'<>' if negated else '='} '{text}'"
    plain = front.replace("''", "'")
    after = chr(0xE000 if plain[-1] == "\ud7ff" else min(ord(plain[-1]) + 1, 0x10FFFF))
    bound = (plain[:-1] + after).replace("'", "''")
    return f"({value} < '{front}' OR {value} >= '{bound}')" if negated else f"({value} >= '{front}' AND {value} < '{bound}')"


def is_null(query, tables):
    """IS NULL: an empty text, and nothing in a column of another kind."""
    for at in query.places("IS"):
        negated = query.key(at + 1) == "NOT"
        end = at + 2 + negated
        if query.key(end - 1) != "NULL":
            continue
        start = query.back_to(at)
        name = column_name(query, start, at)
        note = "There is no NULL: an empty cell is the text '' (tools/blocks impute makes it alternatives)."
        text = f"{query.part(start, at)} {'<>' if negated else '='} ''"
        kind = name and kind_of(tables, name)
        if kind not in (None, "text"):
            note = f"There is no NULL, and no cell of {name} is empty, since it is a column of kind {kind}."
            text = "TRUE" if negated else "FALSE"
        return Step(note, query.edited([(start, end, text)]))
    return None


# Aggregates


def calls(query, word):
    """Yields the places of a word before a bracket, and of the bracket that closes it."""
    for at in query.places(word):
        close = query.closing(at + 1) if query.key(at + 1) == "(" else None
        if close is not None:
            yield at, close


def average(query, _):
    """AVG: a sum and a count, side by side, or on both sides of a comparison."""
    for at, close in calls(query, "AVG"):
        select = query.select_at(at)
        argument = query.part(at + 2, close)
        note = "There is no AVG: ask for the sum and the count; the mean is the one by the other."
        item = next((item for item in select.items() if select.named_item(item)[:2] == (at, close + 1)), None) if select else None
        if item:
            name = select.named_item(item)[2] or column_name(query, at + 2, close)
            names = [f" AS {written(f'{name}_{word}')}" if name else "" for word in ("sum", "count")]
            return Step(note, query.edited([(*item, f"SUM({argument}){names[0]}, COUNT(*){names[1]}")]))
        return Step(note, average_compared(query, at, close, argument))
    return None


def average_compared(query, at, close, argument):
    """The text in which a comparison of a mean is one of a sum, or None."""
    if query.key(close + 1) in COMPARISONS:
        end = query.on_to(close + 2)
        other = query.part(close + 2, end)
        return query.edited([(at, close + 1, f"SUM({argument})"), (close + 2, end, f"({other}) * COUNT(*)")])
    if query.key(at - 1) in COMPARISONS:
        start = query.back_to(at - 1)
        other = query.part(start, at - 1)
        return query.edited([(start, at - 1, f"({other}) * COUNT(*)"), (at, close + 1, f"SUM({argument})")])
    return None


def count_distinct(query, tables):
    """COUNT(DISTINCT ..): a count over the distinct rows of an inner query."""
    for at, close in calls(query, "COUNT"):
        select = query.select_at(at)
        if query.key(at + 2) != "DISTINCT" or not select:
            continue
        note = "There is no COUNT(DISTINCT ..): count the distinct rows of an inner query."
        others = [place for place in select.own("SELECT", "HAVING")
                  if query.key(place) in ("COUNT", "SUM", "MIN", "MAX", "AVG") and query.key(place + 1) == "(" and place != at]
        return Step(note, None if others else counted_apart(query, tables, select, (at, close)))
    return None


def counted_apart(query, tables, select, call):
    """The text in which a SELECT counts the distinct rows of an inner query, or None."""
    group, at, close = select.clause("GROUP"), *call
    keys = [query.part(*part) for part in query.split(group.start, group.end)] if group else []
    value = fresh(query.text, column_names(tables), "value")
    table = fresh(query.text, [table.name for table in tables], "distinct_rows")
    inner = ", ".join([*keys, f"{query.part(at + 3, close)} AS {value}"])
    first, last = select.clause("FROM").at, (select.clause("WHERE") or select.clause("FROM")).end
    edits = [(at, close + 1, "COUNT(*)"), (first, last, f"FROM (SELECT DISTINCT {inner} {query.part(first, last)}) {table}")]
    for place in select.own("SELECT", "GROUP", "HAVING"):
        inside = at <= place <= close
        if not inside and query.key(place + 1) == "." and query.token(place).is_name():
            edits.append((place, place + 3, query.part(place + 2, place + 3)))
    return query.edited(edits)


# Words and signs


def foreign_quotes(query, _):
    """Quotes of other languages and of word processors."""
    quotes = {"\u2018": "'", "\u2019": "'", "\u201c": '"', "\u201d": '"', "`": '"'}
    found = [at for at, token in enumerate(query.tokens) if token.kind == "other" and token.text in quotes]
    if not found:
        return None
    text = "".join(quotes.get(c, c) for c in query.text)
    return Step("Texts stand between ' and ', names between \" and \".", text)


def null_handling(query, _):
    """COALESCE and IFNULL: nothing is NULL."""
    for word in ("COALESCE", "IFNULL", "NVL"):
        for at, close in calls(query, word):
            first = query.split(at + 2, close)[0]
            return Step(f"There is no {word}, since there is no NULL.", query.edited([(at, close + 1, query.part(*first))]))
    return None


def simple_case(query, _):
    """CASE with a value behind it, and CASE without ELSE."""
    for at in query.places("CASE"):
        end = next((place for place in range(at + 1, len(query.tokens))
                    if sum(depth(query.key(n)) for n in range(at, place + 1)) == 0), None)
        if end is None:
            continue
        if query.key(at + 1) != "WHEN":
            return Step("CASE needs its conditions in full: CASE WHEN x = 1 THEN .. ELSE .. END.", case_in_full(query, at, end))
        if not any(query.key(place) == "ELSE" for place in own_of_case(query, at, end)):
            return Step("CASE needs an ELSE, since there is no NULL.")
    return None


def depth(key):
    return (key == "CASE") - (key == "END")


def own_of_case(query, at, end):
    """Yields the places between CASE and END that stand in no other CASE."""
    level = 0
    for place in range(at + 1, end):
        level += depth(query.key(place))
        if level == 0:
            yield place


def case_in_full(query, at, end):
    """The text in which each WHEN of a CASE compares its value."""
    own = list(own_of_case(query, at, end))
    first = next((place for place in own if query.key(place) == "WHEN"), None)
    if first is None:
        return None
    value = query.part(at + 1, first)
    edits = [(at, first, "CASE")]
    edits += [(place + 1, place + 1, f"{value} = ") for place in own if query.key(place) == "WHEN"]
    return query.edited(edits)


FIRST = (foreign_quotes, join_words, between, in_list, like, is_null, null_handling, simple_case, average, count_distinct,
         order_and_limit)

# What no other words stand for: the word, and what helps.
MISSING = {
    "WITH": "There is no WITH: write the query in brackets into FROM, with a name behind it.",
    "EXISTS": "There is no EXISTS: join with the distinct rows of that query, or take EXCEPT.",
    "INTERSECT": "There is no INTERSECT: the rows of both are the first EXCEPT ALL (the first EXCEPT ALL the second).",
    "OVER": "There are no windows: GROUP BY in an inner query, joined with its table, does the same.",
    "TOP": "There is no TOP: --limit cuts what is shown.",
    "CAST": "There is no CAST: a column's kind stands in the header of its file, as in price:dec2.",
    "ANY": "There is no ANY.", "SOME": "There is no SOME.",
    "INSERT": "Only questions are answered: a query begins with SELECT.",
    "UPDATE": "Only questions are answered: a query begins with SELECT.",
    "DELETE": "Only questions are answered: a query begins with SELECT.",
    "NULL": "There is no NULL: an empty cell is the text ''.",
}


def missing_word(query, at):
    """What helps with the word at a place or before it, where the grammar lacks that word."""
    for place in (at, at - 1):
        token = query.token(place)
        if token.kind != "word":
            continue
        if token.key in MISSING:
            return MISSING[token.key]
        if query.key(place + 1) == "(" and token.is_name() and token.key not in ("COUNT", "SUM", "MIN", "MAX"):
            return f"There is no function {token.text}; the aggregates are COUNT, SUM, MIN and MAX."
    return None
