"""Random table files and queries over them, by a seed."""
import random

CITIES = ["Oslo", "Bergen", "Moss", "it's", "", "Ærø", "a,b", 'a"b', "GROUP BY"]
SPOILT = ["1.5", "x", "1..2", "3..2..1", "-", "9" * 40, "TRUE", "1.23", "", "guess", "absent", "0..1..2"]
ODD = [b"\n", b"\n\n", b"\r\n", b"\r", b'"', b'x"y"', b"\n\\.\n", b"\xff", b'"a"b', b"\xef\xbb\xbf"]
COMPARISONS = ("=", "=", "<", "<=", "<>", ">")


class Maker:
    """Makes tables and queries. A table is the text of its file with the names and kinds of its columns."""

    def __init__(self, seed):
        self.draw = random.Random(seed)

    def chance(self, part):
        return self.draw.random() < part

    def pick(self, things):
        return things[int(self.draw.random() * len(things))]

    # Tables.

    def cell(self, kind, is_range=False):
        """Returns a field of a kind, or where that may be a range."""
        if kind == "text":
            return self.pick(CITIES)
        if kind == "flag":
            return self.pick(("true", "false"))
        numbers = sorted(int(self.draw.random() * 9) - 3 for _ in range(3))
        texts = [f"{number}.{int(self.draw.random() * 10)}" if kind != "int" and number > 0 else str(number) for number in numbers]
        return "..".join(texts) if is_range and self.chance(0.4) and texts == sorted(texts, key=float) else texts[0]

    def columns(self):
        """Returns the names, kinds and header fields of a table's columns."""
        kinds = [self.pick(("int", "int", "text", "flag", "dec1")) for _ in range(self.pick((1, 2, 3, 4)))]
        found = [(f"{kind[0]}{place}", kind) for place, kind in enumerate(kinds)]
        return found, [name if kind in ("int", "text") and self.chance(0.2) else f"{name}:{kind}" for name, kind in found]

    def table(self, blocks=7):
        """Returns the lines of a table file, each a list of fields, and its columns."""
        found, header = self.columns()
        if self.chance(0.15):
            return [header] + [[self.cell(kind) for _, kind in found] for _ in range(int(self.draw.random() * blocks) + 1)], found
        copies = self.chance(0.3)
        lines = [["_block", "_role", *(["_times"] if copies else []), *header]]
        for block in range(int(self.draw.random() * blocks) + 1):
            lines += self.block(str(block), found, header, copies)
        if self.chance(0.2):
            body = lines[1:]
            self.draw.shuffle(body)
            lines[1:] = body
        return lines, found

    def block(self, label, columns, header, copies):
        """Returns the records of a block."""
        roles = ["guess"] + ["alt"] * self.pick((0, 0, 1, 1, 2))
        if self.chance(0.3):
            roles.append("absent")
            if self.chance(0.4):
                roles = ["alt"] * (len(roles) - 1) + ["absent-guess"]
        for role in roles:
            if role.startswith("absent"):
                yield [label, role, *([""] if copies else []), *[""] * len(columns)]
            else:
                cells = [self.cell(kind, copies and ":" in field) for (_, kind), field in zip(columns, header)]
                yield [label, role, *([self.pick(("1", "1", "0", "2", "0..1..2", "1..1..3"))] if copies else []), *cells]

    def spoilt(self, lines):
        """Returns a table's lines with some fields changed, dropped or added."""
        lines = [list(line) for line in lines]
        for _ in range(self.pick((1, 1, 2))):
            line = self.pick(lines[1:] if len(lines) > 1 and self.chance(0.95) else lines)
            place = int(self.draw.random() * len(line))
            way = self.draw.random()
            if way < 0.7:
                line[place] = self.pick(SPOILT)
            elif way < 0.8 and len(lines) > 2:
                lines.remove(line)
            elif way < 0.9:
                line.insert(place, "1")
            else:
                lines.insert(1 + int(self.draw.random() * (len(lines) - 1)), list(line))
        return lines

    def odd(self, data):
        """Returns a file's bytes with something put in that COPY reads otherwise than audb, or not at all."""
        ends = [place for place, byte in enumerate(data) if byte in b",\n"]
        place = self.pick(ends) + self.pick((0, 1))
        return data[:place] + self.pick(ODD) + data[place:]

    # Queries.

    def literal(self, kind):
        if kind == "text":
            return "'" + self.pick(CITIES).replace("'", "''") + "'"
        return self.pick(("TRUE", "FALSE")) if kind == "flag" else str(int(self.draw.random() * 5))

    def term(self, kind, columns, depth=2):
        """Returns an expression of a kind over columns."""
        fitting = [name for name, of in columns if of == kind]
        if depth < 1 or self.chance(0.4):
            return self.pick(fitting) if fitting and self.chance(0.8) else f"{self.literal(kind)}.0" if kind == "dec1" else self.literal(kind)
        inner = lambda of: self.term(of, columns, depth - 1)
        if self.chance(0.15):
            return f"CASE WHEN {inner('flag')} THEN {inner(kind)} ELSE {inner(kind)} END"
        if kind == "int":
            return self.pick((f"({inner('int')} {self.pick('+-*')} {inner('int')})", f"(- {inner('int')})"))
        if kind == "dec1":
            return f"({inner('dec1')} {self.pick('+-')} {inner(self.pick(('int', 'dec1')))})"
        return inner(kind) if kind == "text" else self.test(columns, depth)

    def test(self, columns, depth):
        """Returns a condition."""
        kind = self.pick(("int", "int", "text", "flag", "dec1"))
        inner = lambda of: self.term(of, columns, depth - 1)
        return self.pick((f"({inner(kind)} {self.pick(COMPARISONS)} {inner(kind)})", f"({inner('flag')} AND {inner('flag')})",
                          f"({inner('flag')} OR {inner('flag')})", f"(NOT {inner('flag')})"))

    def condition(self, columns, sides):
        """Returns a condition, which for the most part asks that columns of both sides are equal."""
        pairs = [(a, b) for a, k in columns for b, j in columns if a[0] < b[0] and k == j] if sides > 1 else []
        tests = [f"{a} = {b}" for a, b in [self.pick(pairs) for _ in range(self.pick((1, 1, 2)))]] if pairs and self.chance(0.85) else []
        return " AND ".join(tests + ([self.test(columns, 2)] if not tests or self.chance(0.3) else []))

    def query(self, tables, kinds=None, depth=1):
        """Returns a query with its columns. Where kinds are given, its columns have these."""
        if depth > 0 and self.chance(0.25):
            left, columns = self.query(tables, kinds, depth - 1)
            right, _ = self.query(tables, [kind for _, kind in columns], depth - 1)
            return self.combined(left, self.pick(("UNION", "UNION ALL", "EXCEPT", "EXCEPT ALL")), right, columns), columns
        return self.select(tables, kinds, depth)

    @staticmethod
    def combined(left, word, right, _columns):
        """Returns the query of two queries of these columns with a set word between them."""
        return f"{left} {word} {right}"

    def select(self, tables, kinds, depth):
        """Returns a SELECT with its columns."""
        sources, columns = [], []
        for alias in "ab"[:self.pick((1, 1, 2))]:
            if depth > 0 and self.chance(0.25):
                text, below = self.query(tables, None, depth - 1)
                text = f"({text})"
            else:
                text, below = self.pick(list(tables.items()))
            sources.append(f"{text} AS {alias}")
            columns += [(f"{alias}.{name}", kind) for name, kind in below]
        where = f" WHERE {self.condition(columns, len(sources))}" if len(sources) > 1 or self.chance(0.5) else ""
        tail = f" FROM {', '.join(sources)}{where}"
        if self.chance(0.45):
            return self.grouped(tail, columns, kinds, len(sources) > 1)
        kinds = kinds or [self.pick(columns)[1] for _ in range(self.pick((1, 2, 2)))]
        items = [f"{self.term(kind, columns)} AS x{place}" for place, kind in enumerate(kinds)]
        return f"SELECT {'DISTINCT ' if self.chance(0.3) else ''}{', '.join(items)}{tail}", self.named(kinds)

    def grouped(self, tail, columns, kinds, joins):
        """Returns a SELECT with keys and aggregates, in columns of these kinds where some are given."""
        keys = list(dict.fromkeys(self.pick(columns) for _ in range(self.pick((1, 1, 2)))))
        items = []
        for kind in kinds or [self.pick(("int", "int", *(kind for _, kind in keys))) for _ in range(self.pick((1, 2, 3)))]:
            fitting = [name for name, of in keys if of == kind]
            if fitting and self.chance(0.5):
                items.append((self.pick(fitting), kind))
            else:
                items.append((self.aggregate(kind, columns, joins), kind))
        texts = [f"{text} AS x{place}" for place, (text, _) in enumerate(items)]
        having = f" HAVING {self.aggregate('int', columns, joins)} {self.pick(('<', '>'))} 2" if self.chance(0.15) else ""
        return (f"SELECT {', '.join(texts)}{tail} GROUP BY {', '.join(name for name, _ in keys)}{having}",
                self.named([kind for _, kind in items]))

    def aggregate(self, kind, columns, joins):
        """Returns an aggregate of a kind."""
        if kind == "int" and not joins and self.chance(0.4):
            return "COUNT(*)"
        name = self.pick(("SUM", "SUM", "MIN", "MAX")) if kind in ("int", "dec1") else self.pick(("MIN", "MAX"))
        fitting = [name for name, of in columns if of == kind]
        if not fitting:
            return f"MIN({self.literal(kind)}{'.0' * (kind == 'dec1')})"
        return f"{name}({self.pick(fitting) if joins else self.term(kind, columns, 1)})"

    @staticmethod
    def named(kinds):
        return [(f"x{place}", kind) for place, kind in enumerate(kinds)]
