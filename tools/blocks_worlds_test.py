#!/usr/bin/env python3
"""Shows over random tables that what tools/blocks writes has exactly the worlds that its pages (--help) promise.

Usage: tools/blocks_worlds_test.py [--tables N] [PROGRAM] [TEST..]

For each command N random tables (else 40) are drawn, ordinary ones and block tables with and without copies and ranges. Their
worlds are enumerated twice: by the command's page from the table that was drawn, and from the table that was written. Both
must be the same sets of worlds, and so must the guess worlds. Nothing here calls the code that is tested but for its `main`.
With the path of audb as PROGRAM it must read each table, and its guess world be the same.
"""
import csv
import importlib.machinery
import importlib.util
import io
import itertools
import os
import random
import subprocess
import sys
import tempfile
import unittest
from collections import Counter, namedtuple
from fractions import Fraction
from math import ceil, floor, prod

sys.dont_write_bytecode = True
PATH = os.path.join(os.path.dirname(os.path.abspath(__file__)), "blocks")
LOADER = importlib.machinery.SourceFileLoader("blocks", PATH)
blocks = importlib.util.module_from_spec(importlib.util.spec_from_loader("blocks", LOADER))
LOADER.exec_module(blocks)
PROGRAM, TABLES = None, 40
MOST_WORLDS = 3000

# A cell is the values that it may have and the guessed one, or None where it is empty. An alternative is a triple of copies
# and its cells; a block is alternatives, the place of the guess (None: absence) and whether it may be absent.
Cell = namedtuple("Cell", "values guess")
Alternative = namedtuple("Alternative", "copies cells")
Block = namedtuple("Block", "alternatives guess optional")
Column = namedtuple("Column", "name kind")
Drawn = namedtuple("Drawn", "form columns blocks text")
# What a block may be in a world: None, or a row and its number of copies. Any of `guesses` may be the guessed one.
Outcomes = namedtuple("Outcomes", "all guesses")


def digits_of(kind):
    return {"int": 0}.get(kind, int(kind[3:]) if kind.startswith("dec") else None)


def certain(value):
    return Cell((value,), value)


def rows_of(cells):
    return itertools.product(*(cell.values for cell in cells))


def outcome(row, copies):
    return (tuple(row), copies) if copies else None


def outcomes_of(block):
    """What a block may be, and what it is in the guess world."""
    found = {None} if block.optional else set()
    for copies, cells in block.alternatives:
        found |= {outcome(row, n) for row in rows_of(cells) for n in range(copies[0], copies[2] + 1)}
    if block.guess is None:
        return Outcomes(found, {None})
    copies, cells = block.alternatives[block.guess]
    return Outcomes(found, {outcome([cell.guess for cell in cells], copies[1])})


def world_of(chosen):
    counts = Counter()
    for held in chosen:
        if held:
            counts[held[0]] += held[1]
    return frozenset(counts.items())


def worlds(parts):
    return {world_of(chosen) for chosen in itertools.product(*parts)}


# Drawing tables


def number_text(value, digits, mark="."):
    units = int(value * 10**digits)
    whole = str(abs(units)).rjust(digits + 1, "0")
    text = ("-" if units < 0 else "") + (whole[:-digits] + mark + whole[-digits:] if digits else whole)
    return text


def draw_value(draw, kind):
    digits = digits_of(kind)
    if digits is not None:
        return Fraction(draw.randrange(-3, 8), 10**digits)
    return draw.random() < 0.5 if kind == "flag" else draw.choice(["a", "b", "c", 'd "e"', "f,g", "\u00e5"])


def draw_cell(draw, column, form, empty, ranges):
    if draw.random() < empty:
        return None
    value, digits = draw_value(draw, column.kind), digits_of(column.kind)
    if form == "copies" and digits is not None and draw.random() < ranges:
        step = Fraction(1, 10**digits)
        below, above = draw.randrange(3), draw.randrange(1, 3)
        return Cell(tuple(value + n * step for n in range(-below, above + 1)), value)
    return certain(value)


def draw_copies(draw, form):
    if form != "copies" or draw.random() < 0.6:
        return 1, 1, 1
    return tuple(sorted(draw.randrange(4) for _ in range(3)))


def cell_text(cell, kind, mark="."):
    if cell is None:
        return ""
    digits = digits_of(kind)
    if digits is None:
        return cell.guess if kind == "text" else str(cell.guess).lower()
    ends = (cell.values[0],) if len(cell.values) == 1 else (cell.values[0], cell.guess, cell.values[-1])
    return "..".join(number_text(end, digits, mark) for end in ends)


def copies_text(copies):
    return str(copies[0]) if copies[0] == copies[2] else "..".join(map(str, copies))


def records_of(form, columns, held, mark):
    """Yields the records of the blocks."""
    for label, block in enumerate(held):
        for n, (copies, cells) in enumerate(block.alternatives):
            leading = [f"b{label}", "guess" if n == block.guess else "alt", copies_text(copies)]
            leading = {"plain": [], "blocks": leading[:2], "copies": leading}[form]
            yield leading + [cell_text(cell, column.kind, mark) for cell, column in zip(cells, columns)]
        if block.optional:
            leading = [f"b{label}", "absent-guess" if block.guess is None else "absent"] + [""] * (form == "copies")
            yield leading + [""] * len(columns)


def text_of(draw, form, columns, held):
    """The text of a table in one of the dialects. A kind is written where the cells alone don't tell it, or by chance."""
    separator = draw.choice(",;\t")
    mark = "," if separator == ";" and form == "plain" and draw.random() < 0.5 else "."
    names = []
    for at, column in enumerate(columns):
        cells = [cell for block in held for alternative in block.alternatives for cell in (alternative.cells[at],)]
        wanted = form == "copies" and digits_of(column.kind) is not None or draw.random() < 0.4
        told = wanted or column.kind == "int" and mark == ","
        names.append(f"{column.name}:{column.kind}" if told and (None not in cells or form == "copies") else column.name)
    leading = {"plain": [], "blocks": ["_block", "_role"], "copies": ["_block", "_role", "_times"]}[form]
    out = io.StringIO(newline="")
    writer = csv.writer(out, delimiter=separator, lineterminator=draw.choice(["\n", "\r\n"]))
    writer.writerow(leading + names)
    writer.writerows(records_of(form, columns, held, mark))
    return out.getvalue()


def draw_block(draw, form, columns, empty, ranges, keys):
    """A block whose first cells are `keys`."""
    number = 1 if form == "plain" else draw.choice([1, 1, 2, 3])
    alternatives = []
    for _ in range(number):
        cells = [certain(key) for key in keys]
        cells += [draw_cell(draw, column, form, empty.get(column.name, 0), ranges.get(column.name, 0.3))
                  for column in columns[len(keys):]]
        alternatives.append(Alternative(draw_copies(draw, form), tuple(cells)))
    optional = form != "plain" and draw.random() < 0.3
    guess = None if optional and draw.random() < 0.5 else draw.randrange(number)
    return Block(tuple(alternatives), guess, optional)


def draw_table(draw, columns, keys=None, empty=(), ranges=(), form=None, least=1):
    """A table of few worlds. The first column has the keys, where these are given."""
    empty, ranges = dict(empty), dict(ranges)
    while True:
        shape = form or draw.choice(["plain", "blocks", "copies"])
        number = len(keys) if keys else draw.randrange(least, 4)
        held = [draw_block(draw, shape, columns, empty, ranges, [keys[n]] if keys else []) for n in range(number)]
        full = [Block(tuple(Alternative(a.copies, tuple(cell or certain(0) for cell in a.cells)) for a in block.alternatives),
                      block.guess, block.optional) for block in held]
        if prod(len(outcomes_of(block).all) for block in full) <= 60:
            return Drawn(shape, columns, held, text_of(draw, shape, columns, held))


# Reading what is written


def read_cell(text, kind):
    digits = digits_of(kind)
    if digits is None:
        assert kind == "text" or text in ("true", "false"), text
        return certain(text if kind == "text" else text == "true")
    ends = [Fraction(part) for part in text.split("..")]
    assert all(end * 10**digits == int(end * 10**digits) for end in ends) and ends == sorted(ends), text
    steps = range(int(ends[0] * 10**digits), int(ends[-1] * 10**digits) + 1)
    return Cell(tuple(Fraction(n, 10**digits) for n in steps), ends[len(ends) // 2])


def read_copies(text):
    numbers = [int(part) for part in text.split("..")]
    return tuple(numbers * 3 if len(numbers) == 1 else numbers)


def read_columns(fields):
    return [Column(*field.rsplit(":", 1)) for field in fields]


def read_table(data):
    """Returns the columns and the blocks of a table that was written."""
    header, *records = csv.reader(io.StringIO(data.decode(), newline=""), strict=True)
    leading = 0 if header[:2] != ["_block", "_role"] else 3 if header[2:3] == ["_times"] else 2
    columns, gathered = read_columns(header[leading:]), {}
    for number, fields in enumerate(records):
        label, role = (fields[0], fields[1]) if leading else (number, "guess")
        entry = gathered.setdefault(label, {"alternatives": [], "guess": None, "optional": False})
        if role.startswith("absent"):
            entry["optional"] = True
            continue
        entry["guess"] = len(entry["alternatives"]) if role == "guess" else entry["guess"]
        cells = tuple(read_cell(text, column.kind) for text, column in zip(fields[leading:], columns, strict=True))
        entry["alternatives"].append(Alternative(read_copies(fields[2]) if leading == 3 else (1, 1, 1), cells))
    return columns, [Block(**entry) for entry in gathered.values()]


def run(words, files):
    """Runs a command in a folder of these files, and returns its status and what it put on both outputs."""
    with tempfile.TemporaryDirectory() as folder:
        for name, text in files.items():
            with open(f"{folder}/{name}", "wb") as file:
                file.write(text if isinstance(text, bytes) else text.encode())
        back, streams = os.getcwd(), (sys.stdout, sys.stderr)
        os.chdir(folder)
        sys.stdout, sys.stderr = io.TextIOWrapper(io.BytesIO()), io.StringIO()
        try:
            status = blocks.main(words)
        finally:
            sys.stdout.flush()
            out, err = sys.stdout.buffer.getvalue(), sys.stderr.getvalue()
            sys.stdout, sys.stderr = streams
            os.chdir(back)
    return status, out, err


def guess_of_program(table, columns):
    """The guess world by audb."""
    with tempfile.TemporaryDirectory() as folder:
        with open(f"{folder}/t.csv", "wb") as file:
            file.write(table)
        done = subprocess.run([PROGRAM, "guess", "SELECT * FROM t", f"t={folder}/t.csv"], stdin=subprocess.DEVNULL,
                              capture_output=True, check=True)
    _, *records = csv.reader(io.StringIO(done.stdout.decode(), newline=""))
    rows = [(tuple(read_cell(text, column.kind).guess for text, column in zip(fields[1:], columns)), int(fields[0]))
            for fields in records]
    return world_of(rows)


# What the pages promise


def chosen(block, choices, at):
    """The block in which column `at` has any of the values that `choices` gives of each alternative, and one of those that
    are guessed."""
    found, guesses = {None} if block.optional else set(), set()
    for n, alternative in enumerate(block.alternatives):
        copies, cells = alternative
        values, guessed = choices(alternative)
        for row in rows_of([*cells[:at], Cell(tuple(values), None), *cells[at + 1:]]):
            found |= {outcome(row, number) for number in range(copies[0], copies[2] + 1)}
        if n == block.guess:
            for value in guessed:
                row = [cell.guess if cell else None for cell in cells]
                guesses.add(outcome([*row[:at], value, *row[at + 1:]], copies[1]))
    return Outcomes(found, {None} if block.guess is None else guesses)


def between(low, high, digits):
    return [Fraction(n, 10**digits) for n in range(int(low * 10**digits), int(high * 10**digits) + 1)]


def guessed_values(votes, is_number):
    """The values that may be the guess: the lower median, or one of the most frequent."""
    if is_number:
        return [sorted(votes)[(len(votes) - 1) // 2]]
    counts = Counter(votes)
    return [value for value in counts if counts[value] == max(counts.values())]


class Worlds(unittest.TestCase):
    def turns(self, seed):
        for turn in range(TABLES):
            self.turn = turn
            yield random.Random(f"{seed} {turn}")

    def same(self, words, files, names, expected):
        """A command writes a table of these columns that has exactly the expected worlds."""
        status, out, err = run(words, files)
        context = (self.turn, words, files, out.decode(), err)
        self.assertEqual(status, 0, context)
        columns, held = read_table(out)
        self.assertEqual([column.name for column in columns], names, context)
        if prod(len(part.all) for part in expected) > MOST_WORLDS:
            return False
        found = [outcomes_of(block) for block in held]
        self.assertEqual(worlds(part.all for part in found), worlds(part.all for part in expected), context)
        guess = world_of(next(iter(part.guesses)) for part in found)
        self.assertIn(guess, worlds(part.guesses for part in expected), context)
        if PROGRAM:
            self.assertEqual(guess_of_program(out, columns), guess, context)
        return True

    def enough(self, compared):
        self.assertGreaterEqual(sum(compared), TABLES // 2)

    def test_impute(self):
        compared = []
        for draw in self.turns("impute"):
            kind = draw.choice(["int", "dec1", "dec2", "text"])
            columns = [Column("like", "text"), Column("x", kind), Column("y", draw.choice(["int", "dec1", "flag"]))]
            table = draw_table(draw, columns, empty={"x": 0.4}, ranges={"x": 0.1}, least=2)
            words, choices = self.imputed(draw, table, kind)
            files = {"a.csv": table.text}
            if choices is None:
                self.assertEqual(run(words, files)[:2], (1, b""))
                continue
            expected = [chosen(block, choices, 1) for block in table.blocks]
            compared.append(self.same(words, files, ["like", "x", "y"], expected))
        self.enough(compared)

    def imputed(self, draw, table, kind):
        """The words of `impute`, and what an alternative's cell in column x may be and is by the guess; None for a refusal."""
        digits = digits_of(kind)
        seen = [a for block in table.blocks for a in block.alternatives if a.cells[1]]
        votes = [a for a in (block.alternatives[block.guess or 0] for block in table.blocks) if a.cells[1]]
        ranges = digits is not None and draw.random() < 0.3
        words = ["impute", "a.csv", "--column", "x"] + ["--ranges"] * ranges
        way = draw.choice(["column", "like", "ends", "range", "values"])
        if way == "ends" and (digits is None or not votes or any(len(a.cells[1].values) > 1 for a in seen)):
            way = "column"
        if way == "range" and digits is None:
            way = "values"
        told = []
        if way in ("range", "values"):
            number = 2 if way == "range" else draw.randrange(1, 3)
            told = [draw_value(draw, kind) for _ in range(number)]
            told = sorted(told) if way == "range" else told
            words += [f"--{way}", *(value if digits is None else number_text(value, digits) for value in told)]
        elif not seen:
            return words, None
        words += {"like": ["--like", "like"], "ends": ["--ends"]}.get(way, [])

        def choices(alternative):
            if alternative.cells[1]:
                return alternative.cells[1].values, [alternative.cells[1].guess]
            agree = [a for a in seen if way != "like" or a.cells[0] == alternative.cells[0]] or seen
            values, guesses = self.values_of(way, agree, [a for a in votes if a in agree], told, digits)
            return between(min(values), max(values), digits) if ranges else values, guesses

        return words, choices

    def values_of(self, way, agree, votes, told, digits):
        """The values that an empty cell may have and those that it may have by the guess. `agree` are the alternatives whose
        values count, and `votes` those of them that are guessed; where none is, each value counts once."""
        if way == "values":
            return told, told[:1]
        cells = [a.cells[1] for a in votes] or list({a.cells[1] for a in agree})
        guesses = guessed_values([cell.guess for cell in cells], digits is not None) if cells else []
        if way == "range":
            middle = Fraction(int(sum(told) * 10**digits) // 2, 10**digits)
            guesses = [min(max(value, told[0]), told[1]) for value in guesses] or [middle]
            return [*guesses, *told], guesses
        values = sorted({value for a in agree for value in a.cells[1].values})
        return [*guesses, values[0], values[-1]] if way == "ends" else values, guesses

    def test_error(self):
        compared = []
        for draw in self.turns("error"):
            kind = draw.choice(["int", "dec1", "dec2"])
            columns = [Column("x", kind), Column("less", "text"), Column("y", draw.choice(["int", "text"]))]
            table = draw_table(draw, columns)
            digits, in_column = digits_of(kind), draw.random() < 0.5
            errors = [draw.choice(["", "0.2", "1", "15%", "150%"]) for _ in range(2)]
            if in_column:
                held = [Block(tuple(Alternative(a.copies, (a.cells[0], certain(draw.choice(errors)), a.cells[2]))
                                    for a in block.alternatives), block.guess, block.optional) for block in table.blocks]
                table = Drawn(table.form, columns, held, text_of(draw, table.form, columns, held))
            below, above = ("less", errors[1]) if in_column else errors
            words = ["error", "a.csv", "--column", "x", "--below", below or "0", "--above", above or "0"]
            ranges = draw.random() < 0.3
            words += ["--ranges"] * ranges

            def size(text, value):
                text = text or "0"
                return abs(value) * Fraction(text[:-1]) / 100 if text.endswith("%") else Fraction(text)

            def choices(alternative):
                cell, less = alternative.cells[0], alternative.cells[1].guess if in_column else below
                unit = 10**digits
                low = min(Fraction(floor((value - size(less, value)) * unit), unit) for value in cell.values)
                high = max(Fraction(ceil((value + size(above, value)) * unit), unit) for value in cell.values)
                if ranges or len(cell.values) > 1:
                    return between(low, high, digits), [cell.guess]
                return [cell.guess, low, high], [cell.guess]

            expected = [chosen(block, choices, 0) for block in table.blocks]
            names = ["x", "less", "y"]
            if in_column:
                names.remove("less")
                expected = [Outcomes({o and (o[0][:1] + o[0][2:], o[1]) for o in part.all},
                                     {o and (o[0][:1] + o[0][2:], o[1]) for o in part.guesses}) for part in expected]
            compared.append(self.same(words, {"a.csv": table.text}, names, expected))
        self.enough(compared)

    def test_duplicates(self):
        compared = []
        for draw in self.turns("duplicates"):
            kind, keys = draw.choice([("int", [1, 2, 3, 40]), ("text", ["k", "l", "m/n", "o"]),
                                      ("dec1", [Fraction(n, 2) for n in range(4)])])
            columns = [Column("id", kind), Column("x", draw.choice(["int", "dec2", "text"]))]
            table = draw_table(draw, columns, keys=draw.sample(keys, draw.randrange(2, 5)))
            numbers = range(len(table.blocks))
            pairs = sorted({tuple(sorted(draw.sample(numbers, 2))) for _ in range(draw.randrange(3))})
            guess = draw.choice(["absent", "present"])
            named = [[cell_text(table.blocks[n].alternatives[0].cells[0], kind) for n in pair] for pair in pairs]
            files = {"a.csv": table.text, "p.csv": "a,b,c\n" + "".join(f"{a},{b},0\n" for a, b in named)}
            expected = []
            for n, block in enumerate(table.blocks):
                if any(n == second for _, second in pairs):
                    block = Block(block.alternatives, None if guess == "absent" else block.guess, True)
                expected.append(outcomes_of(block))
            words = ["duplicates", "a.csv", "p.csv", "--key", "ID", "--guess", guess]
            compared.append(self.same(words, files, ["id", "x"], expected))
        self.enough(compared)

    def test_merge(self):
        compared = []
        for draw in self.turns("merge"):
            kinds = [draw.choice(["int", "dec1", "dec2"]) for _ in range(2)]
            files, tables = {}, []
            for name in ("a.csv", "b.csv", "c.csv")[:draw.randrange(1, 4)]:
                kind = kinds[len(tables) % 2]
                columns = [Column("id", "text"), Column("x", kind), Column("z", "text")]
                tables.append(draw_table(draw, columns, keys=draw.sample(["k", "l", "m"], draw.randrange(1, 4))))
                files[name] = tables[-1].text
            first = draw.randrange(len(tables))
            optional = draw.random() < 0.5
            words = ["merge", "--key", "id", *files, "--guess", list(files)[first]] + ["--optional"] * optional
            held = {}
            for table in [tables[first], *tables[:first], *tables[first + 1:]]:
                for block in table.blocks:
                    held.setdefault(block.alternatives[0].cells[0].guess, []).append((table is tables[first], block))
            digits = max(digits_of(table.columns[1].kind) for table in tables)
            expected = [self.merged(entries, optional and len(entries) < len(tables), digits) for entries in held.values()]
            compared.append(self.same(words, files, ["id", "x", "z"], expected))
        self.enough(compared)

    def merged(self, entries, lacking, digits):
        """What the row of a key may be. The entries are its blocks, that of the guesses first, and whether they are of it. A
        range holds the numbers of its column's digits."""
        def finer(cell):
            return Cell(tuple(between(cell.values[0], cell.values[-1], digits)), cell.guess)

        parts = [outcomes_of(Block(tuple(Alternative(a.copies, (a.cells[0], finer(a.cells[1]), a.cells[2]))
                                         for a in block.alternatives), block.guess, block.optional)) for _, block in entries]
        found = set().union(*(part.all for part in parts)) | ({None} if lacking else set())
        return Outcomes(found, {None} if lacking and not entries[0][0] else parts[0].guesses)

    def test_rename(self):
        compared = []
        for draw in self.turns("rename"):
            kind, ids = draw.choice([("int", [Fraction(n) for n in range(-3, 8)]), ("text", ["a", "b", "c", "f,g", "z"])])
            columns = [Column("x", draw.choice(["int", "dec1"])), Column("to", kind)]
            table = draw_table(draw, columns, ranges={"to": 0})
            pairs = [[*draw.sample(ids, 2), draw.random() < 0.5] for _ in range(draw.randrange(1, 6))]
            pairs.sort(key=lambda pair: ids.index(pair[0]))
            pairs = [pair for pair in pairs if ids.index(pair[0]) < ids.index(pair[1])]
            if not pairs:
                continue
            draw.shuffle(pairs)
            way, guess = draw.choice(["sure", "probable", "column"]), draw.choice(["first", "copy"])
            if way != "column":
                pairs = [[a, b, way == "sure"] for a, b, _ in pairs]
            lines = [[cell_text(certain(a), kind), cell_text(certain(b), kind), str(sure)] for a, b, sure in pairs]
            text = io.StringIO(newline="")
            csv.writer(text, lineterminator="\n").writerows([["one", "two", "sure"], *lines])
            words = ["rename", "a.csv", "--column", "to", "--by", "p.csv", "--guess", guess]
            words += {"sure": [], "probable": ["--probable"], "column": ["--sure", "sure"]}[way]

            def stays(name):
                return not any(sure for _, b, sure in pairs if b == name)

            def comes_to(name):
                found = {name}
                while True:
                    more = found | {a for a, b, _ in pairs if b in found}
                    if more == found:
                        return [other for other in found if stays(other)]
                    found = more

            def guessed(name):
                """By the first pair of each id, among sure pairs alone where a copy is to be kept."""
                while True:
                    steps = [a for a, b, sure in pairs if b == name and (sure or guess == "first")]
                    if not steps:
                        return name
                    name = steps[0]

            def choices(alternative):
                name = alternative.cells[1].guess
                return comes_to(name), [guessed(name)]

            expected = [chosen(block, choices, 1) for block in table.blocks]
            compared.append(self.same(words, {"a.csv": table.text, "p.csv": text.getvalue()}, ["x", "to"], expected))
        self.enough(compared)

    def test_indicators(self):
        compared = []
        for draw in self.turns("indicators"):
            kind = draw.choice(["int", "dec1", "text", "flag"])
            number = draw.choice(["int", "dec2"])
            columns = [Column("c", kind), Column("x", number)]
            summed = draw.random() < 0.5
            table = draw_table(draw, columns, ranges={"c": 0.2, "x": 0 if summed else 0.3})
            cells = [a.cells[0] for block in table.blocks for a in block.alternatives]
            words = ["indicators", "a.csv", "--column", "c"] + ["--sum", "x"] * summed
            if draw.random() < 0.5 or any(len(cell.values) > 1 for cell in cells):
                values = list(dict.fromkeys(draw_value(draw, kind) for _ in range(draw.randrange(1, 4))))
                words += ["--values", *(cell_text(certain(value), kind) for value in values)]
            else:
                values = sorted({cell.guess for cell in cells}, key=lambda v: v.encode() if kind == "text" else v)
            names = [f"c_{cell_text(certain(value), kind)}" for value in values]
            names = ["c", "x", *names] + [f"x{name[1:]}" for name in names if summed]

            def marked(found):
                if not found:
                    return None
                row, copies = found
                added = [Fraction(row[0] == value) for value in values]
                return (*row, *added, *([row[1] * one for one in added] if summed else [])), copies

            parts = [outcomes_of(block) for block in table.blocks]
            expected = [Outcomes({marked(found) for found in part.all}, {marked(found) for found in part.guesses}) for part in parts]
            compared.append(self.same(words, {"a.csv": table.text}, names, expected))
        self.enough(compared)

    def test_convert(self):
        compared = []
        for draw in self.turns("convert"):
            columns = [Column("A b", draw.choice(["int", "dec1", "dec3"])), Column("x", draw.choice(["text", "flag", "int"]))]
            table = draw_table(draw, columns)
            encoding = draw.choice(["utf-8", "latin-1", "utf-16", "windows-1252"])
            code = "cp1252" if encoding == "windows-1252" else encoding
            words = ["convert", "a.csv", "--encoding", encoding]
            names = ["A b", "x"]
            if draw.random() < 0.5:
                words, names[0] = [*words, "--simple-names"], "A_b"
            if draw.random() < 0.5:
                words, names[1] = [*words, "--name", "x=y=z"], "x"
                words, names[1] = [*words[:-1], "x=y"], "y"
            expected = [outcomes_of(block) for block in table.blocks]
            compared.append(self.same(words, {"a.csv": table.text.encode(code)}, names, expected))
        self.enough(compared)

    def test_convert_numbers(self):
        """Numbers as exports write them: with a mark for the decimals and another between thousands."""
        for draw in self.turns("numbers"):
            mark, between_thousands = draw.choice([(".", ","), (",", "."), (",", " "), (".", "'"), (",", "\u00a0")])
            digits = draw.randrange(4)
            values = [draw.choice([-1, 1]) * Fraction(draw.randrange(10 ** draw.randrange(1, 11)), 10**digits) for _ in range(4)]
            texts = []
            for value in values:
                whole, _, fraction = number_text(abs(value), digits).partition(".")
                text = f"{int(whole):,}".replace(",", between_thousands) + (mark + fraction if fraction else "")
                texts.append("-" * (value < 0) + text)
            word = "space" if between_thousands in " \u00a0" else between_thousands
            words = ["convert", "a.csv", "--decimal-mark", mark, "--thousands", word]
            data = "n\tt\n" + "".join(f"{text}\tz\n" for text in texts)
            expected = [outcomes_of(Block((Alternative((1, 1, 1), (certain(value), certain("z"))),), 0, False)) for value in values]
            self.assertTrue(self.same(words, {"a.csv": data}, ["n", "t"], expected))

    def test_describe(self):
        for draw in self.turns("describe"):
            columns = [Column("c", draw.choice(["int", "dec1"])), Column("t", "text")]
            table = draw_table(draw, columns)
            status, out, err = run(["describe", "a.csv"], {"a.csv": table.text})
            self.assertEqual(status, 0, (table.text, err))
            lines = [[field.strip() for field in line.split("|")] for line in out.decode().splitlines()[3:]]
            found = {fields[0]: (int(fields[2]), int(fields[3])) for fields in lines}
            number, unsure = len(table.blocks), {"blocks": 0, "rows": 0, "column c": 0, "column t": 0}
            for part in (outcomes_of(block).all for block in table.blocks):
                rows = [held[0] for held in part if held]
                unsure["blocks"] += len(part) > 1
                unsure["rows"] += len({held[1] if held else 0 for held in part}) > 1
                for at, name in enumerate(("column c", "column t")):
                    unsure[name] += len({row[at] for row in rows}) > 1
            wanted = {name: (count, number) for name, count in unsure.items()}
            wanted["cells"] = unsure["column c"] + unsure["column t"], 2 * number
            self.assertEqual(found, wanted, (table.text, out.decode()))


if __name__ == "__main__":
    if sys.argv[1:2] == ["--tables"]:
        TABLES = int(sys.argv[2])
        del sys.argv[1:3]
    if len(sys.argv) > 1 and os.path.isfile(sys.argv[1]):
        PROGRAM = os.path.abspath(sys.argv.pop(1))
    unittest.main()
