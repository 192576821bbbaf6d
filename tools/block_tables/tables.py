"""Tables of blocks: reading them, and settling the kinds of their columns."""
from .cells import (KINDS, LEADING_ZERO, LOOKS_LIKE_DATE, LOOKS_LIKE_NUMBER, MOST_DIGITS, NUMBER, Marks, cell_text, copies_text,
                    digits_of, is_range, kind_of, most_digits, number_kind)
from .sources import Refusal, check_width, read_records, short, shown

MOST_COLUMNS = 64
MOST_NAME = 128
ROLES = ("guess", "alt", "absent", "absent-guess")
AMBIGUOUS = 3  # digits behind a mark that may be a decimal point or stand between thousands


class Row:
    """One alternative: its cells, its number of copies, and the record that it comes from."""

    __slots__ = ("cells", "copies", "source", "record")

    def __init__(self, cells, copies, source, record):
        self.cells, self.copies, self.source, self.record = cells, copies, source, record

    def of(self, cells):
        return Row(cells, self.copies, self.source, self.record)

    def value(self):
        """What makes two alternatives one."""
        return self.copies, self.cells

    def place(self):
        return self.source.place(self.record)

    def refusal(self, column, text):
        return Refusal(f"{self.place()}, column {column}: {text}")


class Block:
    """Alternatives of which one holds. `guess` is the place of the marked one, and None where absence is marked."""

    __slots__ = ("label", "rows", "guess", "optional")

    def __init__(self, label, rows, guess=0, optional=False):
        self.label, self.rows, self.guess, self.optional = label, rows, guess, optional

    def guessed(self):
        return self.rows[self.guess or 0]


class Gathered(Block):
    """A block of which not all records may have been read: how many are marked and how many absent, and its first one."""

    __slots__ = ("marked", "absent", "first")

    def __init__(self, label, first):
        super().__init__(label, (), None)
        self.marked, self.absent, self.first = 0, 0, first

    def add(self, role, row):
        self.marked += role in ("guess", "absent-guess")
        if role.startswith("absent"):
            self.absent += 1
            self.optional = True
        else:
            self.guess = len(self.rows) if role == "guess" else self.guess
            self.rows += (row,)

    def check(self, source):
        """Refuses records that are no block."""
        where = f"{source.place(self.first)}: block {short(self.label)} has"
        if self.marked != 1:
            raise Refusal(f"{where} {self.marked} guesses")
        if not self.rows or self.absent > 1:
            raise Refusal(f"{where} " + (f"{self.absent} absent records" if self.rows else "no alternative"))


class SingleRows:
    """The rows of an ordinary file as blocks, which are made when they are asked for."""

    def __init__(self, rows):
        self.rows = rows

    def __iter__(self):
        return (Block(str(row.record), (row,)) for row in self.rows)

    def __len__(self):
        return len(self.rows)


class Shared:
    """Equal cells as one text, for columns with few values."""

    MOST = 4096

    def __init__(self, width):
        self.seen = [{} for _ in range(width)]

    def cells(self, fields):
        return tuple(seen.get(text) or self.kept(seen, text) for seen, text in zip(self.seen, fields))

    def kept(self, seen, text):
        return seen.setdefault(text, text) if len(seen) < self.MOST else text


class Table:
    """The columns of a file with their written kinds, and its blocks. `plain` says that it is an ordinary file, `copies`
    that its rows have numbers of copies, and its columns of numbers ranges."""

    def __init__(self, path, names, kinds, blocks, plain, copies=False, marks=Marks(".")):
        self.path, self.names, self.kinds, self.blocks = path, names, kinds, blocks
        self.plain, self.copies, self.marks = plain, copies, marks

    def rows(self):
        return iter(self.blocks.rows) if self.plain else (row for block in self.blocks for row in block.rows)

    def place_of(self, name):
        return find(self.names, name, self.path)


def folded(name):
    """A name in small letters, as audb compares names: the ASCII letters alone."""
    return "".join(c.lower() if c.isascii() else c for c in name)


# Reading


def column_of(field, at, in_blocks):
    """Returns the name and the written kind of the header field of column `at`, from 0."""
    name, colon, kind = field.rpartition(":")
    if colon and (kind in KINDS or in_blocks):
        return name or f"col{at + 1}", kind
    return field or f"col{at + 1}", None


def marks_of(options, separator):
    """How the numbers of a file are written, by the options or, where semicolons stand between fields, with commas too. What
    stands between thousands is no decimal point, and then the other one is."""
    thousands = options.thousands or ""
    if options.decimal_mark:
        return Marks(options.decimal_mark, thousands)
    points = "".join(mark for mark in ".," if mark not in thousands)
    return Marks(points if separator == ";" or "." in thousands else ".", thousands)


def leading_columns(header):
    """How many fields of a header stand before the columns."""
    if header[:2] != ["_block", "_role"]:
        return 0
    return 3 if header[2:3] == ["_times"] else 2


def read_table(path, options, warnings):
    """Reads an ordinary file or a block table."""
    source, header, found, separator = read_records(path, options)
    leading = leading_columns(header)
    source.copies = leading == 3
    columns = [column_of(field, at, leading > 0) for at, field in enumerate(header[leading:])]
    for name, kind in columns:
        if kind is not None and kind not in KINDS:
            raise Refusal(f"{source.place(0)}, column {name}: unknown kind {short(kind)}")
    names, kinds = [name for name, _ in columns], [kind for _, kind in columns]
    check_names(source.place(0), names)
    read = block_table if leading else plain_table
    blocks = read(source, header, found, warnings)
    return Table(path, names, kinds, blocks, not leading, source.copies, marks_of(options, separator))


def plain_table(source, header, found, warnings):
    """Returns each record as a block of one row, but for those whose fields are all empty."""
    rows, empty, shared = [], [], Shared(len(header))
    for record in found:
        check_width(source, header, record)
        if len(record.fields) > 1 and not any(record.fields):
            empty.append(record.number)
        else:
            rows.append(Row(shared.cells(record.fields), "1", source, record.number))
    if empty:
        warnings.append(f"{source.place(empty[0])}: all fields are empty; {len(empty)} such left out")
    return SingleRows(rows)


def block_table(source, header, found, warnings):
    """Returns the blocks of a block table."""
    gathered, shared = {}, Shared(len(header))
    for record in found:
        check_width(source, header, record)
        label, role, *cells = shared.cells(record.fields)
        if role not in ROLES:
            raise Refusal(f"{source.place(record.number)}: no role {short(role)}")
        if role.startswith("absent") and any(cells):
            raise Refusal(f"{source.place(record.number)}: values in an absent record")
        block = gathered.get(label)
        if block is None:
            block = gathered[label] = Gathered(label, record.number)
        block.add(role, None if role.startswith("absent") else alternative(source, record.number, cells))
    for block in gathered.values():
        block.check(source)
    return list(gathered.values())


def alternative(source, number, cells):
    """Returns the row of a record, whose first cell is its number of copies where the file has them."""
    if not source.copies:
        return Row(tuple(cells), "1", source, number)
    copies = copies_text(cells[0])
    if copies is None:
        raise Refusal(f"{source.place(number)}: {short(cells[0])} is no number of copies")
    return Row(tuple(cells[1:]), copies, source, number)


# Columns


def find(names, name, where):
    """Returns the place of a column."""
    for at, other in enumerate(names):
        if folded(other) == folded(name):
            return at
    raise Refusal(f"{shown(where)}: no column {name}; there are {', '.join(names)}")


def check_names(where, names, hint=""):
    """Refuses columns that a table of audb can't have."""
    if len(names) > MOST_COLUMNS:
        raise Refusal(f"{where}: {len(names)} columns, more than {MOST_COLUMNS}{hint}")
    seen = {}
    for at, name in enumerate(names):
        if len(name.encode()) > MOST_NAME:
            raise Refusal(f"{where}, column {at + 1}: a name of more than {MOST_NAME} bytes{hint}")
        other = seen.setdefault(folded(name), at)
        if other != at:
            raise Refusal(f"{where}, column {at + 1}: column {other + 1} has the name {name} too")


# Kinds


def no_number(text):
    """Says why a cell is no number."""
    found = NUMBER.fullmatch(text)
    if found and len((found[3] or "").rstrip("0")) > MOST_DIGITS:
        return f"{short(text)}, which has more than {MOST_DIGITS} digits behind the point"
    return f"{short(text)}, which is {'a date' if LOOKS_LIKE_DATE.fullmatch(text) else 'no number'}"


def has_both_marks(texts, table):
    """Whether commas and points stand in the numbers of a column of which nobody said which is the decimal point."""
    marks = {mark for mark in table.marks.points for text in texts if mark in text}
    return len(marks) > 1 and all(LOOKS_LIKE_NUMBER.fullmatch(text) for text in texts if text)


def warn_of_text(at, name, texts, table, warnings):
    """Warns of a column that is text though some of its cells look like numbers."""
    held = texts - {""}
    if has_both_marks(texts, table):
        warnings.append(f"column {name} is text, since it has numbers with commas and with points (--decimal-mark says which "
                        "is the decimal point)")
        return
    numbers = {text for text in held if most_digits([table.marks.plain(text)]) is not None}
    odd = {text for text in held - numbers if LOOKS_LIKE_NUMBER.fullmatch(text)}
    if not odd and (not numbers or 2 * len(numbers) < len(held)):
        return
    if not odd and numbers == held and "" not in texts:
        warnings.append(f"column {name} is text, since its numbers together have more digits than a kind has")
        return
    for row in table.rows():
        text = row.cells[at]
        if text in odd or not odd and text in texts and text not in numbers:
            why = "is empty" if text == "" else f"has {no_number(text)}"
            warnings.append(f"column {name} is text, since {row.place()} {why}")
            return


def plain_texts(texts, kind, table):
    """Puts numbers as audb reads them where the file writes them in another way and the column has numbers alone. `texts`
    gives each text of the column itself, and then what it is."""
    marks = table.marks
    if marks.usual() or kind in ("text", "flag"):
        return
    plain = {text: "..".join(map(marks.plain, text.split(".."))) if table.copies and is_range(text) else marks.plain(text)
             for text in texts}
    numbers = kind or not has_both_marks(texts, table) and most_digits([text for text in plain.values() if text]) is not None
    if numbers:
        texts.update(plain)


def warn_of_marks(name, plain, table, warnings):
    """Warns where the comma or the point of numbers may as well stand between thousands."""
    changed = [text for text in plain if any(mark in text for mark in table.marks.points)]
    behind = {len(text) - 1 - max(map(text.rfind, table.marks.points)) for text in changed}
    if len(table.marks.points) > 1 and behind == {AMBIGUOUS}:
        text = min(changed)
        mark = "," if "," in text else "."
        warnings.append(f"column {name}: {short(text)} is read as {plain[text]} (--thousands {mark} reads it as "
                        f"{text.replace(mark, '')})")


def settle_column(table, at, blank, warnings):
    """Finds the kind of a column, and returns what each of its cells but the blank ones is as audb prints it, where it
    differs."""
    name, written = table.names[at], table.kinds[at]
    texts = {row.cells[at]: row.cells[at] for row in table.rows() if row.cells[at] not in blank}
    plain_texts(texts, written, table)
    kind = table.kinds[at] = written or kind_of(texts.values())
    is_number = digits_of(kind) is not None
    if written is None and kind == "text":
        warn_of_text(at, name, texts.keys(), table, warnings)
    elif is_number:
        warn_of_marks(name, texts, table, warnings)
    ranged = table.copies and written is not None
    for text, other in texts.items():
        texts[text] = cell_text(kind, other, ranged)
    check_cells(table, at, kind, texts)
    changed = {text: cell for text, cell in texts.items() if cell != text}
    if is_number:
        warn_of_zeros(name, kind, changed, warnings)
    return changed


def with_points(table, warnings):
    """Puts the numbers of all columns as audb reads them, by the marks of their own file."""
    if table.marks.usual():
        return
    changed = []
    for at, (name, kind) in enumerate(zip(table.names, table.kinds)):
        texts = {row.cells[at]: row.cells[at] for row in table.rows()}
        plain_texts(texts, kind, table)
        changed.append({text: other for text, other in texts.items() if text != other})
        if changed[-1]:
            warn_of_marks(name, texts, table, warnings)
    put_cells(table, changed)
    table.marks = Marks(".")


def put_cells(table, changed):
    """Puts other texts in the place of some cells. `changed` gives these for each column."""
    for row in table.rows() if any(changed) else ():
        row.cells = tuple(cells.get(text, text) for cells, text in zip(changed, row.cells))


def check_cells(table, at, kind, cells):
    """Refuses the first cell that is none of its column's kind, and a range in a file that can't have one."""
    wrong = {text for text, cell in cells.items() if cell is None}
    mixed = digits_of(kind) is not None and any(map(is_range, cells))
    for row in table.rows() if wrong or mixed else ():
        text = row.cells[at]
        if text in wrong or mixed and text in cells and is_range(text) and not row.source.copies:
            raise row.refusal(table.names[at], f"{short(text)} is no {kind}")


def warn_of_zeros(name, kind, cells, warnings):
    """Warns of a column of numbers whose leading zeros are lost."""
    zeros = [text for text in cells if LEADING_ZERO.match(text)]
    if zeros:
        warnings.append(f"column {name} is {kind}, so {short(min(zeros))} becomes {cells[min(zeros)]} (--text {name} keeps it)")


def warn_of_kinds(names, written, kinds, warnings):
    """Says which columns audb would take as text in the file itself, whose header has no kinds for them."""
    found = [f"{name} is {kind}" for name, before, kind in zip(names, written, kinds)
             if before is None and (kind == "flag" or digits_of(kind))]
    if found:
        warnings.append(f"{', '.join(found)} here, and text to audb in a file whose header has no kinds (convert writes them)")


def settle(table, options, warnings, blank_at=None, blank=(), silent=(), says_kinds=True):
    """Finds the kind of each column. The blank texts of column `blank_at` are left out of this; of the columns `silent`
    nothing is said."""
    for word in options.text:
        table.kinds[table.place_of(word)] = "text"
    skipped = [blank if at == blank_at else () for at in range(len(table.names))]
    for name, digits in options.decimals:
        at = table.place_of(name)
        empty = "" not in skipped[at] and any(row.cells[at] == "" for row in table.rows())
        table.kinds[at] = None if empty else number_kind(digits)
    spoken = [at for at in range(len(table.names)) if at not in silent]
    written = list(table.kinds)
    changed = [settle_column(table, at, skipped[at], [] if at in silent else warnings) for at in range(len(table.names))]
    put_cells(table, changed)
    if says_kinds:
        warn_of_kinds(*([names[at] for at in spoken] for names in (table.names, written, table.kinds)), warnings)


def respell(table, at, kind, blank):
    """Puts the cells of a column of numbers, but for the blank ones, as those of a kind with more digits."""
    cells = {}
    for row in table.rows():
        text = row.cells[at]
        if text not in blank:
            if text not in cells:
                cells[text] = cell_text(kind, text, True)
                if cells[text] is None:
                    raise row.refusal(table.names[at], f"{short(text)} leaves 128 bits as {kind}")
            row.cells = with_value(row.cells, at, cells[text])
    table.kinds[at] = kind


def with_value(cells, at, value):
    """Cells with another one at a place."""
    return cells[:at] + (value,) + cells[at + 1:]
