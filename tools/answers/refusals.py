"""What a line of audb says, for people: the place in the query or the file, and what helps."""
import re
import shlex
import unicodedata

from answers.grammar import stuck
from answers.instead import suggestion
from answers.listing import shown, width
from answers.queries import COMPARISONS, Query
from answers.tables import ESCAPED, LEADS, Table, reason_of_text
from answers.unsupported import missing_word

MOST_WIDTH, FRONT = 110, 50
CHARACTERS = {
    "/": "There is no division: multiply the other side, or ask for both numbers.",
    "%": "There is no remainder of a division.",
    "|": "Texts aren't joined: ask for both columns.",
    "!": "Not equal is <> or !=.",
    "?": "A query has no parameters: write the value.", ":": "A query has no parameters: write the value.",
    "@": "A query has no parameters: write the value.", "$": "A query has no parameters: write the value.",
    "[": "A name with blanks stands between \" and \".", "]": "A name with blanks stands between \" and \".",
    "#": "A comment begins with --.", "\\": "A quote within a text is doubled.",
}
KINDS = {
    "int": "a whole number", "flag": "true or false", "text": "text",
    **{f"dec{digits}": f"a number with at most {digits} digit{'s' * (digits > 1)} behind its point" for digits in range(1, 10)},
}


class Question:
    """What was asked: the query, the table words, and how audb is asked whether it takes another query over these."""

    def __init__(self, text, words, ask):
        self.text, self.words, self.ask = text, words, ask

    def path(self, place):
        return self.words[place].partition("=")[2] if place < len(self.words) else f"file {place}"

    def tables(self):
        """The tables that can be read."""
        found = []
        for word in self.words:
            name, sign, path = word.partition("=")
            try:
                found += [Table(name, path)] if sign else []
            except OSError:
                continue
        return found


def explained(line, question):
    """Returns the lines that explain a line of audb, whose `audb: ` is cut off."""
    for pattern, explain in PATTERNS:
        found = re.fullmatch(pattern, line)
        if found:
            return explain(question, line, *(int(part) if part.isdecimal() else part for part in found.groups()))
    return [line]


# Places in a query


def line_at(text, byte):
    """Returns the number of the line in which a byte stands, from 1, the line, and its part before that byte."""
    before = text.encode()[:byte].decode("utf-8", "ignore")
    start = before.rfind("\n") + 1
    end = text.find("\n", start)
    return before.count("\n") + 1, text[start:end if end >= 0 else None], before[start:]


def pointed(text, byte):
    """The line of a query with a caret below a byte; of a long line what stands around it."""
    number, line, before = line_at(text, byte)
    front, rest = shown(before.replace("\t", " ")), shown(line[len(before):].replace("\t", " ").rstrip("\r"))
    if width(front) + width(rest) > MOST_WIDTH:
        front, rest = front if width(front) <= FRONT else ".." + front[-FRONT:], rest[:MOST_WIDTH - FRONT]
    many = f"line {number}: " if "\n" in text.strip() else ""
    return [f"  {many}{front}{rest}", " " * (2 + len(many) + width(front)) + "^"]


def query_refusal(question, line, fault, byte):
    """A query that is refused at a byte."""
    lines = [line, *pointed(question.text, byte)]
    query, tables = Query(question.text), question.tables()
    at = query.at_char(len(question.text.encode()[:byte].decode("utf-8", "ignore")))
    reason = text_note(query, at, tables) if fault == "kinds do not fit" else None
    if reason:
        return lines + [reason]
    found = suggestion(question.text, line, tables, question.ask)
    own = NOTES[fault](query, at, tables) if fault in NOTES else None
    notes = found.notes or filter(None, [own or GENERAL.get(fault)])
    return [*lines, *notes, *(instead(found) if found.text else [])]


def instead(found):
    """The lines of a query that can be asked in the place of the refused one."""
    lines = ["Write instead:", *("  " + part for part in found.text.strip().split("\n"))]
    return lines + ([f"and ask it with {shlex.join(found.words)}"] if found.words else [])


def sign_note(query, at, _):
    """What helps with a character that begins no token."""
    character = query.token(at).text[:1]
    if character in CHARACTERS:
        return CHARACTERS[character]
    name = unicodedata.name(character, "") if character else ""
    return f"{shown(character)} ({name}) stands in a query only within texts and quoted names." if name else None


def number_note(query, at, _):
    """What is wrong with a number."""
    token, behind = query.token(at), query.token(at + 1)
    if behind.start == token.end and behind.kind == "word":
        return f'Letters follow the digits: a name that begins with a digit stands in quotes, as "{token.text}{behind.text}".'
    return None


def syntax_note(query, _, __):
    """What is known of the word at which no query can go on."""
    if not query.tokens:
        return "The query is empty."
    found = stuck(query)
    if found is None:
        return None
    note = missing_word(query, found.at)
    if note:
        return note
    token, before = query.token(found.at), query.token(found.at - 1)
    if before.key == ";":
        return "One query is asked at a time: nothing stands behind its ;."
    place = f"behind {shown(before.text)}" if found.at else "at the beginning"
    return f"{shown(token.text) if token.text else 'The end'} doesn't fit {place}, where {found.wanted} could stand."


def columns_beside(query, at, tables):
    """Yields the columns beside an operator or in a call, each as its table and its place there."""
    if query.key(at + 1) == "(" and query.token(at).is_name():
        start, end = at + 2, query.closing(at + 1) or at + 2
    elif query.key(at) in (*COMPARISONS, "+", "-", "*"):
        start, end = query.back_to(at), query.on_to(at + 1)
    else:
        return
    for place in range(start, end):
        token = query.token(place)
        for table in tables if token.is_name() and query.key(place + 1) != "." else ():
            column = table.find(token.name())
            if column is not None:
                yield table, column


def text_note(query, at, tables):
    """Says why a column beside an operator is text though it looks like numbers, where one is."""
    for table, column in columns_beside(query, at, tables):
        reason = reason_of_text(table, column) if table.columns[column].kind == "text" else None
        if reason:
            return text_column(table, table.columns[column].name, reason)
    return None


def kinds_note(query, at, tables):
    """The kinds of the columns beside an operator."""
    columns = [table.columns[column] for table, column in columns_beside(query, at, tables)]
    kinds = dict.fromkeys(f"{column.name} is {column.kind}" for column in columns)
    return f"The kinds here: {', '.join(kinds)}." if kinds else None


def text_column(table, name, reason):
    """Why a column is text, and what helps."""
    why = f"Column {name} of {table.path} is text, since {reason.record} has {short(reason.text)}"
    if reason.text == "":
        return f"Column {name} of {table.path} is text, since {reason.record} is empty there; tools/blocks impute fills it."
    if reason.digits:
        return f"{why}. In the file's first line write {name}:dec{reason.digits} in the place of {name}."
    return f"{why}, which is no number as audb reads it."


NOTES = {"unexpected character": sign_note, "bad number": number_note, "syntax error": syntax_note, "kinds do not fit": kinds_note}

GENERAL = {
    "unexpected character": "No word of a query begins with this character.",
    "quote without an end": "The quote that begins here has no end; a quote within a text is doubled, as in 'it''s'.",
    "bad number": "A number has at most 39 digits, 9 of them behind a point, and lies within 128 bits.",
    "syntax error": "No query goes on so here.",
    "not a positive query": "Certain counts are known of SELECT without grouping, DISTINCT, UNION and EXCEPT alone.",
    "kinds do not fit": "Numbers go with numbers, texts with texts and flags with flags; SUM takes numbers, conditions are flags.",
    "different numbers of columns": "Both sides of UNION and EXCEPT have as many columns.",
    "nesting": "At most 32 brackets and CASE words are open at one place.",
    "FROM items": "A SELECT names at most 8 tables: join some of them in an inner query.",
    "SELECT items": "A SELECT has at most 64 items.",
}


# Files


def short(text):
    """A field in quotes, cut where it is long."""
    text = shown(ESCAPED.sub("\ufffd", text))
    return f"'{text if len(text) <= 40 else text[:37] + '...'}'"


def table_of(question, place):
    """The table of a file word, or None where it can't be read any more."""
    try:
        return Table(question.words[place].partition("=")[0], question.path(place))
    except (IndexError, OSError):
        return None


def table_refusal(question, line, place, fault):
    """A file that is no table: one line."""
    table = table_of(question, place)
    for pattern, explain in TABLE_PATTERNS if table else ():
        found = re.fullmatch(pattern, fault)
        if found:
            try:
                return [f"{question.path(place)}: {explain(table, *map(int, found.groups()))}"]
            except IndexError:
                break
    return [f"{question.path(place)}: {fault}"]


def bad_field(table, number, column):
    record, name = table.records[number], table.columns[column]
    text = record.fields[column + table.lead]
    where = f"{record}, column {name.name}: "
    if ".." in text and table.lead < 3:
        return f"{where}{short(text)} is a range, which stands in a table whose header begins with _block,_role,_times alone"
    hint = f"; write {text.replace(',', '.')}" if re.fullmatch(r"-?[0-9]+,[0-9]+", text) else ""
    return f"{where}{short(text)} is not {KINDS.get(name.kind, name.kind)}, which {name.name}:{name.kind} wants{hint}"


def wrong_width(table, number):
    record, wanted = table.records[number], len(table.records[0].fields)
    hint = "; a field with a comma in it stands between double quotes" if len(record.fields) > wanted else ""
    return f"{record}: {len(record.fields)} field{'s' * (len(record.fields) != 1)}, where the header has {wanted}{hint}"


def bad_role(table, number):
    record = table.records[number]
    return f"{record}: {short(record.fields[1])} is no role; they are guess, alt, absent, absent-guess"


def not_text(table, number):
    record = table.records[number]
    at = next((at for at, field in enumerate(record.fields) if ESCAPED.search(field)), 0)
    names = [*LEADS[0][:table.lead], *table.names()]
    column = f", column {names[at]}" if number and at < len(names) else ""
    return f"{record}{column}: {short(record.fields[at])} is not UTF-8; save the file as UTF-8, or let blocks convert --encoding read it"


def absent_with_values(table, number):
    record = table.records[number]
    at = next(at for at, field in enumerate(record.fields) if at > 1 and field)
    names = [*LEADS[0][:table.lead], *table.names()]
    return f"{record}, column {names[at]}: {short(record.fields[at])}, where an absent record has no values"


def bad_times(table, number):
    record = table.records[number]
    return (f"{record}, column _times: {short(record.fields[2])} is no number of copies; that is a number, or three in order as in "
            "2..3..5")


def block_text(table, number):
    """The block of a number, with its records."""
    block = table.blocks()[number]
    numbers = ", ".join(str(record.number) for record in block[:6]) + (" and more" if len(block) > 6 else "")
    return f"block {short(block[0].fields[0])} (record{'s' * (len(block) > 1)} {numbers}, from line {block[0].line})"


def header_name(table, column):
    field = table.records[0].fields[column + table.lead]
    return f"record 0 (line 1), column {short(field)}"


def unknown_kind(table, column):
    return f"{header_name(table, column)}: no kind stands behind the colon; they are int, text, flag, and dec1 to dec9"


def same_name(table, first, second):
    return (f"record 0 (line 1): columns {first + 1} and {second + 1} have the name {short(table.columns[second].name)}, capitals "
            "or not")


TABLE_PATTERNS = (
    ("no header", lambda table: "no header; the file is empty" if not table.records else "no header"),
    ("record ([0-9]+) is not UTF-8", not_text),
    ("too many columns", lambda table: f"{len(table.columns)} columns; a table has at most 64"),
    ("bad name of column ([0-9]+)", lambda table, column: f"{header_name(table, column)}: a name of more than 128 bytes"),
    ("columns ([0-9]+) and ([0-9]+) have one name", same_name),
    ("unknown kind of column ([0-9]+)", unknown_kind),
    ("wrong number of fields in record ([0-9]+)", wrong_width),
    ("bad role in record ([0-9]+)", bad_role),
    ("bad field in record ([0-9]+), column ([0-9]+)", bad_field),
    ("two guesses in block ([0-9]+)", lambda table, block: f"{block_text(table, block)} has two guesses"),
    ("no guess in block ([0-9]+)", lambda table, block: f"{block_text(table, block)} has no guess; one record of a block has the role "
     "guess or absent-guess"),
    ("no alternative in block ([0-9]+)", lambda table, block: f"{block_text(table, block)} has no alternative, only absence"),
    ("two absent records in block ([0-9]+)", lambda table, block: f"{block_text(table, block)} has two absent records"),
    ("values in absent record ([0-9]+)", absent_with_values),
    ("bad number of copies in record ([0-9]+)", bad_times),
)


def file_line(text):
    """An explanation of one line about a file."""
    return lambda question, line, place: [f"{question.path(place)}: {text}"]


def plain_line(text):
    """An explanation of one line that names nothing."""
    return lambda question, line, *numbers: [f"{line}: {text}"]


def usage(question, line, place=None, other=None):
    """Words that audb refuses."""
    if place is None:
        return ["no table: a word NAME=PATH names a file; ask --help says more"]
    word = question.words[place] if place < len(question.words) else ""
    if other is not None:
        return [f"the table words {short(question.words[place])} and {short(question.words[other])} have one name"]
    name = re.sub(r"[^A-Za-z0-9_]", "_", re.sub(r"\.[^.]*$", "", word.rpartition("/")[2])) or "name"
    return [f"{short(word)} is not NAME=PATH, as {name}={word.lstrip('=') or 'file.csv'} would be"]


PATTERNS = (
    (r"query: (.+) at byte ([0-9]+)", query_refusal),
    (r"limit: (nesting|FROM items|SELECT items) at byte ([0-9]+)", query_refusal),
    (r"usage: audb answer SQL NAME=PATH\.\.", usage),
    (r"usage: table word ([0-9]+) is not NAME=PATH", usage),
    (r"usage: table words ([0-9]+) and ([0-9]+) have one name", usage),
    (r"file ([0-9]+): (.+)", table_refusal),
    (r"file ([0-9]+) cannot be read", file_line("cannot be read (a folder, or its rights forbid it)")),
    (r"file ([0-9]+) is not there", file_line("no such file")),
    (r"limit: size of file ([0-9]+)", file_line("more than 8,388,608 bytes, which a file may have")),
    (r"limit: size of all files at file ([0-9]+)", file_line("with the files before it more than 16,777,216 bytes")),
    (r"limit: rows of file ([0-9]+)", file_line("too many rows by the guess to run a plan over")),
    (r"limit: [0-9]+ table words", plain_line("a question has at most 8 tables")),
    (r"limit: [0-9]+ columns to encode", plain_line("a table of at most 20 columns can be encoded")),
    (r"limit: query of [0-9]+ bytes", plain_line("a query has at most 65,536")),
    (r"limit: too many tokens", plain_line("a query has at most 4,096 words, numbers and signs")),
    (r"a number leaves 128 bits", plain_line("a sum or a product of the answer is too large, perhaps at the upper bounds alone")),
    (r"the answer cannot be written", plain_line("its reader is gone, or the disk is full")),
    (r"out of memory", plain_line("ask for fewer rows or columns, with --compress N for a wide join")),
    (r"plan: .+", plain_line("a plan is the text that audb rewrite prints")),
)
