"""The header of a table file, and its records as `audb` reads them: docs/FORMATS.md."""
import csv
import io
import re

KIND = re.compile("int|text|flag|dec[1-9]")
LARGEST_HEADER = 1 << 20
MOST_FIELDS = 64
LONGEST_NAME = 128
BYTE_ORDER_MARK = b"\xef\xbb\xbf"


class Refused(Exception):
    """What is refused, and why."""


class Layout:
    """What a header says: the fields before the columns, the columns' names, and their kinds where they are written."""

    def __init__(self, fields):
        self.lead = next((lead for lead in (["_block", "_role", "_times"], ["_block", "_role"]) if fields[:len(lead)] == lead), [])
        self.names, self.kinds = [], []
        if len(fields) > MOST_FIELDS:
            raise Refused("too many columns")
        for place, field in enumerate(fields[len(self.lead):]):
            self.add(place, field)

    @property
    def width(self):
        """How many fields a record has."""
        return len(self.lead) + len(self.names)

    def add(self, place, field):
        """Takes the header field of a column."""
        name, colon, kind = field.rpartition(":")
        written = kind if colon and KIND.fullmatch(kind) else None
        name = (name if written or colon and self.lead else field) or f"col{place + 1}"
        if len(name.encode()) > LONGEST_NAME:
            raise Refused(f"bad name of column {place}")
        if colon and self.lead and not written:
            raise Refused(f"unknown kind of column {place}")
        same = [i for i, other in enumerate(self.names) if lowered(other) == lowered(name)]
        if same:
            raise Refused(f"columns {same[0]} and {place} have one name")
        self.names.append(name)
        self.kinds.append(written)

    def header(self):
        """Returns the header with all kinds written, as a line."""
        out = io.StringIO()
        csv.writer(out, lineterminator="\n").writerow([*self.lead, *map(":".join, zip(self.names, self.kinds))])
        return out.getvalue()


def lowered(name):
    """Returns a name with its ASCII letters small."""
    return re.sub("[A-Z]", lambda letter: letter[0].lower(), name)


def first_record(path):
    """Returns the fields of a file's first record, and the byte behind it."""
    with open(path, "rb") as file:
        data = file.read(LARGEST_HEADER)
    at = start = past_ends(data, len(BYTE_ORDER_MARK) if data.startswith(BYTE_ORDER_MARK) else 0)
    # A quote opens a field only where the field begins; elsewhere it is a character like others.
    quoted, begins = False, True
    while at < len(data) and (quoted or data[at] not in b"\r\n"):
        is_quote = data[at] == ord('"') and (quoted or begins)
        quoted, begins = quoted != is_quote, data[at] == ord(",") and not quoted or is_quote and quoted
        at += 1
    if at == LARGEST_HEADER:
        raise Refused("the header is too long")
    try:
        fields = next(csv.reader(io.StringIO(data[start:at].decode("utf-8"), newline="")), None)
    except UnicodeDecodeError as error:
        raise Refused("record 0 is not UTF-8") from error
    if not fields:
        raise Refused("no header")
    return fields, past_ends(data, at)


def past_ends(data, at):
    """Returns the place behind line ends."""
    while at < len(data) and data[at] in b"\r\n":
        at += 1
    return at


def records(path):
    """Yields the records of a file below its header with their numbers from 1, as `audb` reads them."""
    csv.field_size_limit(1 << 30)
    with open(path, encoding="utf-8-sig", errors="surrogateescape", newline="") as file:
        found = (record for record in csv.reader(file) if record)
        next(found, None)
        yield from enumerate(found, 1)


def is_text(record):
    """Whether each field of a record is UTF-8."""
    try:
        "".join(record).encode("utf-8")
        return True
    except UnicodeEncodeError:
        return False


def layout(path):
    """Returns the layout of a file, and the byte where its records begin. A record that is no text is named before all else."""
    fields, start = first_record(path)
    try:
        return Layout(fields), start
    except Refused as refused:
        look_for_text(path)
        raise refused


def look_for_text(path):
    """Refuses a file for its first record that is no text."""
    for number, record in records(path):
        if not is_text(record):
            raise Refused(f"record {number} is not UTF-8")
