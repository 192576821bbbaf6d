"""Files as people have them, as records with their places: encodings, separators and lines."""
import csv
import io
import re
import sys
from array import array
from itertools import chain

ENCODINGS = {"utf-8": "utf-8-sig", "latin-1": "latin-1", "windows-1252": "cp1252", "utf-16": "utf-16"}
MARKS = ((b"\xef\xbb\xbf", "utf-8"), (b"\xff\xfe", "utf-16"), (b"\xfe\xff", "utf-16"))
ESCAPED = re.compile("[\udc80-\udcff]")
OTHERS = "--encoding latin-1, windows-1252 or utf-16 reads what isn't"


class Refusal(Exception):
    """What is wrong with the input, in one line."""


class Source:
    """A file that is read: the line at which each of its records begins, and whether its rows have numbers of copies."""

    __slots__ = ("path", "lines", "copies")

    def __init__(self, path):
        self.path, self.lines, self.copies = path, array("L"), False

    def place(self, record):
        return f"{shown(self.path)}: record {record} (line {self.lines[record]})"


class Record:
    """Fields as they are read, and the record's number."""

    __slots__ = ("number", "fields")

    def __init__(self, number, fields):
        self.number, self.fields = number, fields


def shown(path):
    return "standard input" if path == "-" else path


def short(text):
    return repr(text if len(text) <= 40 else text[:37] + "...")


def read_bytes(path):
    """Returns all bytes of a file, or of the standard input."""
    try:
        if path == "-":
            return sys.stdin.buffer.read()
        with open(path, "rb") as file:
            return file.read()
    except OSError as fault:
        raise Refusal(f"{shown(path)}: {fault.strerror or fault}") from None


def encoding_of(path, data, wanted):
    """Returns the encoding of a file, and refuses another than the one that its first bytes tell."""
    marked = next((name for mark, name in MARKS if data.startswith(mark)), None)
    if marked and marked != (wanted or "utf-8"):
        raise Refusal(f"{shown(path)}: {marked.upper()}; --encoding {marked} reads it")
    return wanted or "utf-8"


def codec_of(data, encoding):
    """Returns how an encoding is decoded: UTF-16 without a mark has its lesser bytes first."""
    marked = any(data.startswith(mark) for mark, _ in MARKS)
    return "utf-16-le" if encoding == "utf-16" and not marked else ENCODINGS[encoding]


def is_text(data, codec):
    try:
        data.decode(codec)
    except UnicodeDecodeError:
        return False
    return True


def lines_of(data, codec):
    """Returns the lines with their ends. Bytes that are not UTF-8 stand in them as lone surrogates."""
    return io.TextIOWrapper(io.BytesIO(data), codec, "surrogateescape", newline="")


def header_line(lines):
    """Returns the text outside quotes of the first record that is not an empty line."""
    parts, quoted = [], False
    for line in lines:
        pieces = line.split('"')
        parts += pieces[quoted::2]
        quoted ^= len(pieces) % 2 == 0
        if not quoted and line.strip("\r\n"):
            break
    return "".join(parts)


def separated(data, codec, wanted):
    """Returns the lines behind a line `sep=` that a spreadsheet may have put first, their separator, and the first one's
    number."""
    told = re.fullmatch(r"sep=([^\"\r\n])\r?\n", lines_of(data, codec).readline())
    lines, skipped = lines_of(data, codec), bool(told)
    for _ in range(skipped):
        lines.readline()
    separator = wanted or (told and told[1])
    if separator is None:
        line = header_line(lines_of(data, codec))
        separator = max(",;\t", key=line.count)
    return lines, separator, 1 + skipped


def records_of(source, lines, separator, line):
    """Yields each record that is not an empty line. `line` is the number of the first line."""
    reader = csv.reader(lines, delimiter=separator, strict=True)
    before = line
    try:
        for fields in reader:
            if fields:
                source.lines.append(line)
                yield Record(len(source.lines) - 1, fields)
            line = reader.line_num + before
    except csv.Error as fault:
        source.lines.append(line)
        text = "a quote without an end" if "unexpected end" in str(fault) else str(fault)
        raise Refusal(f"{source.place(len(source.lines) - 1)}: {text}") from None


def only_text(source, header, found):
    """Yields the records, and refuses the first one with a field that is not UTF-8."""
    for record in found:
        for at, field in enumerate(record.fields):
            if ESCAPED.search(field):
                column = f", column {header[at]}" if at < len(header) else ""
                raise Refusal(f"{source.place(record.number)}{column}: not UTF-8; {OTHERS}")
        yield record


def check_width(source, header, record):
    """Refuses a record of another width than the header's."""
    if len(record.fields) != len(header):
        raise Refusal(f"{source.place(record.number)}: {len(record.fields)} fields, where the header has {len(header)}")


def read_records(path, options):
    """Returns the file, its header, its other records, and the separator."""
    data, source = read_bytes(path), Source(path)
    encoding = encoding_of(path, data, options.encoding)
    codec = codec_of(data, encoding)
    whole = is_text(data, codec)
    if not whole and encoding != "utf-8":
        raise Refusal(f"{shown(path)}: not {encoding}")
    lines, separator, line = separated(data, codec, options.separator)
    found = records_of(source, lines, separator, line)
    try:
        first = next(found)
    except StopIteration:
        raise Refusal(f"{shown(path)}: no header") from None
    header = first.fields
    if options.no_header:
        header, found = [""] * len(header), chain([first], found)
    if ESCAPED.search("".join(header)):
        raise Refusal(f"{source.place(0)}: not UTF-8; {OTHERS}")
    return source, header, found if whole else only_text(source, header, found), separator
