"""The bytes of a table file for PostgreSQL's COPY: as they are, where COPY reads the same records as `audb`, or written anew."""
import re
import zlib

from table_files import Refused, is_text, records

PIECE = 1 << 20
QUOTED = re.compile(rb'(?:(?<=[,\r\n])|\A)"[^"]*(?:""[^"]*)*"')
OPEN = re.compile(rb'(?:(?<=[,\r\n])|\A)"')
END_OF_COPY = re.compile(rb"(?:\A|[\r\n])\\\.(?:[\r\n]|\Z)")
ESCAPES = str.maketrans({"\\": "\\\\", "\t": "\\t", "\n": "\\n", "\r": "\\r"})


def opening(bare):
    """Returns the quote that opens a field in bytes whose other quoted fields have letters in their place, or None."""
    return OPEN.search(bare) if b'"' in bare else None


class Misread(Refused):
    """What COPY would read otherwise than `audb`."""


class Pieces:
    """The bytes of a file from a place on, piece by piece, each of whole records."""

    def __init__(self, file, start):
        self.file, self.end = file, b""
        file.seek(start)

    def __iter__(self):
        rest = b""
        while True:
            read = self.file.read(PIECE)
            data = rest + read
            bare = self.bare(data)
            cut = self.cut(bare) if read else len(bare)
            self.look(data[:cut], bare[:cut])
            if cut:
                yield data[:cut]
            if not read:
                yield b"" if not data or data.endswith(b"\n") else self.end or b"\n"
                return
            rest = data[cut:]

    @staticmethod
    def bare(data):
        """Returns bytes with letters in the place of quoted fields."""
        return QUOTED.sub(lambda field: b"q" * len(field[0]), data) if b'"' in data else data

    @staticmethod
    def cut(bare):
        """Returns the end of the last whole record. The last byte may be the half of a line end, and a quoted field may go on."""
        opened = opening(bare)
        last = opened.start() if opened else len(bare) - 1
        return max(bare.rfind(b"\n", 0, last), bare.rfind(b"\r", 0, last)) + 1

    def look(self, data, bare):
        """Refuses what COPY would read otherwise."""
        if b"\0" in data:
            raise Misread("a zero byte")
        if b"\\." in data and END_OF_COPY.search(data):
            raise Misread("a line that is \\.")
        if opening(bare):
            raise Misread("a quote without an end")
        if b'"' in bare:
            raise Misread("a quote inside a field")
        self.look_at_ends(bare)

    def look_at_ends(self, bare):
        """Refuses line ends of several sorts, and blank lines."""
        if not self.end:
            found = re.search(rb"\r\n?|\n", bare)
            self.end = found[0] if found else b""
            if self.end == b"\r":
                raise Misread("a line end that is a carriage return alone")
        others = bare.replace(self.end, b"") if self.end else bare
        if b"\r" in others or b"\n" in others:
            raise Misread("line ends of several sorts")
        if self.end and (bare.startswith(self.end) or self.end * 2 in bare):
            raise Misread("a blank line")


class Rewritten:
    """The records of a file as COPY's text format has them, numbered, up to the first that has a wrong number of fields."""

    def __init__(self, path, layout, shards=1):
        self.path, self.layout, self.shards, self.wrong = path, layout, shards, None

    def __iter__(self):
        """Yields lines with the shard to which each belongs: the records of a block belong to one."""
        for number, record in records(self.path):
            if not is_text(record):
                raise Refused(f"record {number} is not UTF-8")
            if self.wrong or len(record) != self.layout.width:
                self.wrong = self.wrong or number
                continue
            if any("\0" in field for field in record):
                raise Refused(f"a zero byte in record {number}")
            shard = (zlib.crc32(record[0].encode()) if self.layout.lead else number) % self.shards
            yield shard, "\t".join([str(number), *(field.translate(ESCAPES) for field in record)]).encode() + b"\n"
