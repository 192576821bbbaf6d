"""What is written: block tables and plain tables as audb reads them, whole or not at all."""
import os
import re
import shutil
import stat
import sys
import tempfile

from .sources import Refusal, short

MOST_BYTES = 8_388_608
WANTS_QUOTES = re.compile('[,"\r\n]|^\ufeff')


class TooLarge(Refusal):
    """The table would pass the size of a file."""


def field_text(text):
    return '"' + text.replace('"', '""') + '"' if WANTS_QUOTES.search(text) else text


def record_text(fields):
    """A record with its end. That of one empty field is quoted, since it would be an empty line else."""
    return (",".join(map(field_text, fields)) or '""') + "\n"


class Text:
    """What is to be written, in memory or, where it is long, in a temporary file."""

    IN_MEMORY = 2**18
    PIECE = 2**16

    def __init__(self, parts):
        """Takes texts until all are read or one is refused."""
        self.file, self.piece = tempfile.SpooledTemporaryFile(self.IN_MEMORY), bytearray()
        try:
            for text in parts:
                self.add(text.encode())
            self.flush()
        except BaseException:
            self.file.close()
            raise

    def add(self, data):
        self.piece += data
        if len(self.piece) >= self.PIECE:
            self.flush()

    def flush(self):
        try:
            self.file.write(self.piece)
        except OSError as fault:
            raise Refusal(f"a temporary file: {fault.strerror or fault}") from None
        self.piece.clear()

    def copy_to(self, file):
        self.file.seek(0)
        shutil.copyfileobj(self.file, file)

    def __enter__(self):
        return self

    def __exit__(self, *fault):
        self.file.close()


def within(noun, parts, hint=""):
    """Yields the texts of a table, each with the place that it comes from, as far as a file can be so large."""
    size = 0
    for text, place, label in parts:
        size += len(text) if text.isascii() else len(text.encode())
        if size > MOST_BYTES:
            raise TooLarge(f"the {noun} would pass {MOST_BYTES:,} bytes, at {place} {short(label)}{hint}")
        yield text


def check_size(size, hint):
    """Refuses a block table of so many bytes before it is made."""
    if size > MOST_BYTES:
        raise TooLarge(f"the block table would pass {MOST_BYTES:,} bytes{hint}")


def header_part(leading, names, kinds):
    return record_text(leading + [f"{name}:{kind}" for name, kind in zip(names, kinds)]), "record", "0"


def block_records(block, width, copies):
    """Yields the records of a block, with numbers of copies where `copies` says so."""
    for at, row in enumerate(block.rows):
        times = [row.copies] if copies else []
        yield [block.label, "guess" if at == block.guess else "alt", *times, *row.cells]
    if block.optional:
        yield [block.label, "absent" if block.guess is not None else "absent-guess"] + [""] * (copies + width)


def block_parts(names, kinds, blocks, copies):
    """Yields the records of a block table as texts, each with the place that it comes from."""
    yield header_part(["_block", "_role"] + ["_times"] * copies, names, kinds)
    for block in blocks:
        for fields in block_records(block, len(names), copies):
            yield record_text(fields), "block", block.label


def plain_parts(names, kinds, blocks):
    """Yields the records of a plain table as texts, each with the place that it comes from."""
    yield header_part([], names, kinds)
    for block in blocks:
        yield record_text(block.rows[0].cells), "record", block.label


def block_text(names, kinds, blocks, copies, hint=""):
    """Returns a block table. The hint says what makes a table smaller."""
    return Text(within("block table", block_parts(names, kinds, blocks, copies), hint))


def plain_text(names, kinds, blocks):
    """Returns a plain table, whose blocks are a row each."""
    return Text(within("table", plain_parts(names, kinds, blocks)))


def put(text, path):
    """Writes all of a text or nothing: to the standard output, or by way of a file beside the one that is meant."""
    if path is None:
        text.copy_to(sys.stdout.buffer)
        sys.stdout.buffer.flush()
    elif os.path.exists(path) and not os.path.isfile(path):
        with open(path, "wb") as file:
            text.copy_to(file)
    else:
        put_file(text, os.path.realpath(path))


def put_file(text, path):
    """Puts a file at a path, where it stands whole or not at all."""
    mode = stat.S_IMODE(os.stat(path).st_mode) if os.path.exists(path) else 0o666 & ~mask()
    handle, beside = tempfile.mkstemp(dir=os.path.dirname(path), prefix=".blocks-")
    try:
        with open(handle, "wb") as file:
            text.copy_to(file)
        os.chmod(beside, mode)
        os.replace(beside, path)
    except BaseException:
        os.unlink(beside)
        raise


def mask():
    """The permissions that a new file doesn't get."""
    current = os.umask(0)
    os.umask(current)
    return current
