"""The command ask: its words, and the way from them to an answer or to what is wrong."""
import argparse
import os
import re
import stat
import sys
import tempfile

from answers import listing, page, program
from answers.outcome import QUERY, WORDS, WRITE, Refused, of_file
from answers.queries import written
from answers.refusals import Question, explained
from answers.rows import MARKS, read_answer
from answers.tables import Share, Table

TABLE_WORD = re.compile(r"[A-Za-z_][A-Za-z0-9_]*=.+", re.DOTALL)
DESCRIPTION = """Asks a question over tables whose values are unsure, and shows the answer to people.

Each row of the answer begins with a mark: = where it is there in every world, ~ where it is there by the guess, ? where it is
only possible. A cell that is certain stands as its value, another as its guess with both bounds, as 5 [5 .. 17], and so does the
number of rows, in the last column. Without a query all of one table is shown. Where audb refuses a question, ask says where and
why, and has audb's status."""


class Parser(argparse.ArgumentParser):
    """A parser whose refusal is one line."""

    def error(self, message):
        raise Refused(WORDS, f"{message}; ask --help says more")


def number(least, most):
    """Returns what reads a word as a number between two others."""
    def read(word):
        if not re.fullmatch("[0-9]{1,18}", word, re.ASCII) or not least <= int(word) <= most:
            raise argparse.ArgumentTypeError(f"{word!r} is no number from {least} to {most}")
        return int(word)

    return read


def parser_of_words():
    parser = Parser(prog="ask", description=DESCRIPTION, formatter_class=argparse.RawDescriptionHelpFormatter, allow_abbrev=False,
                    usage="ask [OPTION..] [QUERY | --file Q.sql] NAME=PATH..",
                    epilog='Example: ask --sort total:desc --limit 5 "SELECT city, SUM(amount) AS total FROM orders GROUP BY city" '
                           "orders=orders.csv")
    parser.add_argument("words", nargs="*", metavar="QUERY NAME=PATH", help="the query, and the files of its tables by their names")
    parser.add_argument("--file", metavar="Q.sql", help="the file that has the query (-: the standard input)")
    parser.add_argument("--sort", action="append", default=[], metavar="COLUMN[:desc]",
                        help="order the rows by the guesses of a column; may be given again, for rows that agree in it")
    parser.add_argument("--limit", type=number(0, 10**18), metavar="N", help="show the first N rows")
    parser.add_argument("--only", choices=MARKS, help="show the rows of one mark: certain, expected, or (only) possible")
    parser.add_argument("--combine", action="store_true", help="one row for each guess, as audb answer --combine")
    parser.add_argument("--points", action="store_true",
                        help="narrow groups where keys are unsure, with rows for other keys, as audb answer --points")
    parser.add_argument("--workers", type=number(1, 64), metavar="N", help="the threads that audb takes, 1 to 64")
    parser.add_argument("--compress", type=number(1, 1000), metavar="N",
                        help="answer wide joins by N rows a side, as audb answer --compress=N")
    parser.add_argument("--json", action="store_true", help="print the answer as JSON")
    parser.add_argument("--html", metavar="FILE", help="write the answer as a page, whole or not at all, and print no table")
    parser.add_argument("--audb", metavar="PATH", help="the program (else: the one beside this tool, or on the path)")
    return parser


def query_of(options):
    """Returns the query and the table words."""
    words = options.words
    if options.file is not None:
        return query_file(options.file), words
    if words and not TABLE_WORD.fullmatch(words[0]):
        return words[0], words[1:]
    if len(words) == 1:
        return f"SELECT * FROM {written(words[0].partition('=')[0])}", words
    raise Refused(WORDS, "no query; it stands before the tables, or in the file that --file names")


def query_file(path):
    """Returns the text of a file with a query."""
    try:
        if path == "-":
            data = sys.stdin.buffer.read()
        else:
            with open(path, "rb") as file:
                data = file.read()
    except OSError as fault:
        raise of_file(fault, path) from None
    try:
        return data.removeprefix(b"\xef\xbb\xbf").decode("utf-8")
    except UnicodeDecodeError as fault:
        raise Refused(QUERY, f"{path}: byte {fault.start} is not UTF-8; save the query as UTF-8") from None


def only_text(words):
    """Refuses words that are not UTF-8."""
    if any("\udc80" <= c <= "\udcff" for word in words for c in word):
        raise Refused(WORDS, "a word that is not UTF-8")


class Asking:
    """A question and the program that answers it."""

    def __init__(self, options):
        self.options = options
        self.query, self.tables = query_of(options)
        self.program = program.find(options.audb)

    def settings(self):
        """The words of audb for this question's options."""
        numbers = [f"--{name}={value}" for name in ("workers", "compress")
                   for value in [getattr(self.options, name)] if value is not None]
        flags = [f"--{name}" for name in ("combine", "points") if getattr(self.options, name)]
        return flags + numbers

    def run(self, *words):
        """Runs audb on a query, which stands second of these words. One that begins with a hyphen gets a blank before it."""
        command, text, *settings = words
        guarded = " " * text.startswith("-") + text
        status, out, err = program.run(self.program, [command, *settings, guarded, *self.tables])
        line = err.decode("utf-8", "replace").rstrip("\n").removeprefix("audb: ")
        if guarded != text:
            line = re.sub(r"(?<=at byte )[0-9]+", lambda found: str(int(found[0]) - 1), line)
        return status, out, line

    def answer(self):
        """Returns the answer, or refuses as audb does."""
        status, out, line = self.run("answer", self.query, *self.settings())
        if status < 0:
            raise Refused(128 - status, f"audb was ended by signal {-status}")
        if status:
            question = Question(self.query, self.tables, self.refusal)
            raise Refused(status, *explained(line, question))
        return read_answer(out.decode("utf-8"))

    def refusal(self, text):
        """Returns the line by which audb refuses a query over the tables before it evaluates it, '' for none."""
        status, _, line = self.run("rewrite", text)
        return line if status else ""


def shaped(answer, options):
    """Orders and cuts an answer as the words say."""
    answer.sort(options.sort)
    if options.only:
        answer.keep(options.only)
    if options.limit is not None:
        answer.cut(options.limit)
    return answer


def described(words):
    """The tables of a question, each with how much of it is unsure."""
    tables = [Table(word.partition("=")[0], word.partition("=")[2]) for word in words]
    return [(table, Share(table)) for table in tables]


def write_whole(path, data):
    """Writes a file whole or not at all. A device or a pipe is written as it is."""
    try:
        if os.path.exists(path) and not stat.S_ISREG(os.stat(path).st_mode):
            with open(path, "wb") as file:
                file.write(data)
            return
        with tempfile.NamedTemporaryFile(dir=os.path.dirname(os.path.realpath(path)), delete=False) as file:
            try:
                file.write(data)
                file.close()
                mask = os.umask(0)
                os.umask(mask)
                os.chmod(file.name, os.stat(path).st_mode & 0o7777 if os.path.exists(path) else 0o666 & ~mask)
                os.replace(file.name, os.path.realpath(path))
            except BaseException:
                os.unlink(file.name)
                raise
    except OSError as fault:
        raise Refused(WRITE, f"{path}: {fault.strerror or fault}") from None


def put(text):
    """Writes a text to the standard output. A reader that is gone is a refusal of writing."""
    try:
        sys.stdout.buffer.write(text.encode("utf-8"))
        sys.stdout.flush()
    except OSError as fault:
        os.dup2(os.open(os.devnull, os.O_WRONLY), sys.stdout.fileno())
        raise Refused(WRITE, f"standard output: {fault.strerror or fault}") from None


def work(words):
    """Does what the words ask for."""
    options = parser_of_words().parse_intermixed_args(words)
    only_text(words)
    asking = Asking(options)
    answer = shaped(asking.answer(), options)
    if options.html is not None:
        write_whole(options.html, page.page(answer, asking.query, described(asking.tables)).encode("utf-8"))
    if options.json:
        put(listing.as_json(answer, asking.query))
    elif options.html is not None:
        put(f"{options.html}: {listing.summary(answer)}\n")
    else:
        put("\n".join(listing.table(answer)) + "\n")


def main(words):
    """Runs the command, and returns its status."""
    try:
        work(words)
    except Refused as refused:
        first, *rest = refused.lines
        print("\n".join([f"ask: {listing.shown(first)}", *map(listing.shown, rest)]), file=sys.stderr)
        return refused.status
    except KeyboardInterrupt:
        return 130
    return 0
