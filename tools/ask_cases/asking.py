"""Runs of ask and of audb in a folder of small files, and what a case asks of them."""
import io
import os
import sqlite3
import subprocess
import sys
import tempfile
import unittest

from answers.command import main

HERE = os.path.dirname(os.path.dirname(os.path.abspath(__file__)))
TOP = os.path.dirname(HERE)
# The path of audb, which tools/ask_test.py is given.
PROGRAM = None
ORDERS = ("_block,_role,id:int,city:text,amount:int\na,guess,1,Oslo,10\na,alt,1,Bergen,12\nb,guess,2,Bergen,5\nc,guess,3,Oslo,7\n"
          "c,absent,,,\n")
RATES = "city,fee,since\nOslo,3,\nBergen,4,2024\nMoss,5,\n"
PRICES = "item,price,left\ntea,2.50,3\ncup,14.2,\npot,18.90,1\n"
FILES = {"orders.csv": ORDERS, "rates.csv": RATES, "prices.csv": PRICES}
WORDS = ["orders=orders.csv", "rates=rates.csv", "prices=prices.csv"]
SUMS = "SELECT city, SUM(amount) AS s FROM orders GROUP BY city"


def write_files(folder, files):
    for name, text in files.items():
        with open(f"{folder}/{name}", "wb") as file:
            file.write(text if isinstance(text, bytes) else text.encode())


def read(path):
    with open(path, "rb") as file:
        return file.read()


class Done:
    """How a run of ask ended: its status, what it put on both outputs, and the files that the folder had then."""

    def __init__(self, status, out, err, left):
        self.status, self.out, self.err, self.left = status, out, err, left


def ask(words, files=None, stdin=b"", program=True):
    """Runs ask in a folder of these files, or of FILES."""
    files = FILES if files is None else files
    with tempfile.TemporaryDirectory() as folder:
        write_files(folder, files)
        back, streams = os.getcwd(), (sys.stdin, sys.stdout, sys.stderr)
        os.chdir(folder)
        sys.stdin, sys.stdout, sys.stderr = io.TextIOWrapper(io.BytesIO(stdin)), io.TextIOWrapper(io.BytesIO()), io.StringIO()
        try:
            status = main([*(["--audb", PROGRAM] if program else []), *words])
        except SystemExit as leaving:
            status = leaving.code
        finally:
            sys.stdout.flush()
            out, err = sys.stdout.buffer.getvalue().decode(), sys.stderr.getvalue()
            sys.stdin, sys.stdout, sys.stderr = streams
            os.chdir(back)
        left = {name: read(f"{folder}/{name}") for name in os.listdir(folder)}
    return Done(status, out, err, left)


def audb(words, files=None):
    """Runs audb in a folder of these files, or of FILES."""
    with tempfile.TemporaryDirectory() as folder:
        write_files(folder, FILES if files is None else files)
        return subprocess.run([PROGRAM, *words], cwd=folder, stdin=subprocess.DEVNULL, capture_output=True, check=False)


def meaning(query):
    """The rows that SQLite gives for a query over the guesses of FILES, in some order."""
    database = sqlite3.connect(":memory:")
    database.executescript("""
        PRAGMA case_sensitive_like = ON;
        CREATE TABLE orders (id INTEGER, city TEXT, amount INTEGER);
        INSERT INTO orders VALUES (1, 'Oslo', 10), (2, 'Bergen', 5), (3, 'Oslo', 7);
        CREATE TABLE rates (city TEXT, fee INTEGER, since TEXT);
        INSERT INTO rates VALUES ('Oslo', 3, ''), ('Bergen', 4, '2024'), ('Moss', 5, '');
        CREATE TABLE prices (item TEXT, price TEXT, left TEXT);
        INSERT INTO prices VALUES ('tea', '2.50', '3'), ('cup', '14.2', ''), ('pot', '18.90', '1');
    """)
    return sorted(database.execute(query).fetchall())


def spent(words, folder):
    """Returns the seconds of processor time that a command takes, with all that it runs."""
    before = os.times()
    subprocess.run(words, cwd=folder, stdin=subprocess.DEVNULL, stdout=subprocess.DEVNULL, check=True)
    after = os.times()
    return after.children_user + after.children_system - before.children_user - before.children_system


class Cases(unittest.TestCase):
    maxDiff = None

    def shows(self, words, text, files=None):
        """A question is answered by this text."""
        done = ask(words, files)
        self.assertEqual((done.status, done.out, done.err), (0, text, ""))

    def refuses(self, words, status, line, files=None, **more):
        """A question is refused by this one line, and no file is written or changed."""
        done = ask(words, files, **more)
        self.assertEqual((done.status, done.out, done.err), (status, "", f"ask: {line}\n"))
        self.assertEqual(sorted(done.left), sorted(FILES if files is None else files))
