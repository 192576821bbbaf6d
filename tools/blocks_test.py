#!/usr/bin/env python3
"""Tests of tools/blocks.

Usage: tools/blocks_test.py [PROGRAM] [TEST..]
With the path of audb as PROGRAM the tables that are made here are read by it, too. The last line is unittest's own.
"""
import importlib.machinery
import importlib.util
import io
import os
import random
import subprocess
import sys
import tempfile
import unittest

sys.dont_write_bytecode = True
PATH = os.path.join(os.path.dirname(os.path.abspath(__file__)), "blocks")
LOADER = importlib.machinery.SourceFileLoader("blocks", PATH)
blocks = importlib.util.module_from_spec(importlib.util.spec_from_loader("blocks", LOADER))
LOADER.exec_module(blocks)
PROGRAM = None
MOST_BYTES = 8_388_608
OTHERS = "--encoding latin-1, windows-1252 or utf-16 reads what isn't"
PEOPLE = "id,town,age\n1,Oslo,34\n2,Bergen,\n3,Oslo,30\n4,Moss,27\n"


def field_text(text):
    return '"' + text.replace('"', '""') + '"' if any(c in text for c in ',"\r\n') else text


def read(path):
    with open(path, "rb") as file:
        return file.read()


def run(words, files, stdin=b""):
    """Runs a command in a folder of these files, and returns its status, what it put on both outputs, and the folder's files."""
    with tempfile.TemporaryDirectory() as folder:
        for name, text in files.items():
            with open(f"{folder}/{name}", "wb") as file:
                file.write(text if isinstance(text, bytes) else text.encode())
        back, streams = os.getcwd(), (sys.stdin, sys.stdout, sys.stderr)
        os.chdir(folder)
        sys.stdin, sys.stdout, sys.stderr = io.TextIOWrapper(io.BytesIO(stdin)), io.TextIOWrapper(io.BytesIO()), io.StringIO()
        try:
            status = blocks.main(words)
        except SystemExit as leaving:
            status = leaving.code
        finally:
            sys.stdout.flush()
            out, err = sys.stdout.buffer.getvalue(), sys.stderr.getvalue()
            sys.stdin, sys.stdout, sys.stderr = streams
            os.chdir(back)
        left = {name: read(f"{folder}/{name}") for name in os.listdir(folder)}
    return status, out, err, left


def answer(table):
    """What audb says of a block table."""
    with tempfile.TemporaryDirectory() as folder:
        with open(f"{folder}/t.csv", "wb") as file:
            file.write(table)
        return subprocess.run([PROGRAM, "answer", "SELECT * FROM t", f"t={folder}/t.csv"], stdin=subprocess.DEVNULL,
                              capture_output=True)


class Cases(unittest.TestCase):
    def makes(self, words, files, table, warnings=0, stdin=b""):
        """A command makes this table, with so many lines of warning."""
        status, out, err, _ = run(words.split(), files, stdin)
        self.assertEqual((status, out.decode(), err.count("\n")), (0, table, warnings), err)
        if PROGRAM:
            done = answer(out)
            self.assertEqual(done.returncode, 0, (table, done.stderr))

    def refuses(self, words, files, line, status=1):
        """A command is refused by this line, and writes nothing."""
        got, out, err, left = run(words.split(), files)
        self.assertEqual((got, out, err), (status, b"", f"blocks: {line}\n"))
        self.assertEqual(left, {name: text if isinstance(text, bytes) else text.encode() for name, text in files.items()})


class Merge(Cases):
    def test_rows_of_one_key_are_a_block(self):
        a, b = "id,name,city\n1,Ada,Oslo\n2,Bo,Moss\n", "id,name,city\n2,Bo,Moss\n1,Ada,Moss\n7,Cleo,Oslo\n"
        self.makes("merge --key id a.csv b.csv", {"a.csv": a, "b.csv": b},
                   "_block,_role,id:int,name:text,city:text\n1,guess,1,Ada,Oslo\n1,alt,1,Ada,Moss\n2,guess,2,Bo,Moss\n"
                   "7,guess,7,Cleo,Oslo\n")

    def test_another_file_guesses(self):
        self.makes("merge --key id a.csv b.csv --guess b.csv", {"a.csv": "id,x\n1,5\n2,6\n", "b.csv": "id,x\n1,7\n"},
                   "_block,_role,id:int,x:int\n1,guess,1,7\n1,alt,1,5\n2,guess,2,6\n")

    def test_the_guess_world_is_the_file_of_the_guesses(self):
        files = {"a.csv": "id,x\n1,5\n2,6\n", "b.csv": "id,x\n1,5\n3,7\n"}
        self.makes("merge --key id --optional a.csv b.csv", files,
                   "_block,_role,id:int,x:int\n1,guess,1,5\n2,guess,2,6\n2,absent,,\n3,alt,3,7\n3,absent-guess,,\n")

    def test_columns_go_by_their_names(self):
        self.makes("merge --key ID a.csv b.csv", {"a.csv": "id,x,Y\n1,5,a\n", "b.csv": "y,ID,x\nb,1,5\n"},
                   "_block,_role,id:int,x:int,Y:text\n1,guess,1,5,a\n1,alt,1,5,b\n")

    def test_common_columns(self):
        files = {"a.csv": "id,x,y\n1,5,a\n", "b.csv": "z,id,x\nb,1,5\n"}
        self.makes("merge --key id --common a.csv b.csv", files, "_block,_role,id:int,x:int\n1,guess,1,5\n")
        self.refuses("merge --key id a.csv b.csv", files, "a.csv: no column z, which b.csv has (--common leaves it out)")

    def test_keys_of_several_columns_never_run_together(self):
        self.makes("merge --key a --key b a.csv", {"a.csv": "a,b\nx/y,z\nx,y/z\n"},
                   "_block,_role,a:text,b:text\nx\\/y/z,guess,x/y,z\nx/y\\/z,guess,x,y/z\n")

    def test_numbers_are_compared_as_numbers(self):
        self.makes("merge --key id a.csv b.csv", {"a.csv": "id,x\n7,-0\n", "b.csv": "id,x\n007,0\n"},
                   "_block,_role,id:int,x:int\n7,guess,7,0\n", warnings=2)
        self.makes("merge --key id --text id a.csv b.csv", {"a.csv": "id\n7\n", "b.csv": "id\n007\n"},
                   "_block,_role,id:text\n7,guess,7\n007,guess,007\n")

    def test_refusals(self):
        one = {"a.csv": "id,x\n1,2\n1,3\n"}
        self.refuses("merge --key id a.csv", one, "a.csv: record 2 (line 3), column id: record 1 has the key '1' too")
        self.refuses("merge --key no a.csv", one, "a.csv: no column no; there are id, x")
        self.refuses("merge --key id a.csv --guess c.csv", one, "c.csv: --guess names none of the files")
        self.refuses("merge --key id a.csv b.csv", one, "b.csv: No such file or directory")
        self.refuses("merge --key id a.csv", {"a.csv": "id,x\n,2\n"}, "a.csv: record 1 (line 2), column id: an empty key")
        self.refuses("merge --key id a.csv b.csv", {"a.csv": "id:int\n1\n", "b.csv": "id:text\n1\n"},
                     "column id is int in a.csv and text in b.csv")
        self.refuses("merge --key id a.csv", {"a.csv": "_block,_role,id\n1,guess,2\n1,alt,3\n"},
                     "a.csv: record 2 (line 3), column id: its block has the keys '2' and '3'")
        self.refuses("merge --key id a.csv", {"a.csv": "_block,_role,_times,id:int\n1,guess,2,1..2..3\n"},
                     "a.csv: record 1 (line 2), column id: 1..2..3 is a range, which can't be compared")

    def test_numbers_are_compared_in_units(self):
        self.makes("merge --key id a.csv b.csv", {"a.csv": "id,x:dec1\n1,2.5\n2,3\n", "b.csv": "id,x:dec2\n1,2.50\n2,3.01\n"},
                   "_block,_role,id:int,x:dec2\n1,guess,1,2.50\n2,guess,2,3.00\n2,alt,2,3.01\n")
        self.makes("merge --key id a.csv b.csv", {"a.csv": "id,x\n1,2.5\n", "b.csv": "id,x\n1.0,2.50\n"},
                   "_block,_role,id:dec1,x:dec2\n1.0,guess,1.0,2.50\n", warnings=1)

    def test_blocks_of_one_key_are_a_block(self):
        a = "_block,_role,_times,id:int,x:int\nk,guess,2,1,5\nk,alt,0..1..3,1,1..5..9\nk,absent,,,\nm,guess,1,2,7\n"
        b = "x,id\n5,1\n7,2\n8,3\n"
        self.makes("merge --key id a.csv b.csv", {"a.csv": a, "b.csv": b},
                   "_block,_role,_times,id:int,x:int\n1,guess,2,1,5\n1,alt,0..1..3,1,1..5..9\n1,alt,1,1,5\n1,absent,,,\n"
                   "2,guess,1,2,7\n3,guess,1,3,8\n")
        self.makes("merge --key id b.csv a.csv --optional", {"a.csv": a, "b.csv": b},
                   "_block,_role,_times,x:int,id:int\n1,guess,1,5,1\n1,alt,2,5,1\n1,alt,0..1..3,1..5..9,1\n1,absent,,,\n"
                   "2,guess,1,7,2\n3,guess,1,8,3\n3,absent,,,\n")


class Impute(Cases):
    def test_values_of_the_column(self):
        self.makes("impute a.csv --column age", {"a.csv": PEOPLE},
                   "_block,_role,id:int,town:text,age:int\n1,guess,1,Oslo,34\n2,guess,2,Bergen,30\n2,alt,2,Bergen,27\n"
                   "2,alt,2,Bergen,34\n3,guess,3,Oslo,30\n4,guess,4,Moss,27\n")

    def test_the_most_frequent_text_is_the_guess(self):
        self.makes("impute a.csv --column t --from-column", {"a.csv": "id,t\n1,b\n2,a\n3,\n4,a\n"},
                   "_block,_role,id:int,t:text\n1,guess,1,b\n2,guess,2,a\n3,guess,3,a\n3,alt,3,b\n4,guess,4,a\n")

    def test_rows_that_agree(self):
        table = "id,town,age\n1,Oslo,34\n2,Oslo,\n3,Moss,27\n4,Oslo,30\n"
        self.makes("impute a.csv --column age --like town", {"a.csv": table},
                   "_block,_role,id:int,town:text,age:int\n1,guess,1,Oslo,34\n2,guess,2,Oslo,30\n2,alt,2,Oslo,34\n"
                   "3,guess,3,Moss,27\n4,guess,4,Oslo,30\n")

    def test_the_ends_of_the_values(self):
        for values, kept in (("5 1 9 4 4", ["4", "1", "9"]), ("b a c b", ["b", "a", "c"]), ("3 3", ["3"])):
            with self.subTest(values):
                held = values.split()
                kind = "int" if held[0].isdigit() else "text"
                table = [f"{n},guess,0,{value}\n" for n, value in enumerate(held, 1)]
                table += [f"{len(held) + 1},{'alt' if n else 'guess'},0,{value}\n" for n, value in enumerate(kept)]
                self.makes("impute a.csv --column x --ends", {"a.csv": "id,x\n" + "".join(f"0,{v}\n" for v in held + [""])},
                           f"_block,_role,id:int,x:{kind}\n" + "".join(table))

    def test_where_no_row_agrees_the_whole_column_is_taken(self):
        self.makes("impute a.csv --column x --like t", {"a.csv": "t,x\na,1\nb,\n"},
                   "_block,_role,t:text,x:int\n1,guess,a,1\n2,guess,b,1\n", warnings=1)

    def test_range(self):
        cases = (("0 120", "30", ["0", "120"]), ("31 120", "31", ["120"]), ("5 5", "5", []), ("-9 3", "3", ["-9"]))
        for words, guess, others in cases:
            with self.subTest(words):
                table = "_block,_role,x:int\n1,guess,30\n2,guess," + guess + "\n" + "".join(f"2,alt,{n}\n" for n in others)
                self.makes(f"impute a.csv --column x --range {words} --missing ?", {"a.csv": "x\n30\n?\n"}, table)

    def test_values(self):
        self.makes("impute a.csv --column x --values 3 1 3", {"a.csv": "id,x\n1,\n"},
                   "_block,_role,id:int,x:int\n1,guess,1,3\n1,alt,1,1\n")
        self.makes("impute a.csv --column x --values 3 none", {"a.csv": "id,x\n1,\n2,4\n"},
                   "_block,_role,id:int,x:text\n1,guess,1,3\n1,alt,1,none\n2,guess,2,4\n", warnings=1)

    def test_a_second_column(self):
        first = b"_block,_role,x:int,y:text\na,guess,1,\na,alt,2,\na,absent,,\nb,guess,1,7\n"
        self.makes("impute - --column y --range 0 9", {}, "_block,_role,x:int,y:int\na,guess,1,7\na,alt,1,0\na,alt,1,9\n"
                   "a,alt,2,7\na,alt,2,0\na,alt,2,9\na,absent,,\nb,guess,1,7\n", stdin=first)

    def test_refusals(self):
        self.refuses("impute a.csv --column x", {"a.csv": "id,x\n1,\n"},
                     "a.csv: column x has no value at all; give --range or --values")
        self.refuses("impute a.csv --column x --range 1 2", {"a.csv": "id,x\n1,\n2,y\n"},
                     "a.csv: record 2 (line 3), column x: 'y', which is no number")
        self.refuses("impute a.csv --column x --range 2 1", {"a.csv": "x\n1\n"}, "--range 2 1: not two numbers in order")
        self.refuses("impute a.csv --column x --values a", {"a.csv": "id,x:int\n1,\n2,3\n"},
                     "a.csv: column x is int, and --values has another kind")
        self.refuses("impute a.csv --column x --values 1 --like id", {"a.csv": "id,x\n1,\n"},
                     "--like and --ends go with --from-column alone")


class Error(Cases):
    def test_ends_are_rounded_outwards(self):
        cases = (("--below 5% --above 12", ["10", "9", "22"]), ("--below 0.5", ["10", "9"]), ("--above 0", ["10"]),
                 ("--above 33.3%", ["10", "14"]))
        for words, (guess, *others) in cases:
            with self.subTest(words):
                table = f"_block,_role,x:int\n1,guess,{guess}\n" + "".join(f"1,alt,{n}\n" for n in others)
                self.makes(f"error a.csv --column x {words}", {"a.csv": "x\n10\n"}, table)

    def test_a_negative_number(self):
        self.makes("error a.csv --column x --below 10% --above 10%", {"a.csv": "x\n-20\n"},
                   "_block,_role,x:int\n1,guess,-20\n1,alt,-22\n1,alt,-18\n")

    def test_errors_in_columns(self):
        self.makes("error a.csv --column x --below less --above more", {"a.csv": "id,x,less,more\n1,20,,5%\n2,20,15,\n"},
                   "_block,_role,id:int,x:int\n1,guess,1,20\n1,alt,1,21\n2,guess,2,20\n2,alt,2,5\n")

    def test_decimals(self):
        self.makes("error a.csv --column t --below e --above 0.25 --decimals t=1", {"a.csv": "t;e\n12,5;0,3\n-0.5;1\n"},
                   "_block,_role,t:dec1\n1,guess,12.5\n1,alt,12.2\n1,alt,12.8\n2,guess,-0.5\n2,alt,-1.5\n2,alt,-0.2\n", warnings=0)

    def test_a_block_keeps_its_guess(self):
        self.makes("error - --column x --above 1", {}, "_block,_role,x:int\na,alt,1\na,alt,2\na,guess,5\na,alt,6\nb,alt,1\n"
                   "b,alt,2\nb,absent-guess,\n", stdin=b"_block,_role,x:int\na,alt,1\na,guess,5\nb,alt,1\nb,absent-guess,\n")

    def test_refusals(self):
        top = str(2**127 - 1)
        for table, words, line in (
                ("x\na\n", "--below 1", "a.csv: record 1 (line 2), column x: 'a', which is no number"),
                ("x\n2024-05-17\n", "--below 1", "a.csv: record 1 (line 2), column x: '2024-05-17', which is a date"),
                ("x\n0.1234567891\n", "--below 1", "a.csv: record 1 (line 2), column x: '0.1234567891', which has more than 9 "
                 "digits behind the point"),
                ("id,x\n1,\n", "--below 1", "a.csv: record 1 (line 2), column x: empty; impute it first"),
                ("id,x\n1,2\n", "--below y", "a.csv: no column y; there are id, x"),
                ("e,x\n-1,2\n", "--below e", "a.csv: record 1 (line 2), column e: '-1' is no error"),
                (f"x\n{top}\n", "--above 1", "a.csv: record 1 (line 2), column x: an end leaves 128 bits"),
                ("x\n1\n", "--below x", "column x can't be its own error"),
                ("x\n1\n", "", "error wants --below or --above")):
            with self.subTest(line):
                self.refuses(f"error a.csv --column x {words}", {"a.csv": table}, line)


class Duplicates(Cases):
    FILES = {"a.csv": "id,x\n1,a\n2,b\n3,c\n", "p.csv": "one,two,score\n1,02,0.9\n"}

    def test_the_second_may_be_absent(self):
        for words, rows in (("", "2,alt,2,b\n2,absent-guess,,\n"), ("--guess present", "2,guess,2,b\n2,absent,,\n")):
            with self.subTest(words):
                self.makes(f"duplicates a.csv p.csv --key id {words}", self.FILES,
                           f"_block,_role,id:int,x:text\n1,guess,1,a\n{rows}3,guess,3,c\n")

    def test_a_block_of_alternatives(self):
        self.makes("duplicates - p.csv", {"p.csv": "a,b\n1,2\n"}, "_block,_role,id:int,x:text\na,guess,1,b\nb,alt,2,d\n"
                   "b,alt,2,c\nb,absent-guess,,\n",
                   stdin=b"_block,_role,id:int,x:text\na,guess,1,b\nb,alt,2,c\nb,guess,2,d\n")

    def test_refusals(self):
        for table, pairs, line in (
                ("id\n1\n1\n", "a,b\n", "a.csv: record 2 (line 3), column id: record 1 has the key '1' too"),
                ("id\n1\n2\n", "a,b\n1,9\n", "p.csv: record 1 (line 2), column b: no row has the key '9'"),
                ("id\n1\n2\n", "a,b\n1,1\n", "p.csv: record 1 (line 2), column b: a row is no duplicate of itself"),
                ("id\n1\n2\n", "a\n1\n", "p.csv: record 0 (line 1): 1 columns, where a pair wants two"),
                ("id\n1\n2\n3\n", "a,b\n1,2\n2,1\n",
                 "p.csv: record 1 (line 2): a ring of pairs, in which each row is a second one")):
            with self.subTest(line):
                self.refuses("duplicates a.csv p.csv", {"a.csv": table, "p.csv": pairs}, line)

    def test_a_chain_is_no_ring(self):
        self.makes("duplicates a.csv p.csv", {"a.csv": "id\n1\n2\n3\n", "p.csv": "a,b\n1,2\n2,3\n3,2\n"},
                   "_block,_role,id:int\n1,guess,1\n2,alt,2\n2,absent-guess,\n3,alt,3\n3,absent-guess,\n")


class Copies(Cases):
    """Numbers of copies and ranges are read and written by every command."""

    TABLE = ("_block,_role,_times,shop:text,price:dec2\na,guess,2,north,1.50\nb,guess,2..3..5,south,2.00..2.25..3.00\n"
             "b,absent,,,\n")

    def test_a_table_with_copies_stays_one(self):
        self.makes("convert a.csv", {"a.csv": self.TABLE}, self.TABLE)
        self.makes("duplicates a.csv p.csv", {"a.csv": self.TABLE, "p.csv": "a,b\nnorth,south\n"},
                   self.TABLE.replace("b,guess,2..", "b,alt,2..").replace("b,absent,", "b,absent-guess,"))
        self.makes("error a.csv --column price --above 10%", {"a.csv": self.TABLE},
                   "_block,_role,_times,shop:text,price:dec2\na,guess,2,north,1.50\na,alt,2,north,1.65\n"
                   "b,guess,2..3..5,south,2.00..2.25..3.30\nb,absent,,,\n")
        self.makes("impute a.csv --column shop --missing south --values x y", {"a.csv": self.TABLE},
                   "_block,_role,_times,shop:text,price:dec2\na,guess,2,north,1.50\nb,guess,2..3..5,x,2.00..2.25..3.00\n"
                   "b,alt,2..3..5,y,2.00..2.25..3.00\nb,absent,,,\n")

    def test_the_same_is_written_in_one_way(self):
        self.makes("convert a.csv", {"a.csv": "_block,_role,_times,x:dec1\na,guess,07..07..07,1..1.0..01\nb,guess,0..1..1,2\n"},
                   "_block,_role,_times,x:dec1\na,guess,7,1.0\nb,guess,0..1..1,2.0\n", warnings=0)

    def test_a_range_wants_a_written_kind_of_numbers(self):
        self.makes("convert a.csv", {"a.csv": "_block,_role,_times,x,y:text\na,guess,1,1..2..3,1..2..3\n"},
                   "_block,_role,_times,x:text,y:text\na,guess,1,1..2..3,1..2..3\n")

    def test_refusals(self):
        for record, line in (
                ("a,guess,,1", "'' is no number of copies"), ("a,guess,-1,1", "'-1' is no number of copies"),
                ("a,guess,1..2,1", "'1..2' is no number of copies"), ("a,guess,3..2..4,1", "'3..2..4' is no number of copies"),
                ("a,guess,1000000000001,1", "'1000000000001' is no number of copies"), ("a,absent,1,", "values in an absent record"),
                ("a,guess,1,1..2", "column x: '1..2' is no int"), ("a,guess,1,3..2..4", "column x: '3..2..4' is no int"),
                ("a,guess,1,1..2.5..4", "column x: '1..2.5..4' is no int")):
            with self.subTest(record):
                where = f"record 1 (line 2){', ' if line.startswith('column') else ': '}"
                self.refuses("convert a.csv", {"a.csv": f"_block,_role,_times,x:int\n{record}\n"}, f"a.csv: {where}{line}")
        self.refuses("convert a.csv", {"a.csv": "_block,_role,x:int\na,guess,1..2..3\n"},
                     "a.csv: record 1 (line 2), column x: '1..2..3' is no int")
        self.refuses("duplicates a.csv p.csv", {"a.csv": "_block,_role,_times,x:int\na,guess,1,1..2..3\n", "p.csv": "a,b\n1,2\n"},
                     "a.csv: record 1 (line 2), column x: 1..2..3 is a range, which can't be compared")


class Decimals(Cases):
    """Columns of numbers with a point have a kind of their own, and are counted in its units."""

    def test_a_written_kind_is_kept(self):
        self.makes("error a.csv --column price --below 5%", {"a.csv": "item,price:dec2\ntea,2.5\ncup,4\n"},
                   "_block,_role,item:text,price:dec2\n1,guess,tea,2.50\n1,alt,tea,2.37\n2,guess,cup,4.00\n2,alt,cup,3.80\n")

    def test_a_column_of_decimals_gets_its_kind(self):
        self.makes("impute a.csv --column p", {"a.csv": "id,p\n1,2.5\n2,\n3,10\n4,0.75\n"},
                   "_block,_role,id:int,p:dec2\n1,guess,1,2.50\n2,guess,2,2.50\n2,alt,2,0.75\n2,alt,2,10.00\n3,guess,3,10.00\n"
                   "4,guess,4,0.75\n", warnings=1)

    def test_words_of_the_command_have_units_too(self):
        self.makes("impute a.csv --column p --range 0.25 9", {"a.csv": "id,p\n1,2.5\n2,\n"},
                   "_block,_role,id:int,p:dec2\n1,guess,1,2.50\n2,guess,2,2.50\n2,alt,2,0.25\n2,alt,2,9.00\n", warnings=1)
        self.makes("impute a.csv --column p --values 3 0.125", {"a.csv": "id,p\n1,2\n2,\n"},
                   "_block,_role,id:int,p:dec3\n1,guess,1,2.000\n2,guess,2,3.000\n2,alt,2,0.125\n")
        self.makes("impute a.csv --column p --range 0 1", {"a.csv": "id,p:dec2\n1,\n"},
                   "_block,_role,id:int,p:dec2\n1,guess,1,0.50\n1,alt,1,0.00\n1,alt,1,1.00\n")
        self.refuses("impute a.csv --column p --range 0 1.5", {"a.csv": "id,p:int\n1,\n2,3\n"},
                     "a.csv: column p is int, and --range has another kind")
        self.refuses("impute a.csv --column p --range 0 9", {"a.csv": "id,p:text\n1,\n2,3\n"},
                     "a.csv: column p is text, and --range has another kind; leave :text out of the header")

    def test_a_second_pass_multiplies_nothing(self):
        words = "error - --column p --above 0 --decimals p=3"
        table = "_block,_role,p:dec3\n1,guess,2.500\n2,guess,4.000\n"
        self.makes(words, {}, table, stdin=b"p\n2.5\n4\n")
        self.makes(words, {}, table, stdin=table.encode())
        self.refuses("convert a.csv --decimals p=1", {"a.csv": "p\n2.25\n"}, "a.csv: record 1 (line 2), column p: '2.25' is no dec1")

    def test_text_can_be_forced(self):
        self.makes("convert a.csv --text v", {"a.csv": "v\n1.10\n"}, "v:text\n1.10\n")

    def test_what_plain_files_say_of_kinds(self):
        for words in ("convert", "error --column p --above 0"):
            _, out, err, _ = run(words.split()[:1] + ["a.csv"] + words.split()[1:], {"a.csv": "vip,p\ntrue,1.5\n"})
            self.assertIn(b"vip:flag,p:dec1\n", out)
            line = "blocks: warning: vip is flag, p is dec1 here, and text to audb in a file whose header has no kinds (convert " \
                   "writes them)\n"
            self.assertEqual(err, "" if words == "convert" else line)


class Ranges(Cases):
    """Range cells in the place of alternatives."""

    def test_impute(self):
        self.makes("impute a.csv --column x --ranges", {"a.csv": "id,x\n1,5\n2,\n3,7\n4,9\n"},
                   "_block,_role,_times,id:int,x:int\n1,guess,1,1,5\n2,guess,1,2,5..7..9\n3,guess,1,3,7\n4,guess,1,4,9\n")
        self.makes("impute a.csv --column x --range 0 9.5 --ranges", {"a.csv": "id,x\n2,\n"},
                   "_block,_role,_times,id:int,x:dec1\n1,guess,1,2,0.0..4.7..9.5\n")
        self.refuses("impute a.csv --column x --ranges", {"a.csv": "id,x\n1,a\n2,\n"},
                     "a.csv: column x is text, and only numbers have ranges")

    def test_error(self):
        self.makes("error a.csv --column x --below 1 --above 2 --ranges", {"a.csv": "id,x\n1,5\n"},
                   "_block,_role,_times,id:int,x:int\n1,guess,1,1,4..5..7\n")

    def test_alternatives_that_would_pass_the_limit(self):
        rows = "".join(f"{n},{n}\n" for n in range(3000)) + "0,\n" * 3000
        status, out, err, _ = run("impute a.csv --column b".split(), {"a.csv": "a,b\n" + rows})
        line = "blocks: warning: the block table would pass 8,388,608 bytes; the cells of column b are ranges instead\n"
        self.assertEqual((status, err), (0, line))
        self.assertEqual(out.splitlines()[0], b"_block,_role,_times,a:int,b:int")
        self.assertEqual(out.splitlines()[-1], b"6000,guess,1,0,0..1499..2999")

    def test_texts_that_would_pass_the_limit(self):
        rows = "".join(f"{n},x{n}\n" for n in range(3000)) + "0,\n" * 3000
        self.refuses("impute a.csv --column b", {"a.csv": "a,b\n" + rows},
                     "the block table would pass 8,388,608 bytes; --ends makes it smaller")
        long = "a,b\n" + ("x" * 99_000 + ",1\n") * 60
        self.refuses("error a.csv --column b --below 1 --text a", {"a.csv": long.replace(",1", ",x")},
                     "a.csv: record 1 (line 2), column b: 'x', which is no number")
        status, out, err, _ = run("error a.csv --column b --below 1".split(), {"a.csv": long})
        self.assertEqual((status, len(out.splitlines()), err.count("\n")), (0, 61, 1), err)
        self.refuses("duplicates a.csv p.csv", {"a.csv": "a,b\n" + "".join(f"{n},{'y' * 99_000}\n" for n in range(90)),
                                                "p.csv": "a,b\n"},
                     "the block table would pass 8,388,608 bytes, at block '85'")


class Indicators(Cases):
    TABLE = "_block,_role,id:int,city:text,spent:dec1\n1,guess,1,Oslo,5.0\n1,alt,1,Moss,5.0\n2,guess,2,Oslo,1.5\n2,absent,,,\n"

    def test_a_column_for_each_value(self):
        self.makes("indicators a.csv --column city", {"a.csv": self.TABLE},
                   "_block,_role,id:int,city:text,spent:dec1,city_Moss:int,city_Oslo:int\n1,guess,1,Oslo,5.0,0,1\n"
                   "1,alt,1,Moss,5.0,1,0\n2,guess,2,Oslo,1.5,0,1\n2,absent,,,,,\n")

    def test_some_values_and_sums(self):
        self.makes("indicators a.csv --column city --values Oslo --sum spent", {"a.csv": self.TABLE},
                   "_block,_role,id:int,city:text,spent:dec1,city_Oslo:int,spent_Oslo:dec1\n1,guess,1,Oslo,5.0,1,5.0\n"
                   "1,alt,1,Moss,5.0,0,0.0\n2,guess,2,Oslo,1.5,1,1.5\n2,absent,,,,,\n")
        self.makes("indicators a.csv --column city --values Olso", {"a.csv": "city\nOslo\n"},
                   "_block,_role,city:text,city_Olso:int\n1,guess,Oslo,0\n", warnings=1)

    def test_a_range_is_split_at_the_values(self):
        self.makes("indicators a.csv --column x --values 3 9", {"a.csv": "_block,_role,_times,x:int\na,guess,2,1..3..5\n"},
                   "_block,_role,_times,x:int,x_3:int,x_9:int\na,guess,2,3,1,0\na,alt,2,1..1..2,0,0\na,alt,2,4..4..5,0,0\n")
        self.makes("indicators a.csv --column x --values 3", {"a.csv": "_block,_role,_times,x:dec1\na,guess,1,2.8..3.2..3.4\n"},
                   "_block,_role,_times,x:dec1,x_3.0:int\na,guess,1,3.1..3.2..3.4,0\na,alt,1,2.8..2.8..2.9,0\na,alt,1,3.0,1\n")

    def test_names_stay_apart(self):
        self.makes("indicators a.csv --column x", {"a.csv": "x,x_a\na,1\nA,2\n"},
                   "_block,_role,x:text,x_a:int,x_A_2:int,x_a_3:int\n1,guess,a,1,0,1\n2,guess,A,2,1,0\n")

    def test_refusals(self):
        many = "x\n" + "".join(f"v{n}\n" for n in range(64))
        self.refuses("indicators a.csv --column x", {"a.csv": many}, "a.csv: 65 columns, more than 64 (--values gives them to some "
                     "values alone)")
        self.refuses("indicators a.csv --column x --values y", {"a.csv": "x\n1\n"}, "a.csv: column x is int, and 'y' is none")
        self.refuses("indicators a.csv --column x", {"a.csv": "_block,_role,_times,x:int\na,guess,1,1..2..3\n"},
                     "a.csv: record 1 (line 2), column x: 1..2..3 is a range; --values says which values get a column")
        self.refuses("indicators a.csv --column x --sum y", {"a.csv": "x,y\n1,a\n"},
                     "a.csv: column y is text, and only numbers are added")


class Rename(Cases):
    FILES = {"a.csv": "customer,item\n1,lamp\n7,chair\n9,lamp\n", "p.csv": "customer,duplicate,sure\n2,7,false\n7,9,true\n"}

    def test_a_sure_pair(self):
        self.makes("rename a.csv --column customer --by p.csv", self.FILES,
                   "_block,_role,customer:int,item:text\n1,guess,1,lamp\n2,guess,2,chair\n3,guess,2,lamp\n")

    def test_a_probable_pair(self):
        for guess, first, others in (("first", "2", ["7"]), ("copy", "7", ["2"])):
            with self.subTest(guess):
                third = [first, *others] if guess == "first" else ["9", "7", "2"]
                third = [first, "9", "7"] if guess == "first" else third
                table = f"2,guess,{first},chair\n" + "".join(f"2,alt,{other},chair\n" for other in others)
                table += "".join(f"3,{'alt' if n else 'guess'},{name},lamp\n" for n, name in enumerate(third))
                self.makes(f"rename a.csv --column customer --by p.csv --probable --guess {guess}", self.FILES,
                           f"_block,_role,customer:int,item:text\n1,guess,1,lamp\n{table}")

    def test_pairs_that_say_whether_they_are_sure(self):
        self.makes("rename a.csv --column customer --by p.csv --sure sure", self.FILES,
                   "_block,_role,customer:int,item:text\n1,guess,1,lamp\n2,guess,2,chair\n2,alt,7,chair\n3,guess,2,lamp\n"
                   "3,alt,7,lamp\n")

    def test_keys_of_any_kind(self):
        self.makes("rename a.csv --column k --by p.csv", {"a.csv": "k\nA\nb\n", "p.csv": "x,y\nA,b\n"},
                   "_block,_role,k:text\n1,guess,A\n2,guess,A\n")
        self.makes("rename a.csv --column k --by p.csv", {"a.csv": "k:int\n7\n", "p.csv": "x,y\n02,007\n"},
                   "_block,_role,k:int\n1,guess,2\n")
        self.makes("rename a.csv --column k --by p.csv", {"a.csv": "k\n7\n", "p.csv": "x,y\n2,8\n"},
                   "_block,_role,k:int\n1,guess,7\n", warnings=1)

    def test_refusals(self):
        for pairs, words, line in (
                ("a,b\n1,2\n2,1\n", "", "p.csv: record 1 (line 2): a ring of pairs, in which each id is a second one"),
                ("a,b,s\n1,2,false\n3,2,true\n2,3,true\n", "--sure s",
                 "p.csv: record 1 (line 2): a ring of pairs, in which each id is a second one"),
                ("a,b\n1,x\n", "", "p.csv: record 1 (line 2), column b: 'x' is no int, as column id is"),
                ("a,b\n1,1\n", "", "p.csv: record 1 (line 2), column b: a row is no duplicate of itself"),
                ("a\n1\n", "", "p.csv: record 0 (line 1): 1 columns, where a pair wants two"),
                ("a,b,s\n1,2,?\n", "--sure s", "p.csv: record 1 (line 2), column s: neither true nor false"),
                ("a,b\n1,2\n", "--sure s", "p.csv: record 0 (line 1): no column s; there are a, b")):
            with self.subTest(line):
                self.refuses(f"rename a.csv --column id --by p.csv {words}", {"a.csv": "id\n1\n2\n3\n", "p.csv": pairs}, line)


class Convert(Cases):
    def test_an_export(self):
        data = "Bestell-Nr;Größe;Betrag (EUR);Group\n7;groß;1.234,50;x\n8;klein;-3,5;y\n".encode("latin-1")
        self.makes("convert a.csv --encoding latin-1 --thousands . --simple-names --name Group=part", {"a.csv": data},
                   "Bestell_Nr:int,Gro_e:text,Betrag_EUR:dec2,part:text\n7,groß,1234.50,x\n8,klein,-3.50,y\n")

    def test_encodings(self):
        table = "a:text\nå€\n"
        for name, code in (("utf-8", "utf-8"), ("utf-16", "utf-16"), ("utf-16", "utf-16-le"), ("windows-1252", "cp1252")):
            with self.subTest(code):
                self.makes(f"convert a.csv --encoding {name}", {"a.csv": "a\nå€\n".encode(code)}, table)
        for encoding, data, line in (
                ("utf-16", b"a\n1", "not utf-16"), ("windows-1252", b"a\n\x81\n", "not windows-1252"),
                ("latin-1", b"\xef\xbb\xbfa\n1\n", "UTF-8; --encoding utf-8 reads it"),
                ("latin-1", b"\xff\xfea\0", "UTF-16; --encoding utf-16 reads it")):
            with self.subTest(line):
                self.refuses(f"convert a.csv --encoding {encoding}", {"a.csv": data}, f"a.csv: {line}")

    def test_numbers_with_marks(self):
        for words, cells, kind, want, warnings in (
                ("--thousands ,", ["1,234", "56"], "int", ["1234", "56"], 0), ("", ["1,234", "56"], "text", None, 1),
                ("--thousands ,", ["12,34"], "text", None, 1), ("--thousands ,", ["1,234.5"], "dec1", ["1234.5"], 0),
                ("--decimal-mark ,", ["1,5", "2"], "dec1", ["1.5", "2.0"], 0),
                ("--decimal-mark ,", ["1,5", ""], "text", ["1.5", ""], 1), ("--decimal-mark ,", ["1,5", "x"], "text", None, 1),
                ("--thousands space", ["1 234", "5\u00a0678"], "int", ["1234", "5678"], 0),
                ("--separator ;", ["1,5"], "dec1", ["1.5"], 0), ("--separator ;", ["1,234"], "dec3", ["1.234"], 1),
                ("--separator ;", ["1,5", "1.25"], "text", None, 1)):
            with self.subTest(words=words, cells=cells):
                mark = ";" if "separator" in words else "\t"
                data = f"a{mark}b\n" + "".join(f"0{mark}{cell}\n" for cell in cells)
                self.makes(f"convert a.csv {words}", {"a.csv": data}, f"a:int,b:{kind}\n" + "".join(
                    f"0,{field_text(cell)}\n" for cell in want or cells), warnings)

    def test_no_header(self):
        self.makes("convert a.csv --no-header --name col2=x", {"a.csv": "1,a\n2,b\n"}, "col1:int,x:text\n1,a\n2,b\n")

    def test_a_single_empty_cell_is_a_record(self):
        self.makes("convert a.csv", {"a.csv": 'x\n""\ny\n'}, 'x:text\n""\ny\n')

    def test_names_that_need_no_quotes(self):
        self.makes("convert a.csv --simple-names", {"a.csv": "a b,A-B,1st,select,é,,:\n1,1,1,1,1,1,1\n"},
                   "a_b:int,A_B_2:int,c_1st:int,select_:int,e:int,col6:int,col7:int\n1,1,1,1,1,1,1\n")

    def test_refusals(self):
        self.refuses("convert a.csv --name x=b", {"a.csv": "a,b\n1,2\n"}, "a.csv: no column x; there are a, b")
        self.refuses("convert a.csv --name a=b", {"a.csv": "a,b\n1,2\n"}, "a.csv, column 2: column 1 has the name b too")
        self.refuses("convert a.csv --decimal-mark , --thousands ,", {"a.csv": "a\n1\n"},
                     "--thousands and --decimal-mark are one character")


class Describe(Cases):
    def test_shares(self):
        table = ("_block,_role,_times,id:int,x:dec1\na,guess,1,1,2.5\nb,guess,2..3..5,2,1.0..1.5..2.0\nc,guess,1,3,1.0\n"
                 "c,alt,1,3,4.0\nd,guess,1,4,1.0\nd,absent,,,\n")
        status, out, err, _ = run(["describe", "a.csv"], {"a.csv": table})
        self.assertEqual((status, err, out.decode()), (0, "", (
            "a.csv: a block table with copies of 4 blocks with 5 alternatives\n"
            "          | kind | unsure | of | share\n"
            "----------+------+--------+----+------\n"
            "blocks    |      |      3 |  4 | 75.0%\n"
            "rows      |      |      2 |  4 | 50.0%\n"
            "cells     |      |      2 |  8 | 25.0%\n"
            "column id | int  |      0 |  4 |  0.0%\n"
            "column x  | dec1 |      2 |  4 | 50.0%\n")))

    def test_an_ordinary_file_is_sure(self):
        for data, first, share in (("a\n1\n", "a.csv: an ordinary file of 1 blocks with 1 alternatives", b"0.0%"),
                                   ("a\n", "a.csv: an ordinary file of 0 blocks with 0 alternatives", b"-")):
            _, out, _, _ = run(["describe", "a.csv"], {"a.csv": data})
            self.assertEqual((out.decode().split("\n")[0], out.split()[-1]), (first, share))


class Hints(Cases):
    """What is said helps, and is said only where it does."""

    def test_dates_are_no_numbers(self):
        for date in ("2024-05-17", "17.05.2024", "5/17/2024", "2024-05-17 10:00"):
            with self.subTest(date):
                self.makes("convert a.csv", {"a.csv": f"d\n{date}\n"}, f"d:text\n{date}\n")

    def test_ends_are_named_where_they_help(self):
        rows = "a,b\n" + f"{'x' * 99_000},1\n" * 90
        for words in ("impute a.csv --column b", "impute a.csv --column a --values z", "impute a.csv --column a"):
            with self.subTest(words):
                status, _, err, _ = run(words.split(), {"a.csv": rows})
                self.assertEqual((status, "--ends" in err), (1, False), err)


class Effort(Cases):
    """Ten thousand rows in two seconds of one processor, and memory of twenty times the file beside the interpreter's."""

    COMMANDS = ("merge --key id a.csv b.csv", "impute a.csv --column x", "impute a.csv --column x --like k", "convert a.csv",
                "impute a.csv --column x --like city --ends", "error b.csv --column x --below 5% --above 2",
                "duplicates a.csv p.csv", "rename a.csv --column id --by p.csv --probable", "indicators a.csv --column city --sum n",
                "describe a.csv")

    def row(self, draw, n, empty):
        amount = "" if empty and n % 50 == 0 else f"{draw.randrange(50_000) / 100:.2f}"
        city = draw.choice(["Oslo", "Bergen", "Moss"])
        return f"{n},{draw.randrange(2000)},{city},2024-0{draw.randrange(1, 10)}-17,{amount},{n % 7}\n"

    def test_ten_thousand_rows(self):
        draw = random.Random(1)
        header = "id,k,city,day,x,n\n"
        with tempfile.TemporaryDirectory() as folder:
            for name, empty in (("a.csv", True), ("b.csv", False)):
                with open(f"{folder}/{name}", "w", encoding="utf-8") as file:
                    file.write(header + "".join(self.row(draw, n, empty) for n in range(10_000)))
            with open(f"{folder}/p.csv", "w", encoding="utf-8") as file:
                file.write("a,b\n" + "".join(f"{n},{n + 5000}\n" for n in range(1000)))
            _, idle = self.cost(folder, ["--help"])
            for words in map(str.split, self.COMMANDS):
                with self.subTest(words=words):
                    seconds, memory = self.cost(folder, words)
                    size = sum(os.path.getsize(f"{folder}/{word}") for word in words if word in ("a.csv", "b.csv"))
                    self.assertLess(seconds, 2)
                    self.assertLess((memory - idle) * 1024 / size, 20)

    def cost(self, folder, words):
        """The processor time of a command, and its memory in KiB."""
        with subprocess.Popen([PATH, *words], cwd=folder, stdout=subprocess.DEVNULL, stderr=subprocess.DEVNULL) as done:
            _, status, used = os.wait4(done.pid, 0)
            done.returncode = os.waitstatus_to_exitcode(status)
        self.assertEqual(done.returncode, 0, words)
        return used.ru_utime + used.ru_stime, used.ru_maxrss


class Files(Cases):
    TABLE = "_block,_role,a:int,b:text\n1,guess,1,\"x, \"\"y\"\"\nz\"\n"

    def reads(self, data, table, warnings=0, words=""):
        self.makes(f"error a.csv --column a --above 0 {words}", {"a.csv": data}, table, warnings)

    def test_what_spreadsheets_write(self):
        cell = '"x, ""y""\nz"'
        for data in (f"a,b\n1,{cell}\n", f"\ufeffa,b\n1,{cell}", f"a;b\n1;{cell}\n", f"a\tb\n1\t{cell}\n",
                     f"sep=;\r\na;b\r\n1;{cell}\r\n", f"\n\"a\",\"b\"\n\n\"1\",{cell}\n\n", f"a,b\r1,{cell}\r"):
            with self.subTest(data):
                self.reads(data, self.TABLE)
        self.reads("a|b\n1|x\n", "_block,_role,a:int,b:text\n1,guess,1,x\n", words="--separator |")

    def test_a_header_alone(self):
        self.reads("a,b,c:int\n", "_block,_role,a:int,b:text,c:int\n")

    def test_line_ends_in_fields_are_quoted(self):
        self.reads('a,b\n1,"x\ry"\n', '_block,_role,a:int,b:text\n1,guess,1,"x\ry"\n')

    def test_empty_records(self):
        self.reads("a,b\n1,x\n,\n,\n", "_block,_role,a:int,b:text\n1,guess,1,x\n", warnings=1)

    def test_names(self):
        self.reads("a,,x:y,z:text\n1,2,3,4\n", "_block,_role,a:int,col2:int,x:y:int,z:text\n1,guess,1,2,3,4\n")

    def test_kinds(self):
        top, low = str(2**127 - 1), str(-2**127)
        for cells, kind, want, warnings in (
                (["1", "-2", top, low], "int", None, 0), (["1", str(2**127)], "text", None, 1),
                (["true", "FALSE"], "flag", ["true", "false"], 1), (["true", "x"], "text", None, 0),
                (["007"], "int", ["7"], 1), (["1,000", "2"], "text", None, 1), (["1e3", "x"], "text", None, 1),
                (["+5"], "text", None, 1), ([" 5"], "text", None, 1), (["5", "6", ""], "text", None, 1),
                (["\u0664", "5"], "text", None, 1), (["x", "y", ""], "text", None, 0), (["1" * 40], "text", None, 1),
                (["1.5", "-2", "0.25"], "dec2", ["1.50", "-2.00", "0.25"], 1), (["007.5"], "dec1", ["7.5"], 2),
                (["1.5", ""], "text", None, 1), (["1.5", "x"], "text", None, 1), (["-0.0"], "dec1", ["0.0"], 2),
                (["0.123456789"], "dec9", None, 1), (["0.1234567890"], "dec9", ["0.123456789"], 1),
                (["0.1234567891", "1"], "text", None, 1), ([top + ".5"], "text", None, 1), (["2024-05-17"], "text", None, 0),
                (["17.05.2024", "1.2.3"], "text", None, 0), (["1", "17.05.2024"], "text", None, 1)):
            with self.subTest(cells):
                rows = [f"{n},guess,0,{field_text(cell)}\n" for n, cell in enumerate(want or cells, 1)]
                self.reads("a,b\n" + "".join(f"0,{field_text(cell)}\n" for cell in cells),
                           f"_block,_role,a:int,b:{kind}\n" + "".join(rows), warnings)

    def test_written_kinds(self):
        self.reads("a,b:text\n1,2\n", "_block,_role,a:int,b:text\n1,guess,1,2\n")
        self.refuses("error a.csv --column a --above 0", {"a.csv": "a,b:flag\n1,no\n"},
                     "a.csv: record 1 (line 2), column b: 'no' is no flag")

    def test_refusals(self):
        for data, line in (
                (b"", "no header"), (b"\xff\xfea\0", "UTF-16; --encoding utf-16 reads it"),
                (b"a,b\n1,x\n2,\xe5\n", f"record 2 (line 3), column b: not UTF-8; {OTHERS}"),
                (b"\xe5\n", f"record 0 (line 1): not UTF-8; {OTHERS}"),
                (b"a,b\n1,\"x\ny\"\n2\n", "record 2 (line 4): 1 fields, where the header has 2"),
                (b"a,b\n1,\"x\n", "record 1 (line 2): a quote without an end"),
                (b"a,b\n1,\"x\"y\n", "record 1 (line 2): ',' expected after '\"'"),
                (b"a,A\n1,2\n", "record 0 (line 1), column 2: column 1 has the name A too"),
                (b"a,col3,\n1,2,3\n", "record 0 (line 1), column 3: column 2 has the name col3 too"),
                (b"a," + b"n" * 129 + b"\n", "record 0 (line 1), column 2: a name of more than 128 bytes"),
                (",".join(f"c{n}" for n in range(65)).encode(), "record 0 (line 1): 65 columns, more than 64"),
                (b"_block,_role,a:real\n", "record 0 (line 1), column a: unknown kind 'real'"),
                (b"_block,_role,a\n1,maybe,2\n", "record 1 (line 2): no role 'maybe'"),
                (b"_block,_role,a\n1,guess,2\n1,absent,2\n", "record 2 (line 3): values in an absent record"),
                (b"_block,_role,a\n1,guess,2\n1,guess,3\n", "record 1 (line 2): block '1' has 2 guesses"),
                (b"_block,_role,a\n1,alt,2\n", "record 1 (line 2): block '1' has 0 guesses"),
                (b"_block,_role,a\n1,absent-guess,\n", "record 1 (line 2): block '1' has no alternative"),
                (b"_block,_role,a\n1,guess,2\n1,absent,\n1,absent,\n", "record 1 (line 2): block '1' has 2 absent records")):
            with self.subTest(line):
                self.refuses("error a.csv --column a --above 0", {"a.csv": data}, f"a.csv: {line}")

    def test_edges(self):
        names = [f"c{n}" for n in range(63)] + ["n" * 128]
        header = ",".join(f"{name}:int" for name in names)
        self.makes("error a.csv --column c0 --above 0", {"a.csv": ",".join(names) + "\n" + ",".join("1" * 64) + "\n"},
                   f"_block,_role,{header}\n1,guess," + ",".join("1" * 64) + "\n")
        head = len("_block,_role,a:int,b:text\n1,guess,1,\n")
        for more, status in ((0, 0), (1, 1)):
            data = "a,b\n1," + "x" * (MOST_BYTES - head + more) + "\n"
            got, out, err, _ = run("error a.csv --column a --above 0".split(), {"a.csv": data})
            self.assertEqual((got, len(out)), (status, MOST_BYTES if status == 0 else 0), err)

    def test_out(self):
        words = "error a.csv --column a --above 0 --out t.csv".split()
        status, out, _, left = run(words, {"a.csv": "a\n1\n", "t.csv": "old"})
        self.assertEqual((status, out, left["t.csv"]), (0, b"", b"_block,_role,a:int\n1,guess,1\n"))
        self.refuses("error a.csv --column a --above 0 --out t.csv", {"a.csv": "a\nx\n", "t.csv": "old"},
                     "a.csv: record 1 (line 2), column a: 'x', which is no number")
        self.refuses("error a.csv --column a --above 0 --out no/t.csv", {"a.csv": "a\n1\n"},
                     "no/t.csv: No such file or directory")

    def test_help(self):
        for words in ("--help", "merge --help", "impute --help", "error --help", "duplicates --help", "rename --help",
                      "indicators --help", "convert --help", "describe --help"):
            with self.subTest(words):
                status, out, err, _ = run(words.split(), {})
                self.assertEqual((status, err, b"%%" in out), (0, "", False))
                self.assertIn(b"usage: blocks", out)

    def test_words(self):
        for words in ("", "merge a.csv", "error", "impute a.csv --column x --range 1", "split a.csv",
                      "error a.csv --column x --decimals x=0", "impute a.csv --column x --range 1 2 --values 3",
                      "convert a.csv --decimals x=10", "convert a.csv --encoding ebcdic", "convert a.csv --name x",
                      "convert a.csv --thousands ab", "rename a.csv --column x", "indicators a.csv",
                      "rename a.csv --column x --by b.csv --sure s --probable"):
            with self.subTest(words):
                status, out, err, _ = run(words.split(), {})
                self.assertEqual((status, out, err.count("\n")), (2, b"", 1), err)


def random_cell(draw):
    return draw.choice(["", "", "7", "-3", "007", "1e3", "true", "FALSE", 'a"b', "x,y", "x\ny", "x\ry", "\u00e5", " ", "\u2028",
                        "\x00", str(2**127 - 1)])


def random_file(draw, rows):
    """A file of a key, a number and cells of any kind, in one of the dialects."""
    separator, end = draw.choice(",;\t"), draw.choice(["\n", "\r\n", "\r"])
    records = [["id", "n", "x", draw.choice(["", "y:z", "Name"])]]
    records += [[str(n), draw.choice(["", "5", "-12"]), random_cell(draw), random_cell(draw)] for n in range(1, rows + 1)]
    lines = [separator.join('"' + cell.replace('"', '""') + '"' for cell in record) for record in records]
    return draw.choice(["", "\ufeff"]) + end.join(lines) + end


class Made(Cases):
    """Tables that are made of random files can be read, and say what they should."""

    COMMANDS = ("merge --key id a.csv", "merge --key id --optional --guess b.csv a.csv b.csv --common", "impute a.csv --column n",
                "impute a.csv --column x --like n", "impute a.csv --column n --range -5 100 --like x", "duplicates a.csv p.csv",
                "impute a.csv --column n --values 3 z", "error a.csv --column id --below 5% --above 3", "error a.csv --column n",
                "duplicates a.csv p.csv --guess present --text x")

    def test_any_file_gives_a_table_or_a_line(self):
        draw = random.Random(7)
        made = 0
        for turn in range(300):
            files = {"a.csv": random_file(draw, draw.randrange(1, 12)), "b.csv": random_file(draw, 12)}
            files["p.csv"] = "a,b\n1,2\n1,3\n"
            words = draw.choice(self.COMMANDS)
            with self.subTest(turn=turn, words=words):
                status, out, err, _ = run(words.split(), files)
                self.assertIn(status, (0, 1), err)
                if status:
                    self.assertEqual((out, err.count("\n")), (b"", 1), err)
                    continue
                made += 1
                self.assertEqual(run("impute - --column id --values 1".split(), {}, out)[:2], (0, out))
                if PROGRAM:
                    done = answer(out)
                    self.assertEqual(done.returncode, 0, (out, done.stderr))
        self.assertGreater(made, 100)


if __name__ == "__main__":
    if len(sys.argv) > 1 and os.path.isfile(sys.argv[1]):
        PROGRAM = os.path.abspath(sys.argv.pop(1))
    unittest.main()
