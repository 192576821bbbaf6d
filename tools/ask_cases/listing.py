"""Cases of the table on a terminal, and of JSON."""
import json

from answers import rows
from ask_cases.asking import Cases, PRICES, SUMS, WORDS, ask


class Listing(Cases):
    def test_cells_and_marks(self):
        self.shows([SUMS, WORDS[0]],
                   "  city                  | s            | rows\n"
                   "------------------------+--------------+-----------\n"
                   "= Bergen                |  5 [5 .. 17] | 1\n"
                   "~ Oslo [Bergen .. Oslo] | 17 [0 .. 24] | 1 [0 .. 2]\n"
                   "2 rows: 1 certain (=), 1 expected (~)\n")

    def test_a_row_that_no_guess_has(self):
        self.shows(["SELECT id, amount FROM orders WHERE city = 'Bergen' AND amount > 5", WORDS[0]],
                   "  id | amount        | rows\n"
                   "-----+---------------+-----------\n"
                   "? 1  | 10 [10 .. 12] | 0 [0 .. 1]\n"
                   "1 row: 1 only possible (?)\n")

    def test_sort(self):
        query = "SELECT id, city, amount FROM orders"
        for words, ids in ((["amount"], "231"), (["amount:desc"], "132"), (["AMOUNT:asc"], "231"), (["city", "id:desc"], "231"),
                           (["city:desc", "amount"], "312")):
            with self.subTest(words):
                options = [option for word in words for option in ("--sort", word)]
                done = ask([*options, query, WORDS[0]])
                self.assertEqual("".join(line[2] for line in done.out.split("\n")[2:5]), ids, done.err)

    def test_numbers_are_sorted_as_numbers(self):
        done = ask(["--sort", "price:desc", "SELECT item, price FROM prices", "prices=p.csv"], {"p.csv": PRICES.replace(
            "price", "price:dec2")})
        self.assertEqual([line[2:5] for line in done.out.split("\n")[2:5]], ["pot", "cup", "tea"])

    def test_a_name_with_a_colon(self):
        self.shows(["--sort", "x:desc", 'SELECT id AS "x:desc" FROM orders WHERE id < 3', WORDS[0]],
                   "  x:desc | rows\n---------+-----\n= 1      | 1\n= 2      | 1\n2 rows: 2 certain (=)\n")

    def test_left_out(self):
        done = ask(["--only", "certain", "--limit", "1", "--sort", "id:desc", "SELECT id FROM orders", WORDS[0]])
        self.assertEqual(done.out.split("\n")[2:], ["= 2  | 1", "1 row: 1 certain (=)", "left out: 1 by --only, 1 by "
                         "--limit", ""])
        done = ask(["--limit", "0", "SELECT id FROM orders", WORDS[0]])
        self.assertEqual(done.out.split("\n")[2:], ["no row", "left out: 3 by --limit", ""])

    def test_only(self):
        query = "SELECT id FROM orders UNION ALL SELECT amount FROM orders WHERE city = 'Bergen' AND amount > 5"
        for mark, count in (("certain", 2), ("expected", 1), ("possible", 1)):
            with self.subTest(mark):
                done = ask(["--only", mark, query, WORDS[0]])
                self.assertRegex(done.out, rf"\n{count} rows?: {count} (only )?{mark} \(.\)\n")

    def test_no_row(self):
        self.shows(["SELECT id FROM orders WHERE id > 9", WORDS[0]], "  id | rows\n-----+-----\nno row, in any world\n")

    def test_what_a_terminal_can_not_show(self):
        files = {"t.csv": 'x\n"a\nb\x1b[1m"\n\u65e5\u672c\ne\u0301\n'}
        self.shows(["t=t.csv"], "  x       | rows\n----------+-----\n= a?b?[1m | 1\n= e\u0301       | 1\n= \u65e5\u672c    | 1\n"
                   "3 rows: 3 certain (=)\n", files)

    def test_texts_of_digits_are_no_numbers(self):
        done = ask(["--sort", "zip", "t=t.csv"], {"t.csv": "zip:text\n0150\n5003\n"})
        self.assertIn("= 0150 | 1\n= 5003 | 1\n", done.out)

    def test_kinds(self):
        for cells, kind in (([("5", "10", "17")], "number"), ([("10", "17", "5")], "text"), ([("007",) * 3], "text"),
                            ([("-0.50", "0.50", "1.00")], "number"), ([("1.0", "1.00", "1.00")], "text"), ([], "text"),
                            ([("false", "false", "true")], "flag"), ([("a", "b", "c")], "text"),
                            ([("1",) * 3, ("x",) * 3], "text")):
            with self.subTest(cells):
                self.assertEqual(rows.kind_of(cells), kind)

    def test_json(self):
        done = ask(["--json", "--limit", "1", "SELECT city, amount * 1.5 AS \"a\"\"b\", id > 1 AS late FROM orders", WORDS[0]])
        self.assertEqual(json.loads(done.out), {
            "query": "SELECT city, amount * 1.5 AS \"a\"\"b\", id > 1 AS late FROM orders",
            "columns": [{"name": "city", "kind": "text"}, {"name": "a\"b", "kind": "number"}, {"name": "late", "kind": "flag"}],
            "left_out": {"limit": 2},
            "rows": [{"mark": "certain", "rows": {"least": 1, "guess": 1, "most": 1}, "cells": [
                {"lo": "Bergen", "guess": "Bergen", "hi": "Bergen"}, {"lo": 7.5, "guess": 7.5, "hi": 7.5},
                {"lo": True, "guess": True, "hi": True}]}]})
        top = 2**127 - 1
        done = ask(["--json", f"SELECT {top} AS x FROM orders WHERE id = 1", WORDS[0]])
        self.assertEqual(json.loads(done.out)["rows"][0]["cells"][0]["hi"], top)

    def test_options_of_audb(self):
        query = "SELECT city FROM orders"
        plain = ask([query, WORDS[0]]).out
        self.assertEqual(ask(["--combine", query, WORDS[0]]).out.count("\n"), plain.count("\n") - 1)
        self.assertEqual(ask(["--workers", "2", "--compress", "1", query, WORDS[0]]).out, plain)
        sums = "SELECT city, SUM(amount) AS s FROM orders GROUP BY city"
        self.assertEqual(ask(["--points", sums, WORDS[0]]).out.count("\n"), ask([sums, WORDS[0]]).out.count("\n") + 1)
