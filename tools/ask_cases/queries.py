"""Cases of queries that are refused: the place, what helps, and what to write instead."""
import re

from answers.grammar import stuck
from answers.queries import Query
from ask_cases.asking import Cases, FILES, ORDERS, PRICES, RATES, SUMS, WORDS, ask, audb, meaning


class Refused(Cases):
    """Each refusal of a query: where, why, and what to write instead, which audb must take."""

    def explains(self, query, note, instead=None, asked=(), words=WORDS):
        """A query is refused with a caret below the byte that audb names, this note, and this query in its stead."""
        done = ask([query, *words])
        lines = done.err.rstrip("\n").split("\n")
        self.assertEqual(done.out, "")
        plain = audb(["answer", query, *words])
        self.assertEqual((done.status, lines[0]), (plain.returncode, "ask: " + plain.stderr.decode().strip()[len("audb: "):]))
        byte = int(re.search(r"at byte ([0-9]+)", lines[0])[1])
        self.assertTrue(lines[1][lines[2].index("^"):].startswith(query.encode()[byte:byte + 20].decode()), done.err)
        self.assertIn(note, "\n".join(lines[3:]))
        found = lines.index("Write instead:") if "Write instead:" in lines else None
        self.assertEqual(found is None, instead is None, done.err)
        if instead is not None:
            self.assertEqual(lines[found + 1].strip(), instead)
            self.assertEqual(ask([*asked, instead, *words]).status, 0, instead)
        self.assertEqual([line for line in lines if line.startswith("and ask")],
                         ["and ask it with " + " ".join(asked)] if asked else [])

    def means(self, query, note, instead, asked=()):
        """The query that is written in the stead of another gives the rows that this one has in SQL."""
        self.explains(query, note, instead, asked)
        self.assertEqual(meaning(instead), meaning(query))

    def test_joins(self):
        note = "There is no JOIN: tables stand in FROM with commas, and what joins them in WHERE."
        for query, instead in (
                ("SELECT o.id FROM orders o JOIN rates r ON o.city = r.city",
                 "SELECT o.id FROM orders o, rates r WHERE o.city = r.city"),
                ("SELECT id FROM orders INNER JOIN rates ON orders.city = rates.city WHERE id > 1 OR fee = 3",
                 "SELECT id FROM orders, rates WHERE orders.city = rates.city AND (id > 1 OR fee = 3)"),
                ("SELECT o.id FROM orders AS o JOIN rates AS r USING (city) JOIN prices p ON p.item = 'tea' AND r.fee < 9",
                 "SELECT o.id FROM orders AS o, rates AS r, prices p WHERE o.city = r.city AND p.item = 'tea' AND r.fee < 9"),
                ("SELECT o.id FROM orders o CROSS JOIN rates r", "SELECT o.id FROM orders o, rates r"),
                ("SELECT n FROM (SELECT o.id AS n FROM orders o JOIN rates r ON o.city = r.city) x GROUP BY n",
                 "SELECT n FROM (SELECT o.id AS n FROM orders o, rates r WHERE o.city = r.city) x GROUP BY n")):
            with self.subTest(query):
                self.means(query, note, instead)
        self.explains("SELECT o.id FROM orders o LEFT OUTER JOIN rates r ON o.city = r.city", "There is no outer join, so the "
                      "rows without a partner are missing here", "SELECT o.id FROM orders o, rates r WHERE o.city = r.city")
        self.explains("SELECT id FROM orders NATURAL JOIN rates", "There is no NATURAL JOIN")

    def test_order_and_limit(self):
        note = "An answer has no order of its own: --sort and --limit order and cut what is shown."
        for query, instead, words in (
                ("SELECT id FROM orders ORDER BY id", "SELECT id FROM orders", ["--sort", "id"]),
                (SUMS + " ORDER BY s DESC, city LIMIT 5", SUMS, ["--sort", "s:desc", "--sort", "city", "--limit", "5"]),
                (SUMS + " ORDER BY SUM(amount) DESC", SUMS, ["--sort", "s:desc"]),
                ("SELECT o.id FROM orders o ORDER BY o.id ASC;", "SELECT o.id FROM orders o;", ["--sort", "id"]),
                ("SELECT amount * 2, id FROM orders WHERE id > 0 ORDER BY 1 DESC, 2",
                 "SELECT amount * 2, id FROM orders WHERE id > 0", ["--sort", "col1:desc", "--sort", "id"]),
                ("SELECT id FROM orders LIMIT 2", "SELECT id FROM orders", ["--limit", "2"]),
                ("SELECT id AS n FROM orders UNION ALL SELECT fee FROM rates ORDER BY 1",
                 "SELECT id AS n FROM orders UNION ALL SELECT fee FROM rates", ["--sort", "n"])):
            with self.subTest(query):
                self.explains(query, note, instead, words)
        star = "SELECT * FROM orders o, rates r WHERE o.city = r.city"
        self.explains(star + " ORDER BY fee, city, o.id DESC", note + " No one column of it stands for city.", star,
                      ["--sort", "fee", "--sort", "id:desc"])
        self.explains("SELECT id FROM orders ORDER BY amount + 1", note + " No one column of it stands for amount + 1.",
                      "SELECT id FROM orders")
        self.explains("SELECT id FROM orders LIMIT 2 OFFSET 4", "no OFFSET")
        self.explains("SELECT id FROM (SELECT id FROM orders LIMIT 2) x", "no LIMIT in an inner query")

    def test_in(self):
        for query, instead in (
                ("SELECT id FROM orders WHERE city IN ('Oslo', 'Moss')",
                 "SELECT id FROM orders WHERE (city = 'Oslo' OR city = 'Moss')"),
                ("SELECT id FROM orders WHERE id > 1 AND amount + 1 NOT IN (4, 5)",
                 "SELECT id FROM orders WHERE id > 1 AND (amount + 1 <> 4 AND amount + 1 <> 5)"),
                ("SELECT id FROM orders WHERE city IN (SELECT city FROM rates WHERE fee > 3) AND id > 1",
                 "SELECT id FROM orders, (SELECT DISTINCT city AS listed FROM rates WHERE fee > 3) listed_rows WHERE city = "
                 "listed_rows.listed AND id > 1"),
                ("SELECT * FROM orders WHERE city IN (SELECT city FROM rates)",
                 "SELECT orders.* FROM orders, (SELECT DISTINCT city AS listed FROM rates) listed_rows WHERE city = "
                 "listed_rows.listed")):
            with self.subTest(query):
                self.means(query, "There is no IN", instead)
        self.explains("SELECT id FROM orders WHERE city NOT IN (SELECT city FROM rates)", "EXCEPT")

    def test_between(self):
        for query, instead in (
                ("SELECT id FROM orders WHERE amount BETWEEN 5 AND 8 AND id > 1",
                 "SELECT id FROM orders WHERE (amount >= 5 AND amount <= 8) AND id > 1"),
                ("SELECT id FROM orders WHERE amount NOT BETWEEN 5 AND 2 * 4 OR id = 1",
                 "SELECT id FROM orders WHERE (amount < 5 OR amount > 2 * 4) OR id = 1")):
            with self.subTest(query):
                self.means(query, "There is no BETWEEN", instead)

    def test_like(self):
        for query, instead in (
                ("SELECT id FROM orders WHERE city LIKE 'Os%'", "SELECT id FROM orders WHERE (city >= 'Os' AND city < 'Ot')"),
                ("SELECT id FROM orders WHERE city NOT LIKE 'Os%'", "SELECT id FROM orders WHERE (city < 'Os' OR city >= 'Ot')"),
                ("SELECT id FROM orders WHERE city LIKE 'it''s'", "SELECT id FROM orders WHERE city = 'it''s'"),
                ("SELECT id FROM orders WHERE city LIKE 'a&%'", "SELECT id FROM orders WHERE (city >= 'a&' AND city < 'a''')")):
            with self.subTest(query):
                self.means(query, "There is no LIKE", instead)
        self.explains("SELECT id FROM orders WHERE city LIKE '%lo'", "of other patterns the file needs a column")

    def test_null(self):
        for query, note, instead in (
                ("SELECT city FROM rates WHERE city IS NULL", "There is no NULL: an empty cell is the text ''",
                 "SELECT city FROM rates WHERE city = ''"),
                ("SELECT r.city FROM rates r WHERE r.since IS NOT NULL AND fee > 3", "There is no NULL",
                 "SELECT r.city FROM rates r WHERE r.since <> '' AND fee > 3"),
                ("SELECT city FROM rates WHERE fee IS NOT NULL", "no cell of fee is empty, since it is a column of kind int",
                 "SELECT city FROM rates WHERE TRUE")):
            with self.subTest(query):
                self.explains(query, note, instead)
        self.explains("SELECT COALESCE(fee, 0) AS f FROM rates", "There is no COALESCE", "SELECT fee AS f FROM rates")

    def test_averages(self):
        for query, instead in (
                ("SELECT AVG(amount) FROM orders", "SELECT SUM(amount) AS amount_sum, COUNT(*) AS amount_count FROM orders"),
                ("SELECT city, AVG(amount * 2) AS mean FROM orders GROUP BY city",
                 "SELECT city, SUM(amount * 2) AS mean_sum, COUNT(*) AS mean_count FROM orders GROUP BY city"),
                ("SELECT city FROM orders GROUP BY city HAVING AVG(amount) > 5",
                 "SELECT city FROM orders GROUP BY city HAVING SUM(amount) > (5) * COUNT(*)"),
                ("SELECT AVG(o.amount) FROM orders o, rates r WHERE o.city = r.city",
                 "SELECT SUM(o.amount) AS amount_sum, SUM(o.one) AS amount_count FROM (SELECT *, 1 AS one FROM orders) o, "
                 "rates r WHERE o.city = r.city")):
            with self.subTest(query):
                self.explains(query, "There is no AVG", instead)
        self.explains("SELECT AVG(amount) + 1 FROM orders", "There is no AVG")

    def test_distinct_counts(self):
        note = "There is no COUNT(DISTINCT ..)"
        for query, instead in (
                ("SELECT COUNT(DISTINCT city) AS n FROM orders WHERE id > 1",
                 "SELECT COUNT(*) AS n FROM (SELECT DISTINCT city AS value FROM orders WHERE id > 1) distinct_rows"),
                ("SELECT o.city, COUNT(DISTINCT o.amount) FROM orders o GROUP BY o.city",
                 "SELECT city, COUNT(*) FROM (SELECT DISTINCT o.city, o.amount AS value FROM orders o) distinct_rows GROUP BY "
                 "city"),
                ("SELECT COUNT(DISTINCT o.city) FROM orders o, rates r WHERE o.city = r.city",
                 "SELECT SUM(distinct_rows.one) FROM (SELECT *, 1 AS one FROM (SELECT DISTINCT o.city AS value FROM orders o, "
                 "rates r WHERE o.city = r.city) distinct_rows) distinct_rows")):
            with self.subTest(query):
                self.means(query, note, instead)
        self.explains("SELECT COUNT(DISTINCT city), SUM(amount) FROM orders", note)

    def test_counts_over_joins(self):
        self.means("SELECT r.fee, COUNT(*) AS n, SUM(2) FROM orders o, rates r WHERE o.city = r.city GROUP BY r.fee",
                   "COUNT isn't counted over a join",
                   "SELECT r.fee, SUM(o.one) AS n, SUM((2) * o.one) FROM (SELECT *, 1 AS one FROM orders) o, rates r WHERE "
                   "o.city = r.city GROUP BY r.fee")

    def test_counts_over_joins_are_the_counts(self):
        files = {"orders.csv": ORDERS, "rates.csv": RATES.replace("fee", "one")}
        query = "SELECT COUNT(*) AS n FROM orders o, rates r WHERE o.city = r.city"
        instead = ask([query, *WORDS[:2]], files).err.split("Write instead:\n  ")[1].strip()
        self.assertIn("1 AS one2", instead)
        self.assertIn("3 [1 .. 5]", ask([instead, *WORDS[:2]], files).out)

    def test_decimals_that_are_text(self):
        note = ("Column price of prices.csv is text, since record 1 (line 2) has '2.50'. In the file's first line write "
                "price:dec2 in the place of price.")
        files = {**FILES, "prices.csv": PRICES.replace("price", "price:dec2")}
        for query in ("SELECT SUM(price) FROM prices", "SELECT item FROM prices WHERE price > "
                      "2.5", "SELECT price * 2 FROM prices",
                      "SELECT p.price + 1 FROM prices p"):
            with self.subTest(query):
                self.explains(query, note)
                self.assertEqual(ask([query, WORDS[2]], files).status, 0)

    def test_numbers_that_are_text(self):
        self.explains("SELECT SUM(left) FROM prices", "Column left of prices.csv is text, since record 2 (line 3) is empty there")
        done = ask(["SELECT x + 1 FROM t", "t=t.csv"], {"t.csv": "x\n5\n\"1,000\"\n7\n"})
        self.assertEqual(done.err.split("\n")[3], "Column x of t.csv is text, since record 2 (line 3) has '1,000', which is no "
                         "number as audb reads it.")
        self.explains("SELECT id FROM orders WHERE id = '3'", "A number stands without quotes.",
                      "SELECT id FROM orders WHERE id = 3")
        self.explains("SELECT id FROM orders WHERE city > 3", "city is a column of texts",
                      "SELECT id FROM orders WHERE city > '3'")
        self.explains("SELECT city + id FROM orders", "The kinds here: city is text, id is int.")

    def test_names(self):
        for query, note, instead in (
                ("SELECT amont FROM orders", "The columns there are id, city, amount; perhaps amount is "
                 "meant.", "SELECT amount FROM orders"),
                ("SELECT o.zz FROM orders o", "The columns there are id, city, amount.", None),
                ("SELECT id FROM order", "The tables are orders, rates, prices, by the names before the = of their words; "
                 "perhaps orders is meant.",
                 "SELECT id FROM orders"),
                ("SELECT x.id FROM orders o", "The tables in sight here are o.", None),
                ("SELECT id FROM orders WHERE city = \"Oslo\"", "A text stands between single quotes",
                 "SELECT id FROM orders WHERE city = 'Oslo'"),
                ("SELECT id FROM orders WHERE city = Oslo", "A text stands between single quotes",
                 "SELECT id FROM orders WHERE city = 'Oslo'"),
                ("SELECT amount * 2 AS twice FROM orders WHERE twice > 9", "The alias of an item isn't known in WHERE",
                 "SELECT amount * 2 AS twice FROM orders WHERE (amount * 2) > 9"),
                ("SELECT city FROM orders o, rates r WHERE o.city = r.city", "write o.city or r.city",
                 "SELECT o.city FROM orders o, rates r WHERE o.city = r.city"),
                ("SELECT 1 FROM orders, orders", "give one an alias", "SELECT 1 FROM orders, orders orders_again")):
            with self.subTest(query):
                self.explains(query, note, instead)

    def test_groups(self):
        for query, note, instead in (
                ("SELECT city, COUNT(*) FROM orders", "Beside aggregates stand only columns of GROUP BY",
                 "SELECT city, COUNT(*) FROM orders GROUP BY city"),
                ("SELECT id, o.city, COUNT(*) FROM orders o WHERE id > 1 GROUP BY id", "Beside aggregates stand only",
                 "SELECT id, o.city, COUNT(*) FROM orders o WHERE id > 1 GROUP BY id, o.city"),
                ("SELECT *, COUNT(*) FROM orders", "Beside aggregates stand only", None),
                ("SELECT COUNT(*) FROM orders HAVING id > 1", "A condition on single rows stands in WHERE", None),
                ("SELECT city FROM orders WHERE SUM(amount) > 3 AND id > 1 GROUP BY city", "its condition stands in HAVING",
                 "SELECT city FROM orders WHERE id > 1 GROUP BY city HAVING SUM(amount) > 3"),
                ("SELECT SUM(COUNT(*)) FROM orders", "never inside another aggregate", None),
                ("SELECT id FROM orders UNION SELECT id, city FROM orders", "as many columns", None)):
            with self.subTest(query):
                self.explains(query, note, instead)

    def test_least_and_greatest(self):
        for query, instead in (
                ("SELECT MAX(amount), MIN(id) FROM orders WHERE id > 1",
                 "SELECT MAX(amount), MIN(id) FROM (SELECT *, 1 AS one FROM orders) orders WHERE id > 1 GROUP BY orders.one"),
                ("SELECT MAX(fee) FROM rates", "SELECT MAX(fee) FROM (SELECT *, 1 AS one FROM rates) rates GROUP BY rates.one"),
                ("SELECT MIN(o.id) FROM orders o, rates r WHERE o.city = r.city HAVING MAX(r.fee) > 3",
                 "SELECT MIN(o.id) FROM (SELECT *, 1 AS one FROM orders) o, rates r WHERE o.city = r.city GROUP BY o.one HAVING "
                 "MAX(r.fee) > 3")):
            with self.subTest(query):
                self.means(query, "a column of ones makes all rows one group", instead)

    def test_other_words(self):
        for query, note, instead in (
                ("SELECT amount / 2 FROM orders", "There is no division", None),
                ("SELECT `id` FROM orders", "Texts stand between", "SELECT \"id\" FROM orders"),
                ("SELECT id FROM orders WHERE city = \u2018Oslo\u2019", "Texts stand between", "SELECT id FROM orders WHERE "
                 "city = 'Oslo'"),
                ("SELECT \u00e5 FROM orders", "(LATIN SMALL LETTER A WITH RING ABOVE) stands in a query only within", None),
                ("SELECT 'a FROM orders", "The quote that begins here has no end", None),
                ("SELECT 2nd FROM orders", "a name that begins with a digit stands in quotes, as \"2nd\"", None),
                ("SELECT ROUND(amount) FROM orders", "There is no function ROUND", None),
                ("WITH x AS (SELECT 1 FROM orders) SELECT 1 FROM x", "There is no WITH", None),
                ("SELECT id FROM orders INTERSECT SELECT id FROM orders", "There is no INTERSECT", None),
                ("SELECT CASE city WHEN 'Oslo' THEN 1 ELSE 0 END FROM orders", "CASE needs its conditions in full",
                 "SELECT CASE WHEN city = 'Oslo' THEN 1 ELSE 0 END FROM orders"),
                ("SELECT CASE WHEN id > 1 THEN 1 END FROM orders", "CASE needs an ELSE", None),
                ("SELECT city FROM orders GROUP BY 1", "1 doesn't fit behind BY, where a column's name could stand.", None),
                ("SELECT 1", "The end doesn't fit behind 1, where FROM could stand.", None),
                ("", "The query is empty.", None),
                ("UPDATE orders", "a query begins with SELECT", None),
                ("SELECT 1 FROM orders; SELECT 2 FROM orders", "One query is asked at a time", None),
                ("SELECT 1 FROM orders, WHERE", "WHERE doesn't fit behind ,, where a table's name could stand.", None),
                ("SELECT " + "(" * 33 + "1" + ")" * 33 + " FROM orders", "At most 32 brackets", None)):
            with self.subTest(query):
                self.explains(query, note, instead)

    def test_several_at_once(self):
        self.explains("SELECT r.city, AVG(o.amount) FROM orders o JOIN rates r ON o.city = r.city WHERE r.fee BETWEEN 1 AND 4 AND "
                      "r.city IN ('Oslo') GROUP BY r.city ORDER BY r.city DESC LIMIT 3", "There is no AVG",
                      "SELECT r.city, SUM(o.amount) AS amount_sum, SUM(o.one) AS amount_count FROM (SELECT *, 1 AS one FROM "
                      "orders) o, rates r WHERE o.city = r.city AND (r.fee >= 1 AND r.fee <= 4) AND (r.city = 'Oslo') GROUP BY "
                      "r.city", ["--sort", "city:desc", "--limit", "3"])
        self.explains("SELECT city, AVG(amount) AS mean FROM orders GROUP BY city ORDER BY mean", "No one column of it stands for "
                      "mean", "SELECT city, SUM(amount) AS mean_sum, COUNT(*) AS mean_count FROM orders GROUP BY city")

    def test_carets(self):
        for query, lines in (
                ("SELECT id,\n\tnme\nFROM orders", ["  line 2:  nme", "           ^"]),
                ("SELECT '\u65e5', nme FROM orders", ["  SELECT '\u65e5', nme FROM orders", "               ^"]),
                ("SELECT id" + " + 1" * 40 + " + nme FROM orders", ["  .." + (" + 1" * 40)[-47:] + " + nme FROM orders",
                                                                    " " * 54 + "^"])):
            with self.subTest(query):
                found = ask([query, WORDS[0]]).err.split("\n")
                self.assertEqual(found[1:3], lines)

    def test_what_the_grammar_has(self):
        """The words at which a query leaves the grammar are told from those at which audb's own reading of it ends."""
        for query, at in (
                ("SELECT ALL * FROM orders o WHERE NOT -1 < 2 * (id + 1) OR TRUE;", None), ("(SELECT 1 x FROM orders)", None),
                ("SELECT o.*, COUNT(*), SUM(-id) AS s FROM (SELECT 1 FROM orders) AS o GROUP BY o.id, \"x\" HAVING 'a' = 'b'", None),
                ("SELECT CASE WHEN a THEN 1 WHEN b THEN 2 ELSE 3 END FROM t UNION ALL (SELECT 2 FROM t) EXCEPT SELECT 3 FROM t", None),
                ("SELECT 1 FROM", "end"), ("SELECT FROM t", "FROM"), ("SELECT (1 FROM t", "FROM"), ("SELECT 1 FROM t WHERE", "end"),
                ("SELECT 1 FROM t WHERE a = b = c", "="), ("SELECT NOT NOT a FROM t", "NOT"), ("SELECT 1 FROM (SELECT 2 FROM t)", "end"),
                ("SELECT 1 FROM t GROUP city", "city"), ("SELECT 1 FROM t UNION", "end"), ("SELECT SUM(*) FROM t", "*"),
                ("SELECT CASE WHEN a THEN 1 END FROM t", "END"), ("SELECT 1 FROM t;;", ";"), ("SELECT a. FROM t", "FROM")):
            with self.subTest(query):
                found = stuck(Query(query))
                self.assertEqual(found and (Query(query).token(found.at).text or "end"), at)
                if at is None:
                    self.assertNotIn(b"syntax error", audb(["answer", query, *WORDS, "t=rates.csv"]).stderr)
                else:
                    self.assertIn(b"syntax error", audb(["answer", query, *WORDS, "t=rates.csv"]).stderr)
