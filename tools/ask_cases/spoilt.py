"""Cases of spoilt queries and files: ask ends as audb does, with a line of its own and no trace of a fault in itself."""
import random

from answers.instead import MENDS
from answers.refusals import Question, explained
from ask_cases.asking import Cases, FILES, ORDERS, WORDS, ask, audb

QUERIES = (
    "SELECT o.city, AVG(amount) AS mean FROM orders o LEFT JOIN rates r ON o.city = r.city GROUP BY o.city ORDER BY mean LIMIT 3",
    "SELECT id FROM orders WHERE city IN (SELECT city FROM rates WHERE fee BETWEEN 1 AND 4) OR city LIKE 'Os%'",
    "SELECT COUNT(DISTINCT r.city) FROM orders o, rates r WHERE r.since IS NOT NULL HAVING COUNT(*) > 1",
    "SELECT CASE city WHEN 'Oslo' THEN 1 END FROM orders UNION SELECT MAX(price) FROM prices",
    "SELECT * FROM (SELECT city, SUM(amount) AS s FROM orders GROUP BY city) x, rates WHERE x.city = rates.city AND s > 3.5",
)
PIECES = ("(", ")", ",", ".", ";", "*", "'", '"', "--", "\n", "/", "\u2019", "\u65e5", "JOIN", "IN", "NOT", "IS", "NULL", "AS", "CASE",
          "END", "AVG(", "COUNT(DISTINCT", "BETWEEN", "LIKE", "ORDER", "BY", "LIMIT", "2", "1x", "SELECT", "FROM", "WHERE", "USING",
          "GROUP", "UNION", "ON", "ELSE", "city", "o", "\x01")


def spoilt_query(draw):
    """A query some of whose words are gone, doubled or others."""
    words = draw.choice(QUERIES).split(" ")
    for _ in range(draw.randrange(1, 5)):
        at = draw.randrange(len(words))
        words[at:at + draw.randrange(2)] = draw.choice(([], [draw.choice(PIECES)], [draw.choice(words)] * 2))
        words = words or ["SELECT"]
    return " ".join(words)


def spoilt_file(draw):
    """A table some of whose bytes are gone or others."""
    data = bytearray(ORDERS.replace("_role", "_role,_times").replace("guess,", "guess,1..1..2,").replace("alt,", "alt,1,").encode())
    for _ in range(draw.randrange(1, 4)):
        at = draw.randrange(len(data))
        data[at:at + draw.randrange(3)] = draw.choice((b"", b",", b"\n", b'"', b"\xff", b":", b"..", b"absent", b"\x00"))
    return bytes(data)


class Spoilt(Cases):
    def ends(self, words, files):
        """ask ends with the status that audb has."""
        done, plain = ask(words, files), audb(["answer", *words], files)
        self.assertEqual(done.status, plain.returncode, (done.err, plain.stderr))
        if done.status:
            self.assertTrue(done.err.startswith("ask: ") and done.out == "", done.err)
            self.assertTrue(all(line.isprintable() for line in done.err.split("\n")), done.err)

    def test_queries(self):
        draw = random.Random(49)
        for turn in range(150):
            query = spoilt_query(draw)
            with self.subTest(turn=turn, query=query):
                self.ends([query, *WORDS], FILES)

    def test_any_line_over_any_query(self):
        """What is said of a query never fails, whichever line it is refused by and whatever is said of the next one."""
        draw = random.Random(49)
        faults = [*MENDS, "syntax error", "unexpected character", "bad number", "different numbers of columns"]

        def line(text):
            return f"query: {draw.choice(faults)} at byte {draw.randrange(len(text.encode()) + 1)}" if draw.randrange(3) else ""

        for turn in range(200):
            query = spoilt_query(draw)
            with self.subTest(turn=turn, query=query):
                self.assertTrue(explained(line(query), Question(query, ["t=none.csv"], line)))

    def test_files(self):
        draw = random.Random(49)
        for turn in range(100):
            data = spoilt_file(draw)
            with self.subTest(turn=turn, data=data):
                self.ends(["SELECT * FROM t", "t=t.csv"], {"t.csv": data})
