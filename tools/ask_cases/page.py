"""Cases of the page, of its pictures, and of what a browser makes of it."""
import csv
import io
import json
import re
import shutil
import subprocess
import tempfile
import unittest

from answers import charts, rows
from ask_cases import asking
from ask_cases.asking import Cases, HERE, SUMS, WORDS, ask, audb, read, spent, write_files


class Page(Cases):
    def page(self, words, files=None):
        """Returns the page that a question gives, and the CSV that audb prints."""
        done = ask(["--html", "a.html", *words], files)
        self.assertEqual((done.status, done.err), (0, ""))
        return done.left["a.html"].decode(), audb(["answer", *words], files).stdout.decode()

    def test_it_has_all(self):
        page, _ = self.page([SUMS, *WORDS[:2]])
        for text in (f"<pre>{SUMS}</pre>", "<td>orders</td><td>orders.csv</td><td class=number>3</td><td class=number>1</td>",
                     "<td class=number>22.2 %</td><td>city 33.3 %, amount 33.3 %</td>", "<td>none</td>",
                     "2 rows: 1 certain (=), 1 expected (~)",
                     "<figcaption>s</figcaption>", '<td>Oslo <span class="range">[Bergen .. Oslo]</span></td>',
                     '<td class="number">17</td><td class="range">[0 .. 24]</td>', "@media print"):
            with self.subTest(text):
                self.assertIn(text, page)

    def test_it_takes_nothing_from_outside(self):
        page, _ = self.page([SUMS, WORDS[0]])
        self.assertEqual(re.findall(r"""https?:|//[a-z]|src=|href=|url\(|@import|<link|<img|<iframe""", page), [])
        self.assertIn("default-src 'none'", page)

    def test_cells_are_escaped(self):
        bad = "</script><script>alert(1)</script>&lt;\"'"
        files = {"t.csv": f"x,n\n\"{bad.replace(chr(34), chr(34) * 2)}\",5\n"}
        page, text = self.page([f"SELECT x AS \"<b>\", n AS \"n<i>\" FROM t WHERE x <> '<u>'", "t=t.csv"], files)
        self.assertEqual(page.count("<script"), 2)
        for part in ("<b>", "<u>", "<i>", "alert(1)</script>"):
            self.assertNotIn(part, page)
        self.assertIn(bad, text.replace('""', '"'))

    def data(self, page):
        return json.loads(re.search(r'<script type="application/json" id="data">(.*?)</script>', page, re.S)[1])

    def test_the_data_is_the_answer(self):
        quoted = {"t.csv": "a\n\"x,\"\"y\"\"\nz\"\n\n5\n"}
        for words, files in (([SUMS, WORDS[0]], None), (["SELECT * FROM t", "t=t.csv"], quoted)):
            page, text = self.page(words, files)
            found = self.data(page)
            self.assertEqual([found["header"], *found["rows"]], list(csv.reader(io.StringIO(text, newline=""))))

    def test_left_out(self):
        options = ["--html", "a.html", "--sort", "id:desc", "--only", "certain", "--limit", "1"]
        done = ask([*options, "SELECT id FROM orders", WORDS[0]])
        page = done.left["a.html"].decode()
        self.assertEqual(done.out, "a.html: 1 row: 1 certain (=)\n")
        self.assertIn("left out: 1 by --only, 1 by --limit", page)
        self.assertEqual(self.data(page)["rows"], [["1", "1", "1", "2", "2", "2"]])

    def test_a_page_and_json(self):
        done = ask(["--html", "a.html", "--json", SUMS, WORDS[0]])
        self.assertEqual(len(json.loads(done.out)["rows"]), 2)
        self.assertIn("a.html", done.left)

    def test_no_row(self):
        page, _ = self.page(["SELECT id FROM orders WHERE id > 9", WORDS[0]])
        self.assertIn("no row, in any world", page)

    def test_ten_thousand_rows_take_little_time(self):
        lines = [f"{n},guess,{n},city {n % 97},{n % 1000}.{n % 100:02}\n{n},alt,{n},city {n % 89},{n % 900}.{n % 99:02}\n"
                 for n in range(10_000)]
        files = {"t.csv": "_block,_role,id:int,city:text,amount:dec2\n" + "".join(lines)}
        words = ["SELECT * FROM t", "t=t.csv"]
        with tempfile.TemporaryDirectory() as room:
            write_files(room, files)
            alone = spent([asking.PROGRAM, "answer", *words], room)
            both = spent([f"{HERE}/ask", "--audb", asking.PROGRAM, "--html", "a.html", *words], room)
            self.assertIn("10,000 rows", read(f"{room}/a.html").decode())
        self.assertLess(both - alone, 2)


class Charts(Cases):
    def answer(self, header, lines):
        return rows.read_answer(header + "\n" + "\n".join(lines) + "\n")

    def test_a_distribution_counts_what_must_and_may_be(self):
        answer = self.answer("row_lo,row,row_hi,x_lo,x,x_hi", ["1,1,1,1,1,1", "0,1,2,1,2,3", "0,0,1,3,3,3"])
        self.assertEqual([(bar.label, bar.ends) for bar in charts.part_bars(answer, 0)],
                         [("1", (1, 1, 3)), ("2", (0, 1, 2)), ("3", (0, 0, 3))])

    def test_parts_of_decimals(self):
        answer = self.answer("row_lo,row,row_hi,x_lo,x,x_hi", ["1,1,1,-0.50,-0.50,-0.50", "1,1,1,10.00,10.00,1200.00"])
        bars = charts.part_bars(answer, 0)
        self.assertLessEqual(len(bars), charts.MOST_PARTS + 1)
        self.assertEqual((bars[0].label, bars[0].ends), ("-100.00 to -0.01", (1, 1, 1)))
        self.assertEqual(bars[1].ends, (0, 1, 1))

    def test_which_columns_are_labels(self):
        answer = self.answer("row_lo,row,row_hi,id_lo,id,id_hi,x_lo,x,x_hi", ["1,1,1,1,1,1,5,6,7", "1,1,1,2,2,2,5,6,7"])
        self.assertEqual(charts.label_columns(answer), [0])
        self.assertEqual([bar.label for bar in charts.line_bars(answer, 1, [0])], ["1", "2"])

    def test_axes(self):
        for ends, axis, marks in (([(5, 5, 17)], (0, 17), [0, 5, 10, 15]), ([(0, 0, 0)], (0, 1), [0, 1]),
                                  ([(1000, 1000, 1010)], (1000, 1010), [1000, 1002, 1004, 1006, 1008, 1010]),
                                  ([(-9, -3, -2)], (-9, 0), [-8, -6, -4, -2, 0])):
            with self.subTest(ends):
                bars = [charts.Bar("x", end, ("", "", ""), "certain") for end in ends]
                self.assertEqual(charts.axis_of(bars), axis)
                self.assertEqual(charts.ticks(*axis), marks)

    def test_great_numbers(self):
        top = str(2**127 - 1)
        answer = self.answer("row_lo,row,row_hi,x_lo,x,x_hi,y_lo,y,y_hi", [f"1,1,1,-{top},0,{top},a,a,a"])
        self.assertIn("<svg", charts.figures(answer))


BROWSER = shutil.which("chromium") or shutil.which("chromium-browser")
# What a reader does with a page: each line of the outcome is the first cells of the rows that are shown then.
PROBE = """<script>
const heads = table.tHead.rows[0].cells;
const seen = () => Array.from(body.rows).filter((row) => !row.hidden).map((row) => row.cells[1].textContent).join("|");
const typed = (element, value, kind) => { element.value = value; element.dispatchEvent(new Event(kind)); };
const told = [seen()];
heads[2].querySelector("button").click(); told.push(seen());
heads[2].querySelector("button").click(); told.push(seen(), heads[2].getAttribute("aria-sort"));
typed(search, "moss 1", "input"); told.push(seen(), shown.textContent, asCsv());
typed(search, "", "input"); typed(mark, "expected", "change"); told.push(seen());
document.title = JSON.stringify(told);
</script>"""


@unittest.skipUnless(BROWSER, "no Chromium here")
class Browser(Cases):
    FILES = {"t.csv": "_block,_role,city:text,n:int\na,guess,Oslo,9\nb,guess,Bergen,10\nc,guess,\"Moss, 1\",1000\n"
             "d,guess,Hamar,-2\nd,absent,,\n"}
    FLAGS = ("--headless", "--no-sandbox", "--disable-gpu", "--hide-scrollbars", "--window-size=900,1000")

    def browse(self, room, *words):
        return subprocess.run([BROWSER, *self.FLAGS, f"--user-data-dir={room}/profile", *words, f"file://{room}/a.html"],
                              cwd=room, capture_output=True, text=True, timeout=600, check=False)

    def test_it_can_be_sorted_searched_saved_and_printed(self):
        page = ask(["--html", "a.html", "t=t.csv"], self.FILES).left["a.html"].decode()
        with tempfile.TemporaryDirectory() as room:
            write_files(room, {"a.html": page.replace("</body>", PROBE + "</body>")})
            found = re.search(r"<title>(.*?)</title>", self.browse(room, "--dump-dom").stdout, re.S)
            told = json.loads(found[1].replace("&quot;", '"').replace("&lt;", "<").replace("&gt;", ">").replace("&amp;", "&"))
            self.assertEqual(told, [
                "Bergen|Hamar|Moss, 1|Oslo", "Hamar|Oslo|Bergen|Moss, 1", "Moss, 1|Bergen|Oslo|Hamar", "descending", "Moss, 1",
                "1 of 4 rows", "row_lo,row,row_hi,city_lo,city,city_hi,n_lo,n,n_hi\n"
                "1,1,1,\"Moss, 1\",\"Moss, 1\",\"Moss, 1\",1000,1000,1000\n", "Hamar"])
            write_files(room, {"a.html": page})
            self.browse(room, "--screenshot=a.png")
            self.browse(room, "--print-to-pdf=a.pdf", "--no-pdf-header-footer")
            self.assertEqual(read(f"{room}/a.png")[:4], b"\x89PNG")
            self.assertEqual(read(f"{room}/a.pdf")[:4], b"%PDF")
