"""Cases of files that are refused, of all lines that audb has, and of what share of a table is unsure."""
import re
import tempfile

from answers import refusals, tables
from answers.instead import MENDS
from ask_cases.asking import Cases, FILES, ORDERS, RATES, SUMS, TOP, WORDS, ask, write_files


class Files(Cases):
    def test_tables_that_are_none(self):
        block = "_block,_role,a:int\n"
        for text, line in (
                (b"", "no header; the file is empty"),
                (b"a,b\n1,x\n2,\xe5\n", "record 2 (line 3), column b: '\ufffd' is not UTF-8; save the file as UTF-8, or let blocks convert --encoding read it"),
                (",".join(f"c{n}" for n in range(65)) + "\n", "65 columns; a table has at most 64"),
                ("n" * 129 + "\n", f"record 0 (line 1), column '{'n' * 37}...': a name of more than 128 bytes"),
                ("a,b,A\n", "record 0 (line 1): columns 1 and 3 have the name 'A', capitals or not"),
                ("_block,_role,a:real\n", "record 0 (line 1), column 'a:real': no kind stands behind the colon; they are int, "
                 "text, flag, and dec1 to dec9"),
                ("a,b\n\n1,x\n2\n", "record 2 (line 4): 1 field, where the header has 2"),
                ("a,b\n1,x,y\n", "record 1 (line 2): 3 fields, where the header has 2; a field with a comma in it stands "
                 "between double quotes"),
                (block + "x,maybe,1\n", "record 1 (line 2): 'maybe' is no role; they are guess, alt, absent, absent-guess"),
                (block + "x,guess,1\nx,alt,1.5\n", "record 2 (line 3), column a: '1.5' is not a whole number, which a:int wants"),
                ("a:text,p:dec2\n\"x\ny\",1.25\nz,\"1,255\"\n", "record 2 (line 4), column p: '1,255' is not a number with at "
                 "most 2 digits behind its point, which p:dec2 wants; write 1.255"),
                ("a:flag\nyes\n", "record 1 (line 2), column a: 'yes' is not true or false, which a:flag wants"),
                (block + "x,guess,1..2..3\n", "record 1 (line 2), column a: '1..2..3' is a range, which stands in a table "
                 "whose header begins with _block,_role,_times alone"),
                (block + "x,guess,1\ny,guess,1\ny,guess,2\n", "block 'y' (records 2, 3, from line 3) has two guesses"),
                (block + "x,alt,1\n", "block 'x' (record 1, from line 2) has no guess; one record of a block has the role "
                 "guess or absent-guess"),
                (block + "x,absent-guess,\n", "block 'x' (record 1, from line 2) has no alternative, only absence"),
                (block + "x,guess,1\nx,absent,\nx,absent,\n", "block 'x' (records 1, 2, 3, from line 2) has two absent records"),
                (block + "x,guess,1\nx,absent,7\n", "record 2 (line 3), column a: '7', where an absent record has no values"),
                ("_block,_role,_times,a:int\nx,guess,3..2..5,1\n", "record 1 (line 2), column _times: '3..2..5' is no number "
                 "of copies; that is a number, or three in order as in 2..3..5")):
            with self.subTest(line):
                files = {"rates.csv": RATES, "t.csv": text}
                self.refuses(["SELECT 1 FROM t", "r=rates.csv", "t=t.csv"], 3, f"t.csv: {line}", files)

    def test_files_that_can_not_be_read(self):
        self.refuses([SUMS, "orders=none.csv"], 9, "none.csv: no such file")
        self.refuses([SUMS, WORDS[0], "x=."], 5, ".: cannot be read (a folder, or its rights forbid it)")
        self.refuses(["SELECT 1 FROM t", "t=t.csv"], 8, "t.csv: more than 8,388,608 bytes, which a file may have",
                     {"t.csv": "x" * 8_388_609})

    def test_nothing_is_written_where_audb_refuses(self):
        self.refuses(["--html", "a.html", SUMS, "orders=none.csv"], 9, "none.csv: no such file")
        done = ask(["--html", "a.html", "SELECT z FROM orders", WORDS[0]], {**FILES, "a.html": "old"})
        self.assertEqual((done.status, done.left["a.html"]), (1, b"old"))
        self.refuses(["--html", "no/a.html", SUMS, WORDS[0]], 6, "no/a.html: No such file or directory")

    def test_numbers(self):
        self.refuses([f"SELECT amount + {2**127 - 1} FROM orders", WORDS[0]], 4, "a number leaves 128 bits: a sum or a product "
                     "of the answer is too large, perhaps at the upper bounds alone")

    def test_every_line_is_explained(self):
        """Each text of a line that the program's own definition has stands in one of the patterns, with a number at each gap."""
        with open(f"{TOP}/crates/au_cli/specs/Lines.antt", encoding="utf-8") as file:
            lines = re.findall(r"^(query|usage|limit|table|plan|outcome)_?\w*_text (.+?) = (.+)$", file.read(), re.M)
        question = refusals.Question("SELECT 1 FROM t", ["t=none.csv"], lambda text: "")
        told = 0
        for group, _, body in lines:
            text = re.sub(r'codes "([^"]*)"|decimal \w|one_name \w \w| \+\+ ', lambda part: part[1] if part[1] is not None else
                          "0 and 0 have one name" if part[0].startswith("one_name") else "" if "++" in part[0] else "0", body)
            if "fault_text" in text or text == "[]":
                continue
            line = {"table": "file 0: ", "usage": "", "outcome": ""}.get(group, f"{group}: ") + text
            with self.subTest(line):
                told += 1
                self.assertTrue(any(re.fullmatch(pattern, line) for pattern, _ in refusals.PATTERNS), line)
                if group == "table" and text != "out of memory":
                    self.assertTrue(any(re.fullmatch(pattern, text) for pattern, _ in refusals.TABLE_PATTERNS), text)
                if group == "query":
                    self.assertIn(re.sub(" at byte 0", "", text), {**refusals.GENERAL, **MENDS})
                self.assertTrue(all(refusals.explained(line, question)))
        self.assertGreater(told, 50)


class Shares(Cases):
    def shares(self, text):
        with tempfile.TemporaryDirectory() as folder:
            write_files(folder, {"t.csv": text})
            share = tables.Share(tables.Table("t", f"{folder}/t.csv"))
        return share.rows, share.open, share.cells

    def test_cells_and_rows(self):
        for text, want in ((ORDERS, (3, 1, [0, 1, 1])), (RATES, (3, 0, [0, 0, 0])), ("x\n", (0, 0, [0])),
                           ("_block,_role\na,guess\nb,guess\nb,absent\n", (2, 1, [])),
                           ("_block,_role,_times,x:int,y\na,guess,1,1..2..3,1..2..3\nb,guess,0..1..1,5..5..5,\n"
                            "c,guess,2,4,x\nc,alt,3,4,y\nd,guess,1,1,\nd,absent,,,\n", (4, 3, [1, 1]))):
            with self.subTest(text):
                self.assertEqual(self.shares(text), want)
