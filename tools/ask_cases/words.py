"""Cases of the words of the command, of finding audb, and of what a terminal is told."""
import os
import pty
import shutil
import subprocess
import tempfile

from ask_cases import asking
from ask_cases.asking import Cases, FILES, HERE, SUMS, WORDS, ask, write_files


class Words(Cases):
    def test_a_query_in_a_file(self):
        want = ask([SUMS, WORDS[0]]).out
        for text in (SUMS, f"\ufeff-- how much\n{SUMS}\n;\n", f"--\n{SUMS}"):
            with self.subTest(text):
                self.shows(["--file", "q.sql", WORDS[0]], want, {**FILES, "q.sql": text})
        self.assertEqual(ask(["--file", "-", WORDS[0]], stdin=SUMS.encode()).out, want)
        self.assertEqual(ask([f"-- {SUMS}\n{SUMS}", WORDS[0]]).out, want)

    def test_the_place_in_a_query_that_begins_with_a_comment(self):
        done = ask(["--file", "q.sql", WORDS[0]], {**FILES, "q.sql": "-- all\nSELECT ! FROM orders"})
        self.assertEqual(done.err.split("\n")[:3], ["ask: query: unexpected character at byte 14",
                                                   "  line 2: SELECT ! FROM orders",
                                                   "                 ^"])

    def test_no_query(self):
        self.assertEqual(ask([WORDS[0]]).out, ask(["SELECT * FROM orders", WORDS[0]]).out)
        self.refuses(WORDS[:2], 2, "no query; it stands before the tables, or in the file that --file names")
        self.refuses([], 2, "no query; it stands before the tables, or in the file that --file names")

    def test_bad_words(self):
        for words, line in (
                (["--limit", "many", SUMS], f"argument --limit: 'many' is no number from 0 to {10**18}; ask --help says more"),
                (["--limit", "-1", SUMS], f"argument --limit: '-1' is no number from 0 to {10**18}; ask --help says more"),
                (["--only", "sure", SUMS], "argument --only: invalid choice: 'sure' (choose from 'certain', 'expected', "
                 "'possible'); ask --help says more"),
                (["--sort", "z", SUMS], "--sort z: no such column; there are city, s"),
                (["--sort", "id", "SELECT id, id FROM orders"], "--sort id: 2 columns have this name; give each an alias, as "
                 "in 'id AS first'"),
                (["--sorted", SUMS], "unrecognized arguments: --sorted; ask --help says more"),
                (["--html", "a.html", "--sort", "z", SUMS], "--sort z: no such column; there are city, s"),
                (["--workers", "65", SUMS], "argument --workers: '65' is no number from 1 to 64; ask --help says more"),
                (["--compress", "0", SUMS], "argument --compress: '0' is no number from 1 to 1000; ask --help says more"),
                (["SELECT '\udcff' FROM orders"], "a word that is not UTF-8")):
            with self.subTest(words):
                self.refuses([*words, WORDS[0]], 2, line)

    def test_table_words(self):
        for words, line in (([], "no table: a word NAME=PATH names a file; ask --help says more"),
                            (["orders.csv"], "'orders.csv' is not NAME=PATH, as orders=orders.csv would be"),
                            (["o=orders.csv", "O=rates.csv"], "the table words 'o=orders.csv' and 'O=rates.csv' have one name")):
            with self.subTest(words):
                self.refuses([SUMS, *words], 2, line)

    def test_query_files(self):
        self.refuses(["--file", "none.sql", WORDS[0]], 9, "none.sql: No such file or directory")
        self.refuses(["--file", ".", WORDS[0]], 5, ".: Is a directory")
        self.refuses(["--file", "q.sql", WORDS[0]], 1, "q.sql: byte 8 is not UTF-8; save the query as UTF-8",
                     {**FILES, "q.sql": b"SELECT '\xe5' FROM orders"})

    def test_help(self):
        done = ask(["--help"])
        self.assertEqual((done.status, done.err), (0, ""))
        self.assertIn("usage: ask", done.out)

    def test_long_words(self):
        line = f"limit: query of {len(SUMS) + 70_000} bytes: a query has at most 65,536"
        self.refuses([SUMS + " " * 70_000, WORDS[0]], 8, line)
        self.refuses([SUMS + " " * 200_000, WORDS[0]], 8, "a word of more than 131071 bytes; a query may have 65,536")


class Program(Cases):
    def test_where_it_is(self):
        with tempfile.TemporaryDirectory() as room:
            shutil.copytree(HERE, f"{room}/top/tools")
            os.makedirs(f"{room}/path")
            write_files(room, FILES)
            tool = [f"{room}/top/tools/ask", "t=orders.csv"]

            def found(path, *words):
                env = {**os.environ, "PATH": f"{path}:{os.environ['PATH']}"}
                return subprocess.run([*tool, *words], cwd=room, env=env, capture_output=True, text=True, check=False)

            if not shutil.which("audb"):
                self.assertEqual((found(room).returncode, found(room).stderr), (
                    127, "ask: audb is found neither beside this tool nor on the path; --audb PATH names it\n"))
            self.stand_in(f"{room}/top/audb", "top")
            if not shutil.which("audb"):
                self.assertEqual((found(room).returncode, found(room).stderr), (
                    127, f"ask: audb is not built yet; {os.path.realpath(room)}/top/audb builds it, and --audb PATH names another one\n"))
            self.stand_in(f"{room}/path/audb", "path")
            self.assertIn("= path", found(f"{room}/path").stdout)
            self.stand_in(f"{room}/top/crates/audb/out/audb", "built")
            self.assertIn("= built", found(f"{room}/path").stdout)
            self.stand_in(f"{room}/other", "named")
            self.assertIn("= named", found(f"{room}/path", "--audb", "./other").stdout)

    def stand_in(self, path, answer, pause=0):
        """Writes a program that gives one answer."""
        os.makedirs(os.path.dirname(path), exist_ok=True)
        with open(path, "w") as file:
            line = f"1,1,1,{answer},{answer},{answer}"
            file.write(f"#!/bin/sh\nsleep {pause}\nprintf 'row_lo,row,row_hi,x_lo,x,x_hi\\n{line}\\n'\n")
        os.chmod(path, 0o755)

    def test_a_program_that_is_not_there(self):
        self.refuses(["--audb", "./none", SUMS, WORDS[0]], 127, "--audb ./none: no program is there", program=False)

    def test_a_terminal_is_told(self):
        with tempfile.TemporaryDirectory() as room:
            write_files(room, FILES)
            self.stand_in(f"{room}/audb", "x", 2.8)

            def told(errors):
                return subprocess.run([f"{HERE}/ask", "--audb", "./audb", "t=orders.csv"], cwd=room, stdin=subprocess.DEVNULL,
                                      stdout=subprocess.PIPE, stderr=errors, check=False)

            near, far = pty.openpty()
            self.assertIn(b"= x | 1", told(far).stdout)
            self.assertRegex(os.read(near, 4096), rb"^\r(at work: [0-9]+ s \r)+\x1b\[K$")
            os.close(far)
            os.close(near)
            self.assertEqual(told(subprocess.PIPE).stderr, b"")

    def test_a_reader_that_is_gone(self):
        with tempfile.TemporaryDirectory() as room:
            write_files(room, FILES)
            command = f"{HERE}/ask --audb {asking.PROGRAM} orders=orders.csv >/dev/full; echo $?"
            done = subprocess.run(command, shell=True, cwd=room, capture_output=True, text=True, check=False)
            self.assertEqual((done.stdout, done.stderr), ("6\n", "ask: standard output: No space left on device\n"))
