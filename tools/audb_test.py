#!/usr/bin/env python3
"""Tests of ./audb, over a small repository and a toolchain that proves nothing.

Usage: tools/audb_test.py [TEST..]
The last line is unittest's own.
"""
import os
import signal
import subprocess
import sys
import time
import unittest

sys.dont_write_bytecode = True

from small_repository import CRATES, TOP, SmallRepository, read, write

SCRIPT = f"{TOP}/audb"
# What the script reads of `rt ci`: the folders out/ of the crates that were begun, its lines, and the program. Where a crate
# isn't proved it goes on with others.
TOOLCHAIN = """#!/bin/sh
kit=$(dirname "$0")
echo "$* with RT_JOBS=$RT_JOBS" >> "$kit/calls"
rm -rf "$kit/given" && cp -r . "$kit/given"
if grep -q misplaced crates/audb/src/*; then
    echo 'rt: no check reads this file'
    echo 'rt: audb NOT PROVED'
    exit 1
fi
for crate in $(sed 's/:.*//' crates.txt); do
    mkdir "crates/$crate/out"
    if grep -q slow "crates/$crate"/src/*; then sleep 2; fi
    echo "== $crate"
    if grep -q broken "crates/$crate"/src/*; then
        echo 'fn below: proved'
        echo 'src/lib.rt:3:5: error: the two types differ'
        echo 'fn above: not proved'
        echo "rt: $crate NOT PROVED"
        exec sleep 100
    fi
    echo "rt: $crate proved"
done
if grep -q unequal crates/audb/src/*; then
    echo 'rt: FAILED: audb (run)'
    exit 1
fi
cp crates/audb/src/main.rt crates/audb/out/audb
chmod +x crates/audb/out/audb
"""
# The program tells its words and the folder that it is run in, and ends with a status of its own.
PROGRAM = '#!/bin/sh\necho "$# words: $*, in $(pwd)"\nexit 3\n'


class FirstRun(SmallRepository):
    toolchain, script = TOOLCHAIN, "audb"

    def setUp(self):
        super().setUp()
        self.make_repository(f"{self.room}/clone")

    def make_repository(self, top):
        super().make_repository(top)
        write(f"{top}/crates/audb/src/main.rt", PROGRAM)

    def start(self, words, folder=None, path=None, script=None):
        env = {**os.environ, "PATH": f"{self.kit}:/usr/bin:/bin" if path is None else path, "TMPDIR": self.room}
        env.pop("RT_JOBS", None)
        return subprocess.Popen([sys.executable, script or f"{self.top}/audb", *words], cwd=folder or self.top, env=env,
                                stdin=subprocess.DEVNULL, stdout=subprocess.PIPE, stderr=subprocess.PIPE, text=True)

    def run_words(self, *words, **how):
        started = self.start(words, **how)
        out, err = started.communicate(timeout=60)
        return started.returncode, out, err

    def calls(self):
        return len(read(f"{self.kit}/calls").splitlines()) if os.path.exists(f"{self.kit}/calls") else 0

    def answers(self, *words, **how):
        """Asserts that a call answers, and returns what it told."""
        status, out, err = self.run_words(*words, **how)
        folder = os.path.realpath(how.get("folder") or self.top)
        self.assertEqual((status, out), (3, f"{len(words)} words: {' '.join(words)}, in {folder}\n"), err)
        return err

    def refuses(self, wanted, **how):
        """Asserts that a call ends before the program is run, and returns what it told."""
        status, out, err = self.run_words("answer", **how)
        self.assertEqual((status, out), (wanted, ""), err)
        return err

    def test_the_first_call_builds_and_the_next_only_answers(self):
        self.assertTrue(os.access(SCRIPT, os.X_OK))
        told = self.answers("answer", "SELECT * FROM orders", "orders=o.csv")
        self.assertIn("audb: the program is not built of these sources yet: proving and building its 4 crates, once\n", told)
        self.assertEqual(self.answers("answer"), "")
        self.assertEqual(self.calls(), 1)

    def test_what_the_toolchain_is_given(self):
        self.answers()
        self.assertRegex(read(f"{self.kit}/calls"), r"^ci with RT_JOBS=[1-4]\n$")
        given = f"{self.kit}/given"
        self.assertEqual(read(f"{given}/crates.txt"), "low: num_traits\nmiddle: low\nhigh: low middle\naudb: high\n")
        self.assertEqual(sorted(os.listdir(f"{given}/crates")), ["audb", "high", "low", "middle"])
        self.assertEqual(sorted(os.listdir(f"{given}/crates/low")), ["specs", "src"])
        self.assertEqual(read(f"{given}/crates/low/src/lib.rt"), "// low\n")
        self.assertEqual(read(f"{given}/HANDLES"), "Handles allowed: Threads.\n")
        self.assertEqual(read(f"{given}/crates/audb/data/orders.csv"), "id:int\n")

    def test_progress(self):
        write(f"{self.top}/crates/middle/src/lib.rt", "// slow\n")
        self.assertIn("\nproving 2 of 4: middle, 0 minutes so far\n", self.answers())

    def test_no_toolchain(self):
        os.mkdir(f"{self.room}/empty")
        told = self.refuses(127, path=f"{self.room}/empty")
        self.assertEqual(told.count("\n"), 1)
        self.assertIn("the Rattle toolchain is missing: put its command `rt` on the path", told)
        self.answers("guess")
        self.assertEqual(self.answers("guess", path=f"{self.room}/empty:/usr/bin:/bin"), "")

    def test_a_broken_source(self):
        write(f"{self.top}/crates/middle/src/lib.rt", "// broken\n")
        told = self.refuses(126)
        self.assertIn("\nsrc/lib.rt:3:5: error: the two types differ\nfn above: not proved\n"
                      "audb: middle is not proved, so the program is not built\n", told)
        self.assertIn(f"audb: the whole log: {self.top}/crates/audb/out/build.log\n", told)
        self.assertIn("== middle\n", read(f"{self.top}/crates/audb/out/build.log"))
        write(f"{self.top}/crates/middle/src/lib.rt", "// mended\n")
        self.answers()

    def test_a_source_that_is_refused_before_any_proof(self):
        write(f"{self.top}/crates/audb/src/main.rt", f"{PROGRAM}# misplaced\n")
        told = self.refuses(126)
        self.assertIn("rt: no check reads this file\nrt: audb NOT PROVED\n", told)
        self.assertIn("audb: audb is not proved, so the program is not built\n", told)

    def test_a_build_that_fails(self):
        write(f"{self.top}/crates/audb/src/main.rt", f"{PROGRAM}# unequal\n")
        told = self.refuses(126)
        self.assertIn("rt: FAILED: audb (run)\n", told)
        self.assertIn("audb: `rt ci` ended with status 1, so the program is not built\n", told)

    def test_a_program_of_other_sources_is_not_run(self):
        self.answers()
        write(f"{self.top}/crates/low/src/lib.rt", "// broken\n")
        self.refuses(126)

    def test_two_calls_at_once(self):
        write(f"{self.top}/crates/low/src/lib.rt", "// slow\n")
        first = self.start(["first"])
        deadline = time.monotonic() + 30
        while not self.calls() and time.monotonic() < deadline:
            time.sleep(0.05)
        told = self.answers("second")
        self.assertEqual(told, "audb: waiting for another build of the program to end\n")
        out, _ = first.communicate(timeout=60)
        self.assertEqual((first.returncode, out), (3, f"1 words: first, in {os.path.realpath(self.top)}\n"))
        self.assertEqual(self.calls(), 1)

    def test_from_another_folder_and_by_a_link(self):
        elsewhere = f"{self.room}/elsewhere"
        os.mkdir(elsewhere)
        self.answers("answer", "t=here.csv", folder=elsewhere)
        os.symlink(f"{self.top}/audb", f"{elsewhere}/audb")
        self.assertEqual(self.answers("answer", folder=elsewhere, script=f"{elsewhere}/audb"), "")

    def test_a_path_with_blanks(self):
        self.make_repository(f"{self.room}/a clone  of mine")
        self.answers("answer", "SELECT  1", "t=a b.csv")
        self.assertEqual(self.answers("answer"), "")

    def test_what_the_program_is_made_of(self):
        self.answers()
        changes = [
            ("a source", 2, lambda: write(f"{self.top}/crates/high/src/lib.rt", "// other\n")),
            ("a specification at the bottom", 3, lambda: write(f"{self.top}/crates/low/specs/Lib.antt", "-- lox\n")),
            ("a new proof", 4, lambda: write(f"{self.top}/crates/low/proofs/fact.antt", "\n")),
            ("a file that is gone", 5, lambda: os.remove(f"{self.top}/crates/low/proofs/fact.antt")),
            ("what a crate stands on", 6, lambda: write(f"{self.top}/crates.txt", CRATES.replace("num_traits", ""))),
            ("the handles", 7, lambda: write(f"{self.top}/HANDLES", "Handles allowed: none.\n")),
            ("the toolchain's command", 8, lambda: self.make_toolchain(f"{TOOLCHAIN}# other\n")),
            ("the kit's name", 9, lambda: write(f"{self.room}/kit/KIT-ID", "another kit\n")),
            ("the program itself", 10, lambda: write(f"{self.top}/crates/audb/out/audb", "#!/bin/sh\nexit 9\n")),
            ("a must-fail edit", 10, lambda: write(f"{self.top}/crates/low/must-fail/wrong.edit", "file: src/main.rt\n")),
            ("a crate beside it", 10, lambda: write(f"{self.top}/crates/beside/src/lib.rt", "// other\n")),
            ("what a check keeps", 10, lambda: write(f"{self.top}/crates/low/out/incremental/kept", "\n")),
        ]
        for name, calls, change in changes:
            with self.subTest(name):
                change()
                self.answers()
                self.assertEqual(self.calls(), calls)

    def test_a_call_that_is_stopped_ends_the_toolchain(self):
        write(f"{self.top}/crates/low/src/lib.rt", "// slow\n")
        self.make_toolchain(TOOLCHAIN.replace("sleep 2", 'echo $$ > "$kit/pid"; exec sleep 30'))
        started = self.start([])
        deadline = time.monotonic() + 30
        while not os.path.exists(f"{self.kit}/pid") and time.monotonic() < deadline:
            time.sleep(0.05)
        time.sleep(0.2)
        started.send_signal(signal.SIGTERM)
        out, _ = started.communicate(timeout=20)
        self.assertEqual((started.returncode, out), (128 + signal.SIGTERM, ""))
        with self.assertRaises(ProcessLookupError):
            os.kill(int(read(f"{self.kit}/pid")), 0)
        self.assertEqual([name for name in os.listdir(self.room) if name.startswith("audb-")], [])
        self.make_toolchain(TOOLCHAIN)
        self.answers()


if __name__ == "__main__":
    unittest.main()
