#!/usr/bin/env python3
"""Tests of bench/gate, over a small repository and a toolchain that proves nothing: which must-fail edits it tries.

Usage: tools/gate_test.py [TEST..]
The last line is unittest's own.
"""
import os
import subprocess
import sys
import unittest

sys.dont_write_bytecode = True

from small_repository import CRATES, SmallRepository, read, write

# It writes down the crates whose edits it is given, makes the program, and fails where a source is broken.
TOOLCHAIN = """#!/bin/sh
kit=$(dirname "$0")
if [ "$1" = must-fail ]; then
    echo "$2" > "$kit/tried"
    ! grep -q broken "crates/$2"/src/*
    exit
fi
for crate in crates/*; do
    if [ -d "$crate/must-fail" ]; then echo "${crate#crates/}"; fi
done > "$kit/tried"
mkdir -p crates/audb/out
echo made > crates/audb/out/audb
! grep -q broken crates/*/src/*
"""
ALL = "beside high low middle"


class Gate(SmallRepository):
    toolchain, script = TOOLCHAIN, "bench/gate"

    def setUp(self):
        super().setUp()
        self.make_repository(f"{self.room}/clone")
        write(f"{self.top}/crates/audb/src/main.rt", "// audb\n")

    def gate(self, *words):
        """Returns the status, the crates whose edits were tried, and the last line."""
        env = {**os.environ, "PATH": f"{self.kit}:/usr/bin:/bin", "TMPDIR": self.room}
        ran = subprocess.run([sys.executable, f"{self.top}/bench/gate", *words], cwd=self.room, env=env, stdin=subprocess.DEVNULL,
                             capture_output=True, text=True, timeout=60)
        return ran.returncode, " ".join(read(f"{self.kit}/tried").split()), ran.stdout.splitlines()[-1]

    def tries(self, crates, *words):
        status, tried, line = self.gate(*words)
        self.assertEqual((status, tried), (0, crates))
        count = len(crates.split())
        self.assertEqual(line, f"must-fail edits: {count} tried, {4 - count} set aside, since they were refused over the same sources")
        self.assertEqual(read(f"{self.top}/crates/audb/out/audb"), "made\n")

    def test_edits_are_tried_once_over_the_same_sources(self):
        self.tries(ALL)
        self.tries("")
        self.tries(ALL, "--anew")
        self.assertEqual([line.split()[0] for line in read(f"{self.top}/refused-edits.txt").splitlines()], ALL.split())

    def test_what_has_edits_tried_again(self):
        self.tries(ALL)
        changes = [
            ("a specification two crates below", ALL, lambda: write(f"{self.top}/crates/low/specs/Lib.antt", "-- lox\n")),
            ("a source", "high", lambda: write(f"{self.top}/crates/high/src/lib.rt", "// higher\n")),
            ("a new proof", "high middle", lambda: write(f"{self.top}/crates/middle/proofs/fact.antt", "\n")),
            ("an edit", "low", lambda: write(f"{self.top}/crates/low/must-fail/wrong.edit", "file: specs/Lib.antt\n")),
            ("an edit's name", "low", lambda: os.rename(f"{self.top}/crates/low/must-fail/wrong.edit", f"{self.top}/crates/low/must-fail/worse.edit")),
            ("what a crate stands on", ALL, lambda: write(f"{self.top}/crates.txt", CRATES.replace("num_traits", ""))),
            ("the handles", ALL, lambda: write(f"{self.top}/HANDLES", "Handles allowed: none.\n")),
            ("the toolchain's command", ALL, lambda: self.make_toolchain(f"{TOOLCHAIN}# other\n")),
            ("the kit's name", ALL, lambda: write(f"{self.room}/kit/KIT-ID", "another kit\n")),
            ("the program, which no edit is tried over", "", lambda: write(f"{self.top}/crates/audb/src/main.rt", "// other\n")),
        ]
        for name, crates, change in changes:
            with self.subTest(name):
                change()
                self.tries(crates)
                self.tries("")

    def test_nothing_is_written_down_where_the_gate_fails(self):
        write(f"{self.top}/crates/low/src/lib.rt", "// broken\n")
        self.assertEqual(self.gate()[:2], (1, ALL))
        self.assertFalse(os.path.exists(f"{self.top}/refused-edits.txt"))
        write(f"{self.top}/crates/low/src/lib.rt", "// mended\n")
        self.tries(ALL)

    def test_the_edits_of_some_crates_alone(self):
        write(f"{self.top}/crates/middle/src/lib.rt", "// broken\n")
        self.assertEqual(self.gate("--edits", "low"), (0, "low", "low: all edits refused"))
        self.assertEqual(self.gate("--edits", "beside"), (0, "beside", "beside: all edits refused"))
        self.assertEqual(self.gate("--edits", "middle"), (1, "middle", "middle: NOT all edits refused"))
        self.assertEqual(self.gate("--edits", "audb")[0::2], (1, "audb: NOT all edits refused"))
        write(f"{self.top}/crates/middle/src/lib.rt", "// middle\n")
        self.tries("high middle")

    def test_words_that_it_does_not_take(self):
        ran = subprocess.run([sys.executable, f"{self.top}/bench/gate", "--new"], capture_output=True, text=True, timeout=60)
        self.assertEqual(ran.returncode, 1)
        self.assertIn("Usage: bench/gate [--anew]", ran.stderr)


if __name__ == "__main__":
    unittest.main()
