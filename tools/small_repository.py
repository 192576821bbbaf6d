"""A small repository and a toolchain that proves nothing, over which the scripts that call `rt` are tested."""
import os
import shutil
import tempfile
import unittest

TOP = os.path.dirname(os.path.dirname(os.path.abspath(__file__)))
CRATES = """# Each crate, and what it stands on.
high: low middle
low: num_traits
middle: low
audb: high
beside: low
"""


def write(path, text):
    os.makedirs(os.path.dirname(path), exist_ok=True)
    with open(path, "w", encoding="utf-8") as file:
        file.write(text)


def read(path):
    with open(path, encoding="utf-8") as file:
        return file.read()


class SmallRepository(unittest.TestCase):
    """A test of one script of this repository, copied into a small one; `toolchain` is the text of the command `rt`."""

    toolchain, script = "", ""

    def setUp(self):
        self.room = tempfile.mkdtemp()
        self.addCleanup(shutil.rmtree, self.room)
        self.kit = f"{self.room}/kit/bin"
        self.make_toolchain(self.toolchain)

    def make_toolchain(self, text):
        write(f"{self.kit}/rt", text)
        os.chmod(f"{self.kit}/rt", 0o755)

    def make_repository(self, top):
        self.top = top
        write(f"{top}/crates.txt", CRATES)
        write(f"{top}/HANDLES", "Handles allowed: Threads.\n")
        for crate in ("low", "middle", "high", "beside"):
            write(f"{top}/crates/{crate}/src/lib.rt", f"// {crate}\n")
            write(f"{top}/crates/{crate}/specs/Lib.antt", f"-- {crate}\n")
            write(f"{top}/crates/{crate}/must-fail/wrong.edit", "file: src/lib.rt\n")
        write(f"{top}/crates/audb/data/orders.csv", "id:int\n")
        for path in (self.script, "tools/crate_sums.py"):
            os.makedirs(os.path.dirname(f"{top}/{path}"), exist_ok=True)
            shutil.copy(f"{TOP}/{path}", f"{top}/{path}")
