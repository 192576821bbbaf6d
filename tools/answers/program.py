"""The program audb: where it is, and runs of it."""
import os
import shutil
import subprocess
import sys
import time

from answers.outcome import LIMIT, NO_PROGRAM, WORDS, Refused

TOP = os.path.dirname(os.path.dirname(os.path.dirname(os.path.realpath(__file__))))
# Where it stands beside this tool once it is built, and what builds it: that takes its time, and tells how far it is.
BUILT, BUILDER = os.path.join(TOP, "crates/audb/out/audb"), os.path.join(TOP, "audb")
# How long a terminal stays quiet, and how often it is told then, in seconds.
PATIENCE, TURN = 2.0, 0.5
# The length of one word that an operating system passes on.
MOST_WORD = 131_071


def runs(path):
    return os.path.isfile(path) and os.access(path, os.X_OK)


def find(word):
    """Returns the path of audb: the one that is named, the one that is built beside this tool, or the one on the path."""
    if word is not None:
        found = shutil.which(word)
        if found is None:
            raise Refused(NO_PROGRAM, f"--audb {word}: no program is there")
        return found
    found = BUILT if runs(BUILT) else shutil.which("audb")
    if found is None and runs(BUILDER):
        raise Refused(NO_PROGRAM, f"audb is not built yet; {BUILDER} builds it, and --audb PATH names another one")
    if found is None:
        raise Refused(NO_PROGRAM, "audb is found neither beside this tool nor on the path; --audb PATH names it")
    return found


class Telling:
    """A line on a terminal that says for how long a run has been at work."""

    def __init__(self, stream):
        self.stream, self.begun, self.shown = stream if stream.isatty() else None, time.monotonic(), False

    def pause(self):
        """How long to wait before the next line, or None where nobody is told."""
        return None if self.stream is None else TURN if self.shown else PATIENCE

    def tell(self):
        self.shown = True
        self.stream.write(f"\rat work: {time.monotonic() - self.begun:.0f} s ")
        self.stream.flush()

    def end(self):
        if self.shown:
            self.stream.write("\r\x1b[K")
            self.stream.flush()


def run(program, words):
    """Runs audb with these words, and returns its status and what it put on both outputs, as bytes."""
    if any(len(os.fsencode(word)) > MOST_WORD for word in words):
        raise Refused(LIMIT, f"a word of more than {MOST_WORD} bytes; a query may have 65,536")
    if any("\0" in word for word in words):
        raise Refused(WORDS, "a word with a character 0 in it")
    try:
        child = subprocess.Popen([program, *words], stdin=subprocess.DEVNULL, stdout=subprocess.PIPE, stderr=subprocess.PIPE)
    except OSError as fault:
        raise Refused(NO_PROGRAM, f"{program}: {fault.strerror or fault}") from None
    telling = Telling(sys.stderr)
    try:
        while True:
            try:
                out, err = child.communicate(timeout=telling.pause())
                return child.returncode, out, err
            except subprocess.TimeoutExpired:
                telling.tell()
    except BaseException:
        child.kill()
        child.wait()
        raise
    finally:
        telling.end()
