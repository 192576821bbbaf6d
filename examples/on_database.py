"""What examples/on_sqlite and examples/on_postgresql share: the tables and the text that audb writes, and the rows in order."""
import csv
import io
import os
import subprocess
import sys
import tempfile


class Refused(Exception):
    """A refusal of audb: its status and its line."""


def audb(program, *words):
    """Returns what audb prints."""
    done = subprocess.run([program, *words], stdout=subprocess.PIPE, stderr=subprocess.PIPE, check=False)
    if done.returncode:
        raise Refused(done.returncode, done.stderr.decode("utf-8", "replace").rstrip("\n"))
    return done.stdout.decode("utf-8")


def table(text):
    """Returns the kinds of an encoded table's columns, and its rows: numbers, texts and flags."""
    records = csv.reader(io.StringIO(text, newline=""))
    kinds = [name.rpartition(":")[2] for name in next(records)]
    return kinds, [values(kinds, record) for record in records]


def values(kinds, record):
    """Returns the values of a record. A flag is `true` as audb writes it, or `t` as PostgreSQL does."""
    read = {"int": int, "text": str, "flag": lambda cell: cell in ("true", "t")}
    return tuple(read[kind](cell) for kind, cell in zip(kinds, record))


def kinds_of(program, text, tables):
    """Returns the kinds of a plan's columns: those that `audb plain` gives over tables of these columns without a row."""
    with tempfile.TemporaryDirectory() as folder:
        files = {"plan": text, **{f"t{n}": ",".join(f"c{i}:{kind}" for i, kind in enumerate(kinds))
                                  for n, (kinds, _) in enumerate(tables)}}
        for name, line in files.items():
            with open(os.path.join(folder, name), "w", encoding="utf-8", newline="") as file:
                file.write(line + "\n")
        plan, *others = (os.path.join(folder, name) for name in files)
        return table(audb(program, "plain", plan, *(f"{os.path.basename(path)}={path}" for path in others)))[0]


def in_order(rows):
    """Returns rows ordered by their values from the first column on, texts by their UTF-8 bytes."""
    return sorted(rows, key=lambda row: [v.encode() if isinstance(v, str) else v for v in row])


def printed(rows):
    """Returns rows as they are printed, flags in small letters."""
    return [[str(value).lower() if isinstance(value, bool) else value for value in row] for row in rows]


def main(run, name, use):
    """Runs a script of which `run(tables, text, kinds)` gives the rows: reads its words, asks audb, and prints the rows in order."""
    if len(sys.argv) < 4:
        sys.exit(use)
    program, query, words = sys.argv[1], sys.argv[2], sys.argv[3:]
    try:
        text = audb(program, "rewrite", query, *words).rstrip("\n")
        tables = [table(audb(program, "encode", word)) for word in words]
        kinds = kinds_of(program, text, tables)
    except Refused as refused:
        print(refused.args[1], file=sys.stderr)
        sys.exit(refused.args[0])
    try:
        rows = printed(in_order(run(tables, text, kinds)))
    except (OverflowError, RuntimeError) as error:
        sys.exit(f"{name}: {error}")
    csv.writer(sys.stdout, lineterminator="\n").writerows(rows)
