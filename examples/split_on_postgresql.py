"""Runs a query's plan on PostgreSQL as several statements (split_plan.py), over files or over tables that were loaded.

The script `examples/on_postgresql --split` is this module's `main`. Its words, behind --split:

    [--parallel] [--shards=tK:SERVER,..] [--statements] AUDB QUERY NAME|NAME=PATH..

A word NAME is a table that examples/load_postgresql made; its header is kept with it. All statements run in one session, in temporary
tables, or with --parallel in unlogged ones of one transaction, which is rolled back at the end. With --shards the foreign tables of
table tK on these servers are grouped on each server first. With --statements they are printed, not run.
"""
import argparse
import csv
import io
import os
import subprocess
import sys
import tempfile

import on_database
from dialects import PostgreSQL
from encoding_sql import identifier
from plan_text import plan
from servers import PSQL, Server, environment, shard_table
from split_plan import SplitPlan
from table_files import Layout, Refused

TYPES = {"int": "numeric", "text": 'text COLLATE "C"', "flag": "boolean"}


def copied(table, kinds, rows):
    """Returns the statements of psql that make a table of these rows."""
    columns = ", ".join(f"c{place} {TYPES[kind]}" for place, kind in enumerate(kinds))
    names = ", ".join(f"c{place}" for place in range(len(kinds)))
    out = io.StringIO()
    # All fields are quoted, so that no record is a line that would end the COPY.
    csv.writer(out, lineterminator="\n", quoting=csv.QUOTE_ALL).writerows(rows)
    return [f"CREATE TEMPORARY TABLE {table} ({columns})",
            f"COPY {table} FROM STDIN WITH (FORMAT csv, FORCE_NOT_NULL ({names}));\n{out.getvalue()}\\.\nANALYZE {table}"]


class Tables:
    """The tables of a query: the words for audb, the statements that make t0, t1 and so on, and the kinds of their columns."""

    def __init__(self, program, words, room):
        self.program, self.room = program, room
        self.names, self.words, self.statements, self.kinds = [], [], [], {}
        for place, word in enumerate(words):
            name, equals, path = word.partition("=")
            self.names.append(name.lower())
            (self.add_file if equals else self.add_loaded)(f"t{place}", name, path)

    def add_file(self, table, name, path):
        """Adds the encoded rows of a file."""
        self.words.append(f"{name}={path}")
        self.kinds[table], rows = on_database.table(on_database.audb(self.program, "encode", self.words[-1]))
        self.statements += copied(table, self.kinds[table], rows)

    def add_loaded(self, table, name, _path):
        """Adds a table that was loaded, for audb as a file of its header alone."""
        with Server() as server:
            header = server.ours(identifier(name.lower()))
        if not header:
            raise Refused(f"{name} is no table that was loaded")
        path = f"{self.room}/{name}.csv"
        with open(path, "w", encoding="utf-8", newline="") as file:
            file.write(header)
        self.words.append(f"{name}={path}")
        kinds = Layout(next(csv.reader(io.StringIO(header, newline="")))).kinds
        self.kinds[table] = [kind if kind in TYPES else "int" for kind in kinds for _ in range(3)] + ["int"] * 3
        self.statements.append(f"CREATE TEMPORARY VIEW {table} AS SELECT * FROM {identifier(name.lower())}")

    def shards(self, words):
        """Returns the foreign tables of tables that words tK:SERVER,.. say."""
        found = {}
        for word in words:
            table, _, servers = word.partition(":")
            if table not in self.kinds or not servers:
                raise Refused(f"--shards={word}: not tK:SERVER,..")
            name = identifier(self.names[int(table[1:])])
            found[table] = [shard_table(name, server) for server in servers.split(",")]
        return found


def planned(tables, query, words):
    """Returns the statements before the last one, the last one, and the kinds of the columns that it gives."""
    text = on_database.audb(tables.program, "rewrite", query, *tables.words).rstrip("\n")
    shards, tree = tables.shards(words.shards), plan(text)
    writer = SplitPlan(PostgreSQL(words.parallel, collated=not shards), tables.kinds, shards)
    last = writer.last(tree)
    return writer.statements, last, writer.kinds(tree)


def statements(tables, query, words):
    """Returns all statements, of which the last gives the rows in order."""
    before, last, kinds = planned(tables, query, words)
    items = ", ".join(f"CASE WHEN c{i} THEN 'true' ELSE 'false' END" if kind == "flag" else f"c{i}" for i, kind in enumerate(kinds))
    order = ", ".join(f'c{i} COLLATE "C"' if kind == "text" else f"c{i}" for i, kind in enumerate(kinds))
    last = f"COPY (SELECT {items} FROM ({last}) x ORDER BY {order}) TO STDOUT WITH (FORMAT csv)"
    return [*tables.statements, *(in_schema(f"audb_{os.getpid()}", [*before, last]) if words.parallel else [*before, last])]


def in_schema(name, statements):
    """Returns statements in one transaction, which is rolled back, with a schema of their own."""
    path = f"SELECT set_config('search_path', '{name}, ' || current_setting('search_path'), true) \\g /dev/null"
    return ["BEGIN", f"CREATE SCHEMA {name}", path, *statements, "ROLLBACK"]


def arguments(words):
    """Returns the words of the command line."""
    parser = argparse.ArgumentParser(usage="examples/on_postgresql --split " + __doc__.split("\n")[4].strip())
    parser.add_argument("--parallel", action="store_true")
    parser.add_argument("--statements", action="store_true")
    parser.add_argument("--shards", action="append", default=[])
    parser.add_argument("program")
    parser.add_argument("query")
    parser.add_argument("tables", nargs="+")
    return parser.parse_args(words)


def main(words):
    """Runs the script, or prints what it would run."""
    sys.setrecursionlimit(100_000)
    words = arguments(words)
    try:
        with tempfile.TemporaryDirectory() as room:
            found = statements(Tables(words.program, words.tables, room), words.query, words)
    except on_database.Refused as refused:
        print(refused.args[1], file=sys.stderr)
        sys.exit(refused.args[0])
    except Refused as refused:
        sys.exit(f"on_postgresql: {refused}")
    text = "".join(f"{statement.removesuffix(';')};\n" if not statement.endswith("/dev/null") else f"{statement}\n" for statement in found)
    if words.statements:
        print(text, end="")
        return
    done = subprocess.run([*PSQL, "-v", "ON_ERROR_STOP=1"], input=text.encode(), env=environment(), stderr=subprocess.PIPE, check=False)
    if done.returncode:
        sys.exit(f"on_postgresql: {done.stderr.decode('utf-8', 'replace').strip()}")
