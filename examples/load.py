"""Reads a CSV file into a table named answer, numbers as numbers, and prints what a query over it gives.

Usage: python3 load.py FILE QUERY
A number with digits behind its point becomes a floating-point number, since SQLite has no other.
"""
import csv
import re
import sqlite3
import sys


def number(text):
    """Returns a text as a number, where it is one."""
    if re.fullmatch(r"-?[0-9]+", text):
        return int(text)
    return float(text) if re.fullmatch(r"-?[0-9]+\.[0-9]+", text) else text


def main(path, query):
    with open(path, newline="", encoding="utf-8") as file:
        names, *rows = csv.reader(file)
    database = sqlite3.connect(":memory:")
    database.execute("CREATE TABLE answer (%s)" % ", ".join('"%s"' % name.replace('"', '""') for name in names))
    places = ", ".join("?" * len(names))
    database.executemany(f"INSERT INTO answer VALUES ({places})", [[number(text) for text in row] for row in rows])
    csv.writer(sys.stdout, lineterminator="\n").writerows(database.execute(query))


if __name__ == "__main__":
    main(*sys.argv[1:])
