"""Writes a block table whose cells are ranges: a column of guesses with its lower and its upper column.

Usage: python3 ranges.py FILE LOWER GUESS UPPER

Each record is a block of its own, there once. The bounds become the ends of the guess's range, in a column that is written
GUESS:int.
"""
import csv
import sys


def main(path, lower, guess, upper):
    with open(path, newline="", encoding="utf-8") as file:
        rows = list(csv.DictReader(file))
    names = [name for name in rows[0] if name not in (lower, guess, upper)]
    writer = csv.writer(sys.stdout, lineterminator="\n")
    writer.writerow(["_block", "_role", "_times", *names, f"{guess}:int"])
    for place, row in enumerate(rows, 1):
        cell = "..".join(row[name] for name in (lower, guess, upper))
        writer.writerow([place, "guess", 1, *(row[name] for name in names), cell])


if __name__ == "__main__":
    main(*sys.argv[1:])
