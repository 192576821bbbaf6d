"""An answer as a table on a terminal, and as JSON."""
import json
import unicodedata

SIGNS = {"certain": "=", "expected": "~", "possible": "?"}
WORDS = {"certain": "certain", "expected": "expected", "possible": "only possible"}


def shown(text):
    """A text as a terminal can show it in one line."""
    return "".join(c if c.isprintable() else "?" for c in text)


def width(text):
    """How many places of a terminal a text takes."""
    if text.isascii():
        return len(text)
    return sum(0 if unicodedata.combining(c) else 2 if unicodedata.east_asian_width(c) in "WF" else 1 for c in text)


def left(text, size):
    return text + " " * (size - width(text))


def right(text, size):
    return " " * (size - width(text)) + text


def number_texts(cells):
    """The texts of cells with numbers: guess below guess, bound below bound, each as far to the right as the longest."""
    sizes = [max((width(cell[end]) for cell in cells), default=0) for end in range(3)]
    unsure = [cell for cell in cells if cell[0] != cell[2]]
    low, high = (max((width(cell[end]) for cell in unsure), default=0) for end in (0, 2))
    texts = []
    for lo, guess, hi in cells:
        bounds = f" [{right(lo, low)} .. {right(hi, high)}]" if lo != hi else ""
        texts.append(right(guess, sizes[1]) + bounds)
    return texts


def plain_texts(cells):
    """The texts of other cells."""
    return [guess if lo == hi else f"{guess} [{lo} .. {hi}]" for lo, guess, hi in cells]


def column_texts(name, kind, cells):
    """A column's texts, its name first, each with blanks up to the longest."""
    cells = [tuple(map(shown, cell)) for cell in cells]
    texts = number_texts(cells) if kind == "number" else plain_texts(cells)
    size = max(map(width, [shown(name), *texts]))
    return [left(text, size) for text in [shown(name), *texts]]


def table(answer):
    """The lines of an answer's table, and of what was left out of it."""
    marks = [" ", *(SIGNS[row.mark] for row in answer.rows)]
    columns = [column_texts(column.name, column.kind, [row.cells[at] for row in answer.rows])
               for at, column in enumerate(answer.columns)]
    columns.append(column_texts("rows", "number", [tuple(map(str, row.count)) for row in answer.rows]))
    lines = [f"{mark} " + " | ".join(texts).rstrip() for mark, texts in zip(marks, zip(*columns))]
    lines.insert(1, "--" + "-+-".join("-" * width(texts[0]) for texts in columns))
    return lines + [summary(answer), *(f"left out: {text}" for text in [answer.omission()] if text)]


def summary(answer):
    """How many rows there are, by their marks."""
    if not answer.rows:
        return "no row" if answer.omission() else "no row, in any world"
    counts = ", ".join(f"{count:,} {WORDS[mark]} ({SIGNS[mark]})" for mark, count in answer.counts().items() if count)
    return f"{len(answer.rows):,} row{'s' * (len(answer.rows) != 1)}: {counts}"


def value(kind, text):
    """A cell's text as JSON: a number to the last digit, a flag or a text."""
    return text if kind in ("number", "flag") else json.dumps(text, ensure_ascii=False)


def object_of(keys, texts):
    return "{" + ", ".join(f'"{key}": {text}' for key, text in zip(keys, texts)) + "}"


def row_json(columns, row):
    """A row as JSON, its cells in the order of the columns."""
    cells = [object_of(("lo", "guess", "hi"), [value(column.kind, text) for text in cell])
             for column, cell in zip(columns, row.cells)]
    count = object_of(("least", "guess", "most"), map(str, row.count))
    return f'  {{"mark": "{row.mark}", "rows": {count}, "cells": [{", ".join(cells)}]}}'


def as_json(answer, query):
    """An answer as JSON, a line for each row."""
    columns = [{"name": column.name, "kind": column.kind} for column in answer.columns]
    head = f'{{"query": {json.dumps(query, ensure_ascii=False)},\n "columns": {json.dumps(columns, ensure_ascii=False)},\n'
    rows = ",\n".join(row_json(answer.columns, row) for row in answer.rows)
    omitted = {word.lstrip("-"): count for word, count in answer.left_out.items()}
    return head + f' "left_out": {json.dumps(omitted)},\n "rows": [\n{rows}\n ]}}\n'
