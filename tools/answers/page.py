"""An answer as one page: the question, its tables, pictures of its numbers, and its rows, to be sorted, searched and saved."""
import json
import os
from html import escape

from answers.charts import figures
from answers.listing import SIGNS, WORDS, summary

HERE = os.path.dirname(os.path.abspath(__file__))
SAFE = "default-src 'none'; style-src 'unsafe-inline'; script-src 'unsafe-inline'"
# Three bars as the pictures have them, and the mark of a guess.
KEY = ", ".join(f'<svg class="key" viewBox="0 0 36 14"><rect x="2" y="2" width="32" height="10" class="{mark}"/></svg> '
                f"{WORDS[mark]} ({sign})" for mark, sign in SIGNS.items())
GUESS = '<svg class="key" viewBox="0 0 36 14"><path d="M18 0l4 7-4 7-4-7z" class="guess"/></svg>'


def part(name):
    """The text of a file beside this one."""
    with open(os.path.join(HERE, name), encoding="utf-8") as file:
        return file.read()


def percent(share):
    """A share in percent; of a small one that isn't 0, no 0."""
    return "0 %" if share == 0 else "under 0.1 %" if share < 0.001 else f"{100 * share:.1f} %"


def table_row(table, share):
    """What is said of a table."""
    unsure = [(column.name, count) for column, count in zip(table.columns, share.cells) if count]
    columns = ", ".join(f"{name} {percent(count / share.rows)}" for name, count in unsure)
    cells = (table.name, table.path, f"{share.rows:,}", f"{share.open:,}", percent(share.share()), columns or "none")
    return f"<tr>{''.join(table_cell('td', at, text) for at, text in enumerate(cells))}</tr>"


def table_cell(element, at, text):
    """A cell of the tables' table; three of its columns are numbers."""
    return f"<{element}{' class=number' * (2 <= at <= 4)}>{escape(text)}</{element}>"


def tables_part(described):
    """The tables with their shares of unsure cells."""
    heads = ("Table", "File", "Rows", "Unsure rows", "Unsure cells", "Columns with unsure cells")
    head = "".join(table_cell("th", at, text) for at, text in enumerate(heads))
    rows = "".join(table_row(table, share) for table, share in described)
    return (f"<h2>Tables</h2><table><thead><tr>{head}</tr></thead><tbody>{rows}</tbody></table>"
            '<p class="quiet">An unsure row may be missing, or there several times; an unsure cell has several possible values.</p>')


def cell(kind, fields):
    """A cell of the answer: its value, or its guess with both bounds. Those of a number stand in a cell of their own."""
    lo, guess, hi = map(escape, fields)
    bounds = f"[{lo} .. {hi}]" if lo != hi else ""
    if kind == "number":
        return f'<td class="number">{guess}</td><td class="range">{bounds}</td>'
    return f'<td>{guess} <span class="range">{bounds}</span></td>' if bounds else f"<td>{guess}</td>"


def row(kinds, line):
    """A row of the answer, between its mark and the number of its copies."""
    cells = "".join(map(cell, kinds, line.cells))
    return f'<tr class="{line.mark}"><td>{SIGNS[line.mark]}</td>{cells}{cell("number", tuple(map(str, line.count)))}</tr>'


def heading(name, kind, first):
    """The heading of a column whose bounds begin at this field."""
    wide = ' colspan="2"' if kind == "number" and name else ""
    return f'<th{wide} data-kind="{kind}" data-first="{first}"><button type="button">{escape(name)}</button></th>'


def answer_table(answer):
    """The answer's rows, with headings that sort them."""
    heads = [heading("", "number", 0).replace("<button ", '<button title="by the number of rows" ', 1)]
    heads += [heading(column.name, column.kind, 3 * at) for at, column in enumerate(answer.columns, 1)]
    kinds = [column.kind for column in answer.columns]
    rows = "\n".join(row(kinds, line) for line in answer.rows)
    return (f'<table id="answer"><thead><tr>{"".join(heads)}{heading("rows", "number", 0)}</tr></thead><tbody>\n{rows}\n</tbody>'
            "</table>")


def script_data(answer):
    """The header and the fields of each row as audb printed them, as JSON that can stand in a page."""
    names = ["row", *(column.name for column in answer.columns)]
    header = [name + end for name in names for end in ("_lo", "", "_hi")]
    rows = [[*map(str, line.count), *(text for fields in line.cells for text in fields)] for line in answer.rows]
    return json.dumps({"header": header, "rows": rows}, ensure_ascii=False, separators=(",", ":")).replace("<", "\\u003c")


def tools():
    """What the rows are searched and saved by."""
    marks = "".join(f'<option value="{mark}">{WORDS[mark]} ({sign})</option>' for mark, sign in SIGNS.items())
    return ('<div class="tools"><input type="search" id="search" placeholder="Search" aria-label="Search">'
            f'<select id="mark" aria-label="Rows"><option value="">all rows</option>{marks}</select>'
            '<button type="button" id="save">Save as CSV</button><span id="shown" class="quiet"></span></div>')


def answer_part(answer):
    """The answer: how many rows, pictures of its numbers, and its rows."""
    omitted = answer.omission()
    pictures = figures(answer)
    key = f'<p class="quiet">Bars go from the lower to the upper bound; {GUESS} is the guess. Rows: {KEY}.</p>' if pictures else ""
    said = summary(answer) + (f"; left out: {omitted}" if omitted else "")
    return (f"<h2>Answer</h2><p>{escape(said)}</p>{pictures}{key}<h2>Rows</h2>"
            '<p class="quiet">= is there in every world, ~ by the guess, ? in no guess but perhaps in a world. '
            "A cell with brackets is its guess with the lower and the upper bound.</p>"
            f"{tools()}{answer_table(answer)}")


def page(answer, query, described):
    """The whole page. Nothing in it comes from outside."""
    title = " ".join(query.split())
    return f"""<!doctype html>
<html lang="en">
<head>
<meta charset="utf-8">
<meta http-equiv="Content-Security-Policy" content="{SAFE}">
<meta name="viewport" content="width=device-width, initial-scale=1">
<title>{escape(title[:80])}</title>
<style>
{part("page.css")}</style>
</head>
<body>
<main>
<h1>Question</h1>
<pre>{escape(query.strip())}</pre>
{answer_part(answer)}
{tables_part(described)}
</main>
<script type="application/json" id="data">{script_data(answer)}</script>
<script>
{part("page.js")}</script>
</body>
</html>
"""
