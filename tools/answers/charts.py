"""Pictures of an answer's number columns: bars from the lower to the upper bound, with the guess marked."""
from html import escape

from answers.listing import SIGNS
from answers.rows import units

WIDTH, LABELS, RIGHT, LINE, FOOT = 760, 210, 24, 20, 26
# Up to so many rows each has a line of its own; of more there is a distribution, of so many parts at most.
MOST_LINES, MOST_PARTS = 60, 20
MOST_LABEL = 30
TICKS = 6


class Bar:
    """A line of a picture: its label, its bounds and guess as whole numbers of units, their texts, and its row's mark."""

    def __init__(self, label, ends, texts, mark):
        self.label, self.ends, self.texts, self.mark = label, ends, texts, mark


def nice(size):
    """The least of 1, 2 and 5, times a power of ten, that is at least a whole number."""
    step = 1
    while step < size:
        step = step * 5 // 2 if str(step)[0] == "2" else step * 2
    return step


def number_text(value, digits):
    """A whole number of units with its point, and a comma between thousands."""
    whole, rest = divmod(abs(value), 10**digits)
    return "-" * (value < 0) + f"{whole:,}" + (f".{rest:0{digits}}" if digits else "")


def digits_of(column, answer):
    """The digits behind the point of a number column."""
    return len(answer.rows[0].cells[column][1].partition(".")[2])


def cut(text):
    return text if len(text) <= MOST_LABEL else text[:MOST_LABEL - 2] + ".."


def label_columns(answer):
    """The places of the columns that say what a row is about: all but numbers, and numbers that are certain and all different."""
    numbers = [at for at, column in enumerate(answer.columns) if column.kind == "number"]
    keys = [at for at in numbers if len({row.cells[at] for row in answer.rows}) == len(answer.rows) > 1
            and all(row.cells[at][0] == row.cells[at][2] for row in answer.rows)]
    if len(keys) == len(numbers):
        keys = []
    return [at for at, column in enumerate(answer.columns) if column.kind != "number" or at in keys[:1]]


def line_bars(answer, at, labels):
    """A bar for each row."""
    bars = []
    for place, row in enumerate(answer.rows, 1):
        label = " ".join(row.cells[n][1] for n in labels) or (f"row {place}" if len(answer.rows) > 1 else "all")
        bars.append(Bar(label, tuple(map(units, row.cells[at])), row.cells[at], row.mark))
    return bars


def part_bars(answer, at):
    """A bar for each part of a column's numbers: how many rows must lie in it, lie in it by the guess, and may lie in it."""
    cells = [(tuple(map(units, row.cells[at])), row.count) for row in answer.rows]
    low, high = min(ends[0] for ends, _ in cells), max(ends[2] for ends, _ in cells)
    step = nice(max(1, -(-(high - low + 1) // MOST_PARTS)))
    first, digits = low // step, digits_of(at, answer)
    counts = [[0, 0, 0] for _ in range(high // step - first + 1)]
    for (lo, guess, hi), (least, guessed, most) in cells:
        begin, end = lo // step - first, hi // step - first
        counts[begin][0] += least * (begin == end)
        counts[guess // step - first][1] += guessed
        for part in range(begin, end + 1):
            counts[part][2] += most
    bars = []
    for part, count in enumerate(counts, first):
        label = number_text(part * step, digits)
        label += f" to {number_text((part + 1) * step - 1, digits)}" if step > 1 else ""
        bars.append(Bar(label, tuple(count), tuple(f"{number:,}" for number in count), "certain"))
    return bars


def ticks(low, high):
    """The numbers at which an axis is marked."""
    step = nice(max(1, -(-(high - low) // TICKS)))
    return list(range(-(-low // step) * step, high + 1, step))


def axis_of(bars):
    """The ends of the axis: those of all bars, and 0 where it is not far."""
    low, high = min(bar.ends[0] for bar in bars), max(bar.ends[2] for bar in bars)
    low, high = (0 if 0 < low <= high - low else low), (0 if low - high <= high < 0 else high)
    return low, high if high > low else low + 1


def drawn(bar, top, scale):
    """A bar's label, range and mark."""
    lo, guess, hi = map(scale, bar.ends)
    middle = top + LINE / 2
    told = f"{bar.label}: {bar.texts[1]}" + (f" [{bar.texts[0]} .. {bar.texts[2]}]" if bar.texts[0] != bar.texts[2] else "")
    label = f'<text x="{LABELS - 8}" y="{middle + 4:g}" class="label">{escape(cut(bar.label))}</text>'
    parts = [f"<g><title>{escape(told)}</title>{label}"]
    if bar.ends[0] != bar.ends[2]:
        parts.append(f'<rect x="{lo:.1f}" y="{middle - 5:g}" width="{max(hi - lo, 1):.1f}" height="10" class="{bar.mark}"/>')
    parts.append(f'<path d="M{guess:.1f} {middle - 7:g}l4 7-4 7-4-7z" class="guess"/></g>')
    return "".join(parts)


def picture(bars, digits, about):
    """Bars as a picture."""
    low, high = axis_of(bars)
    height = LINE * len(bars) + FOOT

    def scale(value):
        return LABELS + (value - low) / (high - low) * (WIDTH - LABELS - RIGHT)

    parts = [f'<svg viewBox="0 0 {WIDTH} {height}" role="img" aria-label="{escape(about)}">']
    for tick in ticks(low, high):
        x = scale(tick)
        parts.append(f'<path d="M{x:.1f} 0V{height - FOOT + 4}" class="grid"/><text x="{x:.1f}" y="{height - 8}" class="tick">'
                     f"{number_text(tick, digits)}</text>")
    parts += [drawn(bar, place * LINE, scale) for place, bar in enumerate(bars)]
    return "".join(parts) + "</svg>"


def figure(answer, at, labels):
    """The picture of a number column, with its name."""
    name = escape(answer.columns[at].name)
    alone = len(answer.columns) == 1 and len(answer.rows) > 1
    if alone or len(answer.rows) > MOST_LINES:
        drawing = picture(part_bars(answer, at), 0, f"{answer.columns[at].name}: how many rows lie where")
        return f"<figure><figcaption>{name}: number of rows by value</figcaption>{drawing}</figure>"
    bars = line_bars(answer, at, labels)
    for bar in bars:
        bar.label = f"{SIGNS[bar.mark]} {bar.label}"
    return f"<figure><figcaption>{name}</figcaption>{picture(bars, digits_of(at, answer), answer.columns[at].name)}</figure>"


def figures(answer):
    """The pictures of all number columns but those that are labels."""
    if not answer.rows:
        return ""
    labels = label_columns(answer)
    return "".join(figure(answer, at, labels) for at, column in enumerate(answer.columns)
                   if column.kind == "number" and at not in labels)
