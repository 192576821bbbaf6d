"""Cells and their kinds. A number is counted in units of its kind, so that 2.50 of the kind dec2 is 250 units."""
import re

LEAST, MOST = -(2**127), 2**127 - 1
MOST_DIGITS = 9
MOST_COPIES = 10**12
KINDS = ("int", "text", "flag") + tuple(f"dec{digits}" for digits in range(1, MOST_DIGITS + 1))
NUMBER = re.compile(r"(-?)([0-9]{1,39})(?:\.([0-9]+))?", re.ASCII)
COPIES = re.compile(r"[0-9]{1,13}(?:\.\.[0-9]{1,13}\.\.[0-9]{1,13})?", re.ASCII)
LEADING_ZERO = re.compile(r"-?0[0-9]|-0(?:\.0*)?$", re.ASCII)
LOOKS_LIKE_NUMBER = re.compile(r"\s*[-+]?([0-9]+|[0-9]{1,3}([., '_\u00a0\u202f][0-9]{3})+)([.,][0-9]+)?([eE][-+]?[0-9]+)?\s*%?",
                               re.ASCII)
LOOKS_LIKE_DATE = re.compile(r"([0-9]{4}([-/.])[0-9]{1,2}\2[0-9]{1,2}|[0-9]{1,2}([-/.])[0-9]{1,2}\3([0-9]{4}|[0-9]{2}))"
                             r"([ T][0-9:.+Z-]*)?", re.ASCII)


def digits_of(kind):
    """How many digits behind the point the numbers of a kind have; None where it is no kind of numbers."""
    return 0 if kind == "int" else int(kind[3:]) if kind and kind.startswith("dec") else None


def number_kind(digits):
    return f"dec{digits}" if digits else "int"


def units_of(text, digits):
    """A number in units of 10^-digits; None where it is no such number or leaves 128 bits."""
    found = NUMBER.fullmatch(text)
    if not found:
        return None
    fraction = found[3] or ""
    if len(fraction) > digits:
        fraction = fraction.rstrip("0")
        if len(fraction) > digits:
            return None
    units = int(found[1] + found[2] + fraction.ljust(digits, "0"))
    return units if LEAST <= units <= MOST else None


def number_text(units, digits):
    """A number as audb prints it."""
    if not digits:
        return str(units)
    whole = str(abs(units)).rjust(digits + 1, "0")
    return f"{'-' if units < 0 else ''}{whole[:-digits]}.{whole[-digits:]}"


def span_of(text, digits):
    """The lower end, the guess and the upper end of a cell in units; None where it is no number and no range."""
    parts = text.split("..")
    ends = [units_of(part, digits) for part in parts]
    if None in ends or len(ends) not in (1, 3):
        return None
    low, guess, high = ends * 3 if len(ends) == 1 else ends
    return (low, guess, high) if low <= guess <= high else None


def span_text(span, digits):
    """A range as a cell: a single number where its ends are one."""
    low, guess, high = span
    return number_text(low, digits) if low == high else "..".join(number_text(end, digits) for end in (low, guess, high))


def is_range(text):
    return ".." in text


def copies_text(text):
    """A number of copies, or three, as it is written again; None where it is no such number."""
    if not COPIES.fullmatch(text):
        return None
    numbers = [int(part) for part in text.split("..")]
    if max(numbers) > MOST_COPIES or numbers != sorted(numbers):
        return None
    return str(numbers[0]) if numbers[0] == numbers[-1] else "..".join(map(str, numbers))


def most_copies(text):
    return int(text.rpartition("..")[2])


def is_flag(text):
    return text.lower() in ("true", "false")


def cell_text(kind, text, ranged=False):
    """A cell of a kind as audb prints it, or None where it is none. A range is one where `ranged` says so."""
    digits = digits_of(kind)
    if kind == "text":
        return text
    if kind == "flag":
        return text.lower() if is_flag(text) else None
    if is_range(text):
        span = span_of(text, digits) if ranged else None
        return span and span_text(span, digits)
    units = units_of(text, digits)
    return None if units is None else number_text(units, digits)


def most_digits(texts):
    """The most digits behind the point of texts that are numbers: as they are written, or without zeros at the end where
    these are too many; None where some text is no number, or has too many digits."""
    digits = 0
    for text in texts:
        found = NUMBER.fullmatch(text)
        if not found:
            return None
        fraction = found[3] or ""
        if len(fraction) > MOST_DIGITS:
            fraction = fraction.rstrip("0").ljust(MOST_DIGITS, "0")
        digits = max(digits, len(fraction))
    return digits if digits <= MOST_DIGITS and all(units_of(text, digits) is not None for text in texts) else None


def kind_of(texts):
    """The kind of a column with these cells."""
    if not texts:
        return "text"
    digits = most_digits(texts)
    if digits is not None:
        return number_kind(digits)
    return "flag" if all(map(is_flag, texts)) else "text"


def joint_kind(kind, other):
    """The kind of numbers that holds those of both, or None where one has no numbers and they differ."""
    if kind == other:
        return kind
    digits = digits_of(kind), digits_of(other)
    return None if None in digits else number_kind(max(digits))


class Marks:
    """How a file writes numbers: the characters that may be a decimal point, and those that may stand between thousands."""

    def __init__(self, points, thousands=""):
        self.points, self.thousands = points, thousands
        inner = f"[0-9]{{1,3}}(?:[{re.escape(thousands)}][0-9]{{3}})+|" if thousands else ""
        self.pattern = re.compile(f"(-?)({inner}[0-9]+)(?:[{re.escape(points)}]([0-9]+))?", re.ASCII)
        self.gone = str.maketrans("", "", thousands)

    def plain(self, text):
        """A number with a `.` as its point and nothing between thousands; any other text as it is."""
        found = self.pattern.fullmatch(text)
        if not found:
            return text
        return found[1] + found[2].translate(self.gone) + ("." + found[3] if found[3] else "")

    def usual(self):
        return self.points == "." and not self.thousands
