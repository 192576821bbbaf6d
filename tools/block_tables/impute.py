"""`blocks impute`: the values that an empty cell may have, as alternatives or as a range."""
from .alternatives import MANY, compared, expanded, ranged, with_cell, without
from .cells import cell_text, digits_of, joint_kind, kind_of, most_digits, number_text, span_of
from .outputs import TooLarge, block_text, check_size
from .sources import Refusal, shown
from .tables import no_number, read_table, respell, settle


SHORTEST = 6  # bytes of the shortest record of an alternative beside the commas before its cells


def order_of(kind):
    """By what values of a kind are ordered: numbers by their guesses and ends, and else by their text."""
    digits = digits_of(kind)
    if digits is None:
        return lambda text: text

    def order(text):
        low, guess, high = span_of(text, digits)
        return guess, low, high

    return order


def middle(kind, votes):
    """The guess by these values, each with how many blocks guess it: the lower median of numbers, and else the most frequent,
    the first of these. Values that no block guesses count only where all are such."""
    votes = {value: number for value, number in votes.items() if number} or dict.fromkeys(votes, 1)
    if digits_of(kind) is None:
        return max(votes, key=votes.get)
    left = (sum(votes.values()) - 1) // 2
    for value in sorted(votes, key=order_of(kind)):
        left -= votes[value]
        if left < 0:
            return value
    raise AssertionError("a median of no values")


def seen_in(table, at, like, missing):
    """Returns for each list of cells of the columns `like` the values of column `at` in the rows that have them, each with
    how many blocks guess it."""
    seen = {}
    for block in table.blocks:
        guessed = block.guessed()
        for row in block.rows:
            key = tuple(compared(row, table, n) for n in like)
            if row.cells[at] not in missing:
                votes = seen.setdefault(key, {})
                votes[row.cells[at]] = votes.get(row.cells[at], 0) + (row is guessed)
    return seen


def whole_column(seen):
    """What is seen in all rows."""
    whole = {}
    for votes in seen.values():
        for value, number in votes.items():
            whole[value] = whole.get(value, 0) + number
    return whole


def ends_of(kind, ordered):
    """The values of the least and of the greatest end."""
    digits = digits_of(kind)
    if digits is None:
        return [ordered[0], ordered[-1]]
    spans = {text: span_of(text, digits) for text in ordered}
    return [min(ordered, key=lambda text: spans[text][0]), max(ordered, key=lambda text: spans[text][2])]


def ordered_choices(kind, votes, ends):
    """The values seen, or those of the least and the greatest end, and the guess before them."""
    guess = middle(kind, votes)
    ordered = sorted(votes, key=order_of(kind))
    return list(dict.fromkeys([guess] + (ends_of(kind, ordered) if ends else ordered)))


def chooser_from_column(table, at, options, missing, warnings):
    """Gives for a row the values of the column in the rows that agree with it."""
    name, kind = table.names[at], table.kinds[at]
    like = [table.place_of(word) for word in options.like]
    seen = seen_in(table, at, like, missing)
    if not seen:
        raise Refusal(f"{shown(table.path)}: column {name} has no value at all; give --range or --values")
    known, alone = {}, []

    def choices_of(key):
        if key not in known:
            known[key] = ordered_choices(kind, seen[key] if key in seen else whole_column(seen), options.ends)
        return known[key]

    def choose(row):
        key = tuple(row.cells[n] for n in like)
        if like and ("" in key or key not in seen):
            if not alone:
                alone.append(row)
                warnings.append(f"{row.place()}, column {name}: no other row agrees; it takes the values of the whole column, "
                                "as do others like it")
            return choices_of(())
        return choices_of(key)

    return choose


def with_words(table, at, kind):
    """The kind of a column whose cells get values of this kind, too; None where it has another."""
    return kind if table.kinds[at] is None else joint_kind(table.kinds[at], kind)


def chooser_from_range(table, at, options, missing, warnings):
    """Gives the median, as far as it lies in the range, and the ends of the range."""
    words, name = options.range, table.names[at]
    kind = kind_of(set(words))
    ends = [span_of(word, digits_of(kind) or 0) for word in words]
    if None in ends or ends[0] > ends[1]:
        raise Refusal(f"--range {' '.join(words)}: not two numbers in order")
    kind = with_words(table, at, kind)
    for row in table.rows() if kind is None else ():
        if row.cells[at] not in missing and most_digits([row.cells[at]]) is None:
            raise row.refusal(name, no_number(row.cells[at]))
    if kind is None:
        cure = "; leave :text out of the header" if table.kinds[at] == "text" else ""
        raise Refusal(f"{shown(table.path)}: column {name} is {table.kinds[at]}, and --range has another kind{cure}")
    respell(table, at, kind, missing)
    digits = digits_of(kind)
    low, high = (span_of(word, digits)[0] for word in words)
    votes = whole_column(seen_in(table, at, [], missing))
    guess = min(max(span_of(middle(kind, votes), digits)[1], low), high) if votes else (low + high) // 2
    choices = list(dict.fromkeys(number_text(end, digits) for end in (guess, low, high)))
    return lambda row: choices


def chooser_from_values(table, at, options, missing, warnings):
    """Gives the values of the command line, of which the first is the guess."""
    before, kind = table.kinds[at], kind_of(set(options.values))
    kind = "text" if before == "text" else with_words(table, at, kind)
    if kind is None:
        warnings.append(f"column {table.names[at]} is text, since --values has another kind")
        kind = "text"
    if digits_of(kind) is not None:
        respell(table, at, kind, missing)
    table.kinds[at] = kind
    choices = list(dict.fromkeys(cell_text(kind, value) for value in options.values))
    return lambda row: choices


def made(table, at, choose, copies, gone, hint=""):
    """The block table in which these are the values of column `at`, without the columns `gone`."""
    blocks = (expanded(block, with_cell(at, choose)) for block in table.blocks)
    kept = [n for n in range(len(table.names)) if n not in gone]
    names, kinds = [table.names[n] for n in kept], [table.kinds[n] for n in kept]
    return block_text(names, kinds, without(blocks, gone) if gone else blocks, copies, hint)


def with_choices(table, at, choose, options, warnings, gone=(), hint="", records=0):
    """The block table in which these are the values of column `at`: as alternatives, or as ranges where that is asked for or
    the alternatives of numbers would be too many. It has at least so many `records`."""
    digits, name = digits_of(table.kinds[at]), table.names[at]
    if options.ranges and digits is None:
        raise Refusal(f"{shown(table.path)}: column {name} is {table.kinds[at]}, and only numbers have ranges")
    if not options.ranges:
        try:
            check_size(records * (len(table.names) + SHORTEST), hint)
            return made(table, at, choose, table.copies, gone, hint)
        except TooLarge as refusal:
            if digits is None:
                raise
            warnings.append(f"{refusal}; the cells of column {name} are ranges instead")
    return made(table, at, ranged(choose, digits), True, gone)


def impute(options, warnings):
    """Returns a block table of a file whose empty cells of a column have several values."""
    table = read_table(options.file, options, warnings)
    at = table.place_of(options.column)
    missing = {"", *options.missing}
    if table.kinds[at] == "text" and not table.plain:
        table.kinds[at] = None
    written = table.kinds[at]
    settle(table, options, warnings, at, missing)
    if not written and all(row.cells[at] in missing for row in table.rows()):
        table.kinds[at] = None
    make = chooser_from_range if options.range else chooser_from_values if options.values else chooser_from_column
    chooser = make(table, at, options, missing, warnings)
    if written and written != table.kinds[at]:
        word = "range" if options.range else "values"
        raise Refusal(f"{shown(options.file)}: column {table.names[at]} is {written}, and --{word} has another kind")

    def choose(row):
        return chooser(row) if row.cells[at] in missing else (row.cells[at],)

    numbers = [max(len(choose(row)) for row in block.rows) for block in table.blocks]
    if not any(row.cells[at] in missing for row in table.rows()):
        warnings.append(f"{shown(options.file)}: column {table.names[at]} has no empty cell")
    shorter = max(numbers, default=0) > MANY and not options.values and digits_of(table.kinds[at]) is None
    hint = "; --ends makes it smaller" if shorter else ""
    return with_choices(table, at, choose, options, warnings, hint=hint, records=sum(numbers))
