"""`blocks convert`: an export as a plain table that audb reads as it is meant."""
import re
import unicodedata

from .indicators import distinct_names
from .outputs import block_text, plain_text
from .sources import shown
from .tables import check_names, read_table, settle

RESERVED = frozenset("select distinct all from where group by having union except as and or not case when then else end true "
                     "false count sum min max".split())


def simple_name(name, at):
    """A name that needs no quotes in a query: letters, digits and `_` of ASCII."""
    letters = unicodedata.normalize("NFKD", name)
    bare = "".join(c for c in letters if not unicodedata.combining(c))
    word = re.sub(r"[^A-Za-z0-9]+", "_", bare).strip("_") or f"col{at + 1}"
    if word[0].isdigit():
        word = f"c_{word}"
    return f"{word}_" if word.lower() in RESERVED else word


def renamed(table, options):
    """Returns the names of the columns by the options."""
    given = {table.place_of(old): new for old, new in options.name}
    rest = [n for n in range(len(table.names)) if n not in given]
    if not options.simple_names:
        return [given.get(n, name) for n, name in enumerate(table.names)]
    made = distinct_names(given.values(), [simple_name(table.names[n], n) for n in rest])
    names = given | dict(zip(rest, made))
    return [names[n] for n in range(len(table.names))]


def convert(options, warnings):
    """Returns a file as a plain table, and a block table as a block table."""
    table = read_table(options.file, options, warnings)
    settle(table, options, warnings, says_kinds=False)
    names = renamed(table, options)
    check_names(shown(options.file), names)
    if table.plain:
        return plain_text(names, table.kinds, table.blocks)
    return block_text(names, table.kinds, table.blocks, table.copies)
