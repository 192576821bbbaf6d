"""What is asked of the terms of a plan: their columns, kinds and sizes, the ranges that conditions compare, and the tests in them."""
from plan_text import Call, Case, Column, Literal, One, Truth, Two

TRUE, FALSE = Truth("TRUE"), Truth("FALSE")
TESTS = ("=", "<", "<=", "AND", "OR")


def parts(term):
    """Returns the terms within a term."""
    return [part for part in term if isinstance(part, tuple)]


def mapped(term, change):
    """Returns a term with other terms for its columns."""
    if isinstance(term, Column):
        return change(term)
    return type(term)(*(mapped(part, change) if isinstance(part, tuple) else part for part in term))


def replaced(term, values):
    """Returns a term with values for some of the terms within it."""
    if term in values:
        return values[term]
    return type(term)(*(replaced(part, values) if isinstance(part, tuple) else part for part in term))


def columns(term):
    """Returns the columns of a term."""
    return {term} if isinstance(term, Column) else set().union(*map(columns, parts(term)))


def size(term):
    """Returns how many terms there are in a term."""
    return 1 + sum(map(size, parts(term)))


def kind(term, kinds):
    """Returns the kind of a term over columns of these kinds: int, text or flag. `kinds` gives the kind of a column."""
    if isinstance(term, Column):
        return kinds(term)
    if isinstance(term, Literal):
        return "text" if term.text.startswith("'") else "int"
    if isinstance(term, (Call, Case)):
        return kind(term[1], kinds)
    return "int" if isinstance(term, (One, Two)) and term.operator in ("-", "+", "*") else "flag"


def is_at_most(term):
    return isinstance(term, Two) and term.operator == "<="


def is_both(term):
    return isinstance(term, Two) and term.operator == "AND"


def conjuncts(term):
    """Returns the conjuncts of a condition, but for TRUE."""
    if is_both(term):
        return conjuncts(term.left) + conjuncts(term.right)
    return [] if term == TRUE else [term]


def side(term):
    """Returns the one side of a join whose columns a term has, or ''."""
    sides = {column.side for column in columns(term)}
    return sides.pop() if len(sides) == 1 else ""


class Overlap(tuple):
    """Asks whether two ranges overlap: (lo, hi) of the left rows, (lo, hi) of the right ones."""


def overlaps(terms):
    """Returns the tests among conjuncts that ask whether a range of x and one of y overlap, each made of two of them, and the
    conjuncts that remain. Any two make one: which are taken for the ends of a range is a matter of speed."""
    found, rest = [], list(terms)
    halves = [(one, other) for one in terms for other in terms if (half(one), half(other)) == ("xy", "yx")]
    for one, other in [each for each in halves if are_of_columns(*each)] + [each for each in halves if are_beside(terms, *each)]:
        if one in rest and other in rest:
            found.append(Overlap(((one.left, other.right), (other.left, one.right))))
            rest.remove(one)
            rest.remove(other)
    return found, rest


def half(term):
    """Returns the sides of a comparison between both sides of a join, or ''."""
    sides = (side(term.left), side(term.right)) if is_at_most(term) else ()
    return "".join(sides) if all(sides) else ""


def are_of_columns(one, other):
    """Whether two comparisons are of two ranges whose ends are columns, each upper end two places behind its lower one."""
    return is_range(one.left, other.right) and is_range(other.left, one.right)


def is_range(low, high):
    return isinstance(low, Column) and high == Column(low.side, low.place + 2)


def are_beside(terms, one, other):
    """Whether two comparisons stand beside each other, and of their ends not all are columns."""
    return abs(terms.index(one) - terms.index(other)) == 1 and not all(isinstance(end, Column) for end in (*one[1:], *other[1:]))


def folded(term):
    """Returns a term with its constant conditions decided."""
    if isinstance(term, (Column, Literal, Truth)):
        return term
    term = type(term)(*(folded(part) if isinstance(part, tuple) else part for part in term))
    if isinstance(term, Case):
        if term.then == term.other or term.test == TRUE:
            return term.then
        return term.other if term.test == FALSE else term
    if isinstance(term, One) and term.operator == "NOT" and term.term in (TRUE, FALSE):
        return FALSE if term.term == TRUE else TRUE
    if isinstance(term, Two) and term.operator in ("AND", "OR"):
        return decided(term, FALSE if term.operator == "AND" else TRUE)
    return term


def decided(term, stop):
    """Returns a conjunction or disjunction, or what it is where one side is a constant. `stop` decides it alone."""
    for one, other in ((term.left, term.right), (term.right, term.left)):
        if one == stop:
            return stop
        if one in (TRUE, FALSE):
            return other
    return term


def is_test(term):
    return isinstance(term, Two) and term.operator in TESTS or isinstance(term, One) and term.operator == "NOT"


def tests(term, inside):
    """Returns the greatest tests within a term whose columns are all inside."""
    if is_test(term) and columns(term) and columns(term) <= inside:
        return {term}
    return set().union(*(tests(part, inside) for part in parts(term)))
