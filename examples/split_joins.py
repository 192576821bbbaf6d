"""Reads a join of ranges that a plan has in three parts as the one join that it is.

The parts are the rows whose ranges are sure on both sides, joined by equality; the left rows of which a range is unsure with all right
ones; and the other left rows with the right rows of which a range is unsure.
"""
from plan_terms import conjuncts, mapped, overlaps
from plan_text import Column, Filter, Join, One, Two, Union


def rejoined(node):
    """Returns a plan with each join that stands in three parts as one."""
    for below in ("child", "left", "right"):
        if hasattr(node, below):
            setattr(node, below, rejoined(getattr(node, below)))
    return joined(node) or node


def joined(node):
    """Returns the join that three parts are, or None."""
    parts = [node.left.left, node.left.right, node.right] if isinstance(node, Union) and isinstance(node.left, Union) else []
    if len(parts) < 3 or not all(isinstance(part, Join) for part in parts):
        return None
    equal, unsure, _ = parts
    if not isinstance(equal.left, Filter) or not isinstance(equal.right, Filter):
        return None
    left, right = equal.left, equal.right
    whole = Join(left.child, right.child, unsure.on)
    wanted = [Join(left, right, equal.on), Join(Filter(left.child, One("NOT", left.on)), right.child, unsure.on),
              Join(left, Filter(right.child, One("NOT", right.on)), unsure.on)]
    return whole if repr(wanted) == repr(parts) and says_equal(equal, unsure.on) else None


def says_equal(equal, on):
    """Whether the join of sure rows says by equality what a condition says of them."""
    pairs, rest = overlaps(conjuncts(on))
    ends = [{same(*map(bare, pair[side])) for pair in pairs} for side in (0, 1)]
    keys = {same(left, right) for (left, _), (right, _) in pairs}
    said = [set(conjuncts(term)) for term in (equal.left.on, equal.right.on, equal.on)]
    return bool(pairs) and [*ends, keys | set(rest)] == said


def same(one, other):
    return Two("=", one, other)


def bare(term):
    """Returns a term over one side of a join as one over its rows."""
    return mapped(term, lambda column: Column("", column.place))
