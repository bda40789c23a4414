"""Node tables from trees: a tree is (kind, field, high, low, children)."""
from images import *

MOST = 0xffffffff


def leaf(kind, field, high=0, low=0):
    return (kind, field, high, low, [])


def known(name, value=0, length=None):
    """A scalar of schema X by its field's name: a number, or start and length in the pool."""
    kind = (X_FIELDS + X_SECOND)[X[name]][4]
    if length is not None:
        return leaf(kind, X[name], value, length)
    return leaf(kind, X[name], value >> 32 & MOST, value & MOST)


def message(name, *children):
    return (MESSAGE, X[name], 0, 0, list(children))


def entry(name, *children):
    return (ENTRY, X[name], 0, 0, list(children))


def key(kind, high=0, low=0):
    return leaf(kind, 0, high, low)


def value(kind, high=0, low=0):
    return leaf(kind, 1, high, low)


def inner(*children):
    """A message that is an entry's value."""
    return (MESSAGE, 1, 0, 0, list(children))


def nodes(tree, start=0):
    """The tree's nodes, each with its end."""
    kind, field, high, low, children = tree
    below, at = [], start + 1
    for child in children:
        below += nodes(child, at)
        at = start + 1 + len(below)
    return [[kind, field, high, low, at]] + below


def words(*children):
    """The words of a table whose root has these children."""
    return sum(nodes((MESSAGE, 0, 0, 0, list(children))), [])


def changed(table, node, word, to):
    """The table with one word of one node changed."""
    other = list(table)
    other[5 * node + word] = to
    return other
