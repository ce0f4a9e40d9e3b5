#!/usr/bin/env python3
"""Writes a script that declares and opens one table: ROWS rows, of which SUPERS are of question 6.

    python3 tools/large_table.py chains 50000 2000 | crates/binder/out/binder -

`chains` makes many short chains of supertraits, `tower` one long one. Both are lawful.
"""
import sys


def supers(shape, count):
    """Rows of question 6: trait t has below it, in its own chain, every trait before it."""
    length = 9 if shape == "chains" else 62
    rows, first = [], 0
    while len(rows) < count:
        for at in range(1, length):
            for place in range(1, at + 1):
                rows.append((6, first + at, place, 0, 0, 0, 0, 0, first + at - place, 0, 0))
        first += length
    return rows


def whole_traits(rows, count):
    """At most count rows, and no trait cut off in the middle of its supers."""
    while len(rows) > count:
        trait = rows[-1][1]
        rows = [row for row in rows if row[1] != trait]
    return rows


shape, total, of_supers = sys.argv[1], int(sys.argv[2]), int(sys.argv[3])
rows = whole_traits(supers(shape, of_supers), of_supers)
rows += [(9, 2, n % 500, n % 7, 0, n, n % 4, n % 2, 1, 0, 0) for n in range(total - len(rows))]
print("host 0 tabled")
for row in rows:
    print("row", *row)
print("open 0")
