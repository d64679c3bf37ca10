#!/usr/bin/env python3
"""Queries with a fixed seed, as text on standard output.

    rows.py small [COUNT]    20 rows over 3 variables, as the checks of a short message ask them
    rows.py middle [COUNT]   60 rows over 20 variables
    rows.py large [COUNT]    570 rows over 190 variables
    rows.py halves [COUNT]   3a + 5b = 7 over two bytes, again and again: 255 halvings
    rows.py cases [COUNT]    0 <= x <= 99, and x is no number from 0 to 99, again and again: 100 cases below one another

A query is `q` and its number of variables, and then a list: a count of rows, the rows (their coefficients, and the
constant that their sum is at least), a count of disjunctions, and for each a count of branches, each such a list. The
first three have no disjunctions.

A system is made around a point. Each variable has a row for its least and one for its greatest value. Variable 0 is
the length of a buffer in bytes, the others are places in it in bits: rows keep them within it, and couple two or three
that stand close together. In every second system a chain of differences then leads from one variable to a far one
and back, by one step too far, so that no point is left.
"""
import random
import sys

# variables, rows, links of a chain, systems
SIZES = {"small": (3, 20, 2, 200), "middle": (20, 60, 10, 40), "large": (190, 570, 12, 4)}


def row(variables, terms, least):
    cells = [0] * variables
    for variable, coefficient in terms:
        cells[variable] += coefficient
    return cells + [least]


def bounds(variables, greatest):
    """0 <= x <= greatest, of each variable."""
    for variable in range(variables):
        yield row(variables, [(variable, 1)], 0)
        yield row(variables, [(variable, -1)], -greatest[variable])


def coupling(draw, variables, point):
    """A row that is true at the point: a variable within the buffer, or a few close variables."""
    first = draw.randrange(1, variables)
    if draw.random() < 0.25:
        terms = [(0, 8), (first, -1)]
    else:
        close = range(first, min(first + 3, variables))
        terms = [(variable, draw.choice([-1, 1])) for variable in draw.sample(close, min(2, len(close)))]
    value = sum(coefficient * point[variable] for variable, coefficient in terms)
    return row(variables, terms, value - draw.randint(0, 40))


def chain(variables, point, links):
    """Differences along a run of variables as at the point, and back by one too many."""
    last = min(1 + links, variables - 1)
    for variable in range(1, last):
        yield row(variables, [(variable + 1, 1), (variable, -1)], point[variable + 1] - point[variable])
    yield row(variables, [(1, 1), (last, -1)], point[1] - point[last] + 1)


def system(draw, variables, rows, links, solvable):
    point = [draw.randint(1000, 1500)] + [draw.randint(0, 8000) for _ in range(variables - 1)]
    greatest = [most + draw.randint(0, 500) for most in point]
    cells = list(bounds(variables, greatest))
    if not solvable:
        cells += chain(variables, point, links)
    while len(cells) < rows:
        cells.append(coupling(draw, variables, point))
    draw.shuffle(cells)
    return cells


def halves():
    """Two bytes a and b with 3a + 5b = 7."""
    return 2, list(bounds(2, [255, 255])) + [[3, 5, 7], [-3, -5, -7]], []


def cases():
    """0 <= x <= 99, and for each of these numbers x is less or greater."""
    return 1, list(bounds(1, [99])), [[[[-1, 1 - number]], [[1, number + 1]]] for number in range(100)]


def rows_of(cells):
    return [str(len(cells))] + [" ".join(map(str, one)) for one in cells]


def text(variables, cells, disjunctions=()):
    lines = ["q %d" % variables] + rows_of(cells) + [str(len(disjunctions))]
    for branches in disjunctions:
        lines.append(str(len(branches)))
        for branch in branches:
            lines += rows_of(branch) + ["0"]
    return "\n".join(lines)


WALKS = {"halves": halves, "cases": cases}


def main():
    walk = WALKS.get(sys.argv[1])
    variables, rows, links, count = SIZES.get(sys.argv[1], (0, 0, 0, 100))
    if len(sys.argv) > 2:
        count = int(sys.argv[2])
    if walk:
        print("\n".join([text(*walk())] * count))
        return
    draw = random.Random(20)
    for number in range(count):
        print(text(variables, system(draw, variables, rows, links, number % 2 == 0)))


main()
