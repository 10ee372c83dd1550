"""Counts, extremes, sums and histograms of planes, and the best match of a block."""

from .pictures import LEVELS, Plane, numbers, text

ODD, SMALL = (131, 7, 3, 2, 1, 1), (5, 3, 0, 0, 0, 0)
LAYOUTS = (ODD, (4099, 2, 0, 5, 1, 0), (1, 1, 1, 1, 1, 1), SMALL)
LIMITS = {"u8": 100, "u16": 40_000}


def pixels(kind, layout, factor, size=0):
    return [value for row in Plane.numbered(kind, layout, factor, size).rows() for value in row]


def pair_sums(a, b):
    return [sum(a), sum(b), sum(p * p for p in a), sum(q * q for q in b), sum(p * q for p, q in zip(a, b))]


def count_lines(factors):
    for kind in LEVELS:
        for layout in LAYOUTS:
            a, b = pixels(kind, layout, factors.source), pixels(kind, layout, factors.target)
            counts = [sum(p > LIMITS[kind] for p in a), sum(p != q for p, q in zip(a, b)), sum(p < q for p, q in zip(a, b)),
                      min(a), max(a), sum(a) // len(a)]
            yield f"counts {kind} {LIMITS[kind]} {text(layout)} = {numbers(counts)}"


def weighed_histogram(values, size):
    """Returns the sum of all counts, each multiplied by its value squared plus one, and the number of counted pixels."""
    inside = [value for value in values if value < size]
    return sum((value + 1) ** 2 for value in inside), len(inside)


def histogram_lines(factors):
    for layout in LAYOUTS:
        values = pixels("u8", layout, factors.source)
        yield f"histogram u8 8 5 {text(layout)} = {numbers([*weighed_histogram(values, 256), values.count(5)])}"
        values = pixels("u16", layout, factors.source)
        yield f"histogram u16 10 940 {text(layout)} = {numbers([*weighed_histogram(values, 1024), values.count(940)])}"
        yield f"histogram u16 16 940 {text(layout)} = {numbers([*weighed_histogram(values, 65536), values.count(940)])}"


def sum_lines(factors):
    for layout in LAYOUTS:
        for kind, size in (("u8", 256), ("u16", 0), ("u16", 1024), ("u16", 4096)):
            sums = pair_sums(*(pixels(kind, layout, factor, size) for factor in (factors.source, factors.target)))
            yield f"sums {kind} {size} {text(layout)} = {numbers(sums)}"


def block_lines(factors):
    for layout in (ODD, SMALL):
        for kind in LEVELS:
            a, b = ([value for row in Plane.numbered(kind, layout, factor).rows()[1:3] for value in row[1:5]]
                    for factor in (factors.source, factors.target))
            yield f"block {kind} 1 1 4 2 {text(layout)} = {numbers(pair_sums(a, b))}"


BLOCK = (6, 3, 1, 0, 0, 1)


def match_lines(factors):
    """Returns the first smallest sum of absolute differences between a block and a region: over all places, over some, over the last."""
    for kind in LEVELS:
        plane, block = Plane.numbered(kind, ODD, factors.source).rows(), Plane.numbered(kind, BLOCK, factors.target).rows()
        for x, y, columns, rows in ((0, 0, 126, 5), (20, 2, 9, 3), (125, 4, 1, 1)):
            places = [(sum(abs(plane[j + k][i + m] - block[k][m]) for k in range(3) for m in range(6)), j, i)
                      for j in range(y, y + rows) for i in range(x, x + columns)]
            cost, row, column = min(places)
            yield f"match {kind} {x} {y} {columns} {rows} {text(ODD)} {text(BLOCK)} = {column} {row} {cost}"


def lines(factors):
    return [line for part in (count_lines, histogram_lines, sum_lines, block_lines, match_lines) for line in part(factors)]
