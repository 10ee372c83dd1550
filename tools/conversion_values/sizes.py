"""Resizes to any size: means of areas, and nearest neighbor."""

from fractions import Fraction

from .pictures import entry, numbers, rounded


def overlap(a, b):
    return max(Fraction(0), min(a[1], b[1]) - max(a[0], b[0]))


def area(rows, width, height):
    """Returns pixels that are the means of the areas they cover, weighted by the covered parts."""
    def weights(place, count, source):
        span = (Fraction(place * source, count), Fraction((place + 1) * source, count))
        return [(i, overlap(span, (i, i + 1))) for i in range(source) if overlap(span, (i, i + 1))]

    def pixel(x, y):
        across, down = weights(x, width, len(rows[0])), weights(y, height, len(rows))
        total = sum(rows[j][i] * a * b for j, b in down for i, a in across)
        return rounded(total / (sum(a for _, a in across) * sum(b for _, b in down)))

    return [pixel(x, y) for y in range(height) for x in range(width)]


def nearest(rows, width, height):
    """Returns pixels that are copies of the pixel that contains their center."""
    def place(at, count, source):
        return (2 * at + 1) * source // (2 * count)

    return [rows[place(y, height, len(rows))][place(x, width, len(rows[0]))] for y in range(height) for x in range(width)]


def pictures(factors, seed):
    """Yields resizes of a picture of seven by five pixels of each type."""
    return {"u8": [((73 + 2 * seed) * i + 19) % 256 for i in range(35)], "u16": [entry(i, factors.source) for i in range(35)]}


CALLS = [(area, "u8", 4, 3), (area, "u8", 10, 6), (area, "u8", 1, 1), (area, "u8", 7, 5), (area, "u16", 3, 4), (area, "u16", 13, 9),
         (nearest, "u8", 4, 3), (nearest, "u8", 10, 6), (nearest, "u8", 7, 5), (nearest, "u16", 5, 2), (nearest, "u16", 9, 11)]


def lines(factors, seed):
    sources = pictures(factors, seed)
    found = [f"source {kind} = {numbers(values)}" for kind, values in sources.items()]
    for call, kind, width, height in CALLS:
        rows = [sources[kind][7 * y:7 * y + 7] for y in range(5)]
        found.append(f"{call.__name__} {kind} {width} {height} = {numbers(call(rows, width, height))}")
    return found
