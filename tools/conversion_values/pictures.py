"""Numbered planes, as the tests of rust/v_frame_proved build them, and the sum by which whole buffers are compared."""

LEVELS = {"u8": 256, "u16": 65536}


class Factors:
    """The factors of the entries of sources, targets, third planes and masks. They depend on the seed."""

    def __init__(self, seed):
        self.source, self.target, self.third, self.mask = (first + 2 * 997 * seed for first in (7919, 7907, 7901, 101))

    def line(self):
        return f"factors = {self.source} {self.target} {self.third} {self.mask}"


def entry(i, factor):
    """Returns entry `i` of a buffer, before it is reduced to its type or depth."""
    return (i * factor + i // 13 * 31) % 65536


def weighted(entries):
    """Returns the sum of all entries, each multiplied by its number, counted from 1."""
    return sum(number * value for number, value in enumerate(entries, 1))


def numbers(values):
    return " ".join(map(str, values))


class Plane:
    """A plane with its border: a buffer and its table."""

    def __init__(self, layout, entries):
        self.layout, self.entries = tuple(layout), list(entries)

    @staticmethod
    def numbered(kind, layout, factor, size=0):
        """Returns a plane whose entries are reduced to `size` values, or to the values of its type."""
        size = min(size or 65536, LEVELS[kind])
        return Plane(layout, (entry(i, factor) % size for i in range(area(layout))))

    @staticmethod
    def counted(layout, first):
        """Returns a plane whose entries count up from `first`, as bytes do."""
        return Plane(layout, ((first + i) % 256 for i in range(area(layout))))

    def origin(self, y):
        width, _, left, right, top, _ = self.layout
        return (y + top) * (width + left + right) + left

    def rows(self):
        """Returns the table of the plane."""
        width, height = self.layout[:2]
        return [self.entries[self.origin(y):self.origin(y) + width] for y in range(height)]

    def show(self, rows):
        """Replaces the table of the plane, and returns the plane."""
        assert [len(row) for row in rows] == [self.layout[0]] * self.layout[1]
        for y, row in enumerate(rows):
            self.entries[self.origin(y):self.origin(y) + len(row)] = row
        return self

    def sum(self):
        return weighted(self.entries)


def area(layout):
    width, height, left, right, top, bottom = layout
    return (width + left + right) * (height + top + bottom)


def text(layout):
    """Returns a layout as one token: the size, and the border at the left, right, top and bottom."""
    return "{}x{}+{}+{}+{}+{}".format(*layout)


def rounded(fraction):
    """Returns the nearest integer. A half is rounded up."""
    return (2 * fraction.numerator + fraction.denominator) // (2 * fraction.denominator)


def clamped(value, largest):
    return max(0, min(value, largest))
