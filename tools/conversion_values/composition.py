"""Compositions of two planes: blends, copies to any place, and differences."""

from fractions import Fraction

from .pictures import Plane, rounded, text, weighted, entry

TARGET, SOURCE = (13, 7, 3, 2, 1, 2), (5, 3, 1, 2, 0, 1)
# A plane with enough pixels that rare roundings occur.
LARGE_TARGET, LARGE_SOURCE = (163, 41, 3, 2, 1, 2), (150, 33, 1, 2, 0, 1)
PAIRS = ((SOURCE, TARGET, (0, 77, 128, 256)), (LARGE_SOURCE, LARGE_TARGET, (1, 100, 255)))
SIZES = {"u8": 256, "u16": 0}


def placed(target, rows, x, y, mix):
    """Returns the table of the target after each pixel below the rows was combined with a pixel of them."""
    shown = [list(row) for row in target.rows()]
    for j, row in enumerate(rows):
        for i, value in enumerate(row):
            if 0 <= y + j < len(shown) and 0 <= x + i < len(shown[0]):
                shown[y + j][x + i] = mix(shown[y + j][x + i], value)
    return shown


def blended(p, q, weight, parts):
    return rounded(Fraction(p * (parts - weight) + q * weight, parts))


def blend_lines(factors):
    for kind, size in SIZES.items():
        for layout, target_layout, weights in PAIRS:
            source = Plane.numbered(kind, layout, factors.source, size).rows()
            for weight in weights:
                target = Plane.numbered(kind, target_layout, factors.target, size)
                target.show(placed(target, source, 4, 2, lambda p, q: blended(p, q, weight, 256)))
                yield f"blend {kind} {weight} 4 2 {text(layout)} {text(target_layout)} = {target.sum()}"


def mask_lines(factors):
    for kind, size in SIZES.items():
        for layout, target_layout, _ in PAIRS:
            source = Plane.numbered(kind, layout, factors.source, size).rows()
            mask = Plane.numbered("u8", layout, factors.mask).rows()
            target = Plane.numbered(kind, target_layout, factors.target, size)
            pairs = [list(zip(*pair)) for pair in zip(source, mask)]
            target.show(placed(target, pairs, 8, 4, lambda p, pair: blended(p, pair[0], pair[1], 255)))
            yield f"mask {kind} 8 4 {text(layout)} {text(target_layout)} = {target.sum()}"


PLACES = [("u8", SOURCE, TARGET, place) for place in
          ((-2, -1), (10, 5), (4, 2), (-4, 6), (-5, 0), (13, 0), (0, -3), (0, 7), (-2 ** 63, 2 ** 63 - 1), (2 ** 63 - 1, -2 ** 63))]
PLACES += [("u16", TARGET, SOURCE, place) for place in ((-3, -2), (1, 1))]


def copy_lines(factors):
    for kind, source, layout, (x, y) in PLACES:
        rows = Plane.numbered(kind, source, factors.source, SIZES[kind]).rows()
        target = Plane.numbered(kind, layout, factors.target, SIZES[kind])
        target.show(placed(target, rows, x, y, lambda p, q: q))
        yield f"copy {kind} {x} {y} {text(source)} {text(layout)} = {target.sum()}"


DIFFERENCES = [("u8", 256, 0, 8), ("u8", 256, 1, 8), ("u8", 256, 1, 5), ("u8", 256, 8, 8), ("u8", 256, 300, 8), ("u16", 1024, 1, 10),
               ("u16", 1024, 3, 10), ("u16", 0, 1, 16), ("u16", 0, 65535, 16)]


def apart(p, q, gain, depth):
    return min(abs(p - q) * gain, 2 ** depth - 1)


def difference_lines(factors):
    """Yields differences. The other plane of a large one has an even factor, so that odd differences occur, including 1."""
    for layout, step in ((TARGET, 0), (LARGE_TARGET, 1)):
        for kind, size, gain, depth in DIFFERENCES:
            other = Plane.numbered(kind, layout, factors.source + step, size).rows()
            plane = Plane.numbered(kind, layout, factors.target, size)
            plane.show(placed(plane, other, 0, 0, lambda p, q: apart(p, q, gain, depth)))
            yield f"difference {kind} {size} {gain} {depth} {step} {text(layout)} = {plane.sum()}"


def row_lines(factors):
    """Yields operations on rows of five by three pixels with a stride of nine entries, in a buffer of 30."""
    for kind, size in SIZES.items():
        source = Plane.numbered(kind, SOURCE, factors.source, size).rows()
        mask = Plane.numbered("u8", SOURCE, factors.mask).rows()
        depth = 8 if kind == "u8" else 16
        mixes = {"blend": lambda p, q, m: blended(p, q, 77, 256), "mask": lambda p, q, m: blended(p, q, m, 255),
                 "difference": lambda p, q, m: apart(p, q, 2, depth)}
        for name, mix in mixes.items():
            buffer = [entry(i, factors.target) % (size or 65536) for i in range(30)]
            for y in range(3):
                for x in range(5):
                    buffer[9 * y + x] = mix(buffer[9 * y + x], source[y][x], mask[y][x])
            yield f"rows {kind} {name} {text(SOURCE)} = {weighted(buffer)}"


def lines(factors):
    return [line for part in (blend_lines, mask_lines, copy_lines, difference_lines, row_lines) for line in part(factors)]
