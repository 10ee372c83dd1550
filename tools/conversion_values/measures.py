"""Structural similarity with FFmpeg's order of operations, mean squared errors, ratios in decibels, and differences."""

import math
import struct

from .pictures import entry


def f32(number):
    """Returns a number rounded to 32 bits."""
    return struct.unpack("f", struct.pack("f", number))[0]


def f32_of(whole):
    """Returns the number of 32 bits that is nearest to an integer, or the even one of two. The integer is rounded once."""
    sign, whole = (-1, -whole) if whole < 0 else (1, whole)
    spare = max(whole.bit_length() - 24, 0)
    low, high = whole & (2 ** spare - 1), whole >> spare
    half = 2 ** spare // 2
    high += spare > 0 and (low > half or low == half and high & 1 == 1)
    return sign * float(high << spare)


def picture(name, columns, rows, depth, factors):
    """Returns the first picture, a picture near to it with changed low bits, and a picture far from it."""
    factor = factors.target if name == "Far" else factors.source
    values = [entry(i, factor) for i in range(columns * rows)]
    if name == "Near":
        values = [value ^ (i % columns * (i // columns) % 8) for i, value in enumerate(values)]
    return [value % 2 ** depth for value in values]


def window_similarity(p, q, depth):
    """Returns the similarity of two windows of 64 pixels. Sums are exact; each sum, product and quotient is rounded to 32 bits."""
    peak = (2 ** depth - 1) ** 2
    means, variances = (64 * peak + 5000) // 10000, (36288 * peak + 5000) // 10000
    first, second, products = sum(p), sum(q), sum(a * b for a, b in zip(p, q))
    squares = sum(a * a for a in p) + sum(b * b for b in q)
    above = f32(f32_of(2 * first * second + means) * f32_of(128 * products - 2 * first * second + variances))
    below = f32(f32_of(first ** 2 + second ** 2 + means) * f32_of(64 * squares - first ** 2 - second ** 2 + variances))
    return f32(above / below)


def similarity(p, q, columns, rows, depth):
    """Returns the mean over windows of 8 by 8 pixels at every fourth place. For pixels of two bytes, a line is added in 32 bits."""
    total = 0.0
    across, down = columns // 4 - 1, rows // 4 - 1
    for y in range(down):
        line = 0.0
        for x in range(across):
            places = [(4 * y + j) * columns + 4 * x + i for j in range(8) for i in range(8)]
            line += window_similarity([p[k] for k in places], [q[k] for k in places], depth)
            line = line if depth == 8 else f32(line)
        total += line
    return total / (across * down)


def squared_error(p, q):
    return float(sum((a - b) ** 2 for a, b in zip(p, q))) / len(p)


def decibels(error, depth):
    return 10 * math.log10((2 ** depth - 1) ** 2 / error)


CASES = [("Near", 8, 8, 8), ("Far", 8, 8, 8), ("Near", 19, 13, 8), ("Far", 19, 13, 8), ("Near", 16, 12, 10), ("Far", 16, 12, 10),
         ("Near", 9, 24, 16), ("Far", 9, 24, 16), ("Far", 9, 144, 8)]
# Windows are summed in groups of 8, strips of 63 and bands of 32 lines. The sizes are below, at and above these numbers.
CASES += [("Far", 35, 12, 8), ("Near", 36, 8, 8), ("Far", 69, 20, 8), ("Near", 100, 136, 8), ("Far", 259, 11, 8), ("Near", 508, 13, 8),
          ("Far", 516, 140, 8), ("Far", 1027, 9, 8), ("Near", 513, 8, 10), ("Far", 264, 140, 10), ("Far", 72, 9, 13), ("Far", 72, 9, 14)]


def plane_lines(factors):
    for name, columns, rows, depth in CASES:
        p, q = (picture(which, columns, rows, depth, factors) for which in ("First", name))
        apart = [abs(a - b) for a, b in zip(p, q)]
        error, place = squared_error(p, q), apart.index(max(apart))
        yield f"plane {name} {columns} {rows} {depth} = {similarity(p, q, columns, rows, depth)!r} {error!r} " \
              f"{decibels(error, depth)!r} {sum(d > 3 for d in apart)} {max(apart)} {place % columns} {place // columns}"


def frame_lines(factors):
    """Yields measures of a frame of 16 by 16 pixels in 4:2:0 with a large error in Cr. The planes are weighted by their pixels."""
    values, errors = [], []
    for name, size in (("Near", 16), ("Near", 8), ("Far", 8)):
        p, q = (picture(which, size, size, 8, factors) for which in ("First", name))
        values.append(similarity(p, q, size, size, 8))
        errors.append(squared_error(p, q))
    whole = [sum(part * value for part, value in zip((256 / 384, 64 / 384, 64 / 384), of)) for of in (values, errors)]
    yield "frame ssim = " + " ".join(map(repr, [*values, whole[0]]))
    yield "frame errors = " + " ".join(map(repr, [*errors, whole[1]]))


def lines(factors):
    return [*plane_lines(factors), *frame_lines(factors)]
