"""Conversions of bit depths, ranges and chroma formats, and resizes by whole ratios."""

from fractions import Fraction

from .pictures import Plane, clamped, rounded, text

ODD, SMALL = (131, 7, 3, 2, 1, 1), (5, 3, 1, 0, 0, 2)
RATIOS = {"Yuv420": (2, 2), "Yuv422": (2, 1), "Yuv411": (4, 1), "Yuv444": (1, 1), "Monochrome": None}
SCALES = {"Quarter": Fraction(1, 4), "Half": Fraction(1, 2), "Same": Fraction(1), "Double": Fraction(2), "Quadruple": Fraction(4)}


def in_depth(value, source, target):
    """Returns a value in another bit depth: shifted to a greater depth, rounded to a smaller one."""
    value, largest = min(value, 2 ** source - 1), 2 ** target - 1
    return min(rounded(Fraction(value) * Fraction(2) ** (target - source)), largest)


def full_range(value, component, depth):
    unit, largest = 2 ** (depth - 8), 2 ** depth - 1
    if component == "Luma":
        return clamped(rounded(Fraction((value - 16 * unit) * largest, 219 * unit)), largest)
    return clamped(rounded(128 * unit + Fraction((value - 128 * unit) * largest, 224 * unit)), largest)


def limited_range(value, component, depth):
    unit, largest = 2 ** (depth - 8), 2 ** depth - 1
    value = min(value, largest)
    if component == "Luma":
        return rounded(16 * unit + Fraction(value * 219 * unit, largest))
    return rounded(128 * unit + Fraction((value - 128 * unit) * 224 * unit, largest))


def mapped(rows, change):
    return [[change(value) for value in row] for row in rows]


def repeated(rows, width, height, across, down):
    return [[rows[y // down][x // across] for x in range(width)] for y in range(height)]


def resized(rows, width, height, across, down):
    """Returns pixels that are means of the blocks they cover, or copies of the pixel whose block covers them. Edges repeat."""
    def block(place, scale, count):
        if scale >= 1:
            return [place // int(scale)]
        return [min(place * int(1 / scale) + k, count - 1) for k in range(int(1 / scale))]

    def mean(x, y):
        values = [rows[j][i] for j in block(y, down, len(rows)) for i in block(x, across, len(rows[0]))]
        return rounded(Fraction(sum(values), len(values)))

    return [[mean(x, y) for x in range(width)] for y in range(height)]


def covering(count, ratio):
    return -(-count // ratio)


DEPTHS = [("u8", 8, 256, "u16", 10), ("u16", 10, 1280, "u8", 8), ("u16", 12, 5120, "u16", 16), ("u16", 10, 1280, "u16", 10),
          ("u16", 16, 0, "u8", 8), ("u8", 8, 256, "u8", 8)]


def depth_lines(factors):
    for source, depth, size, target, to in DEPTHS:
        for layout in (ODD, SMALL):
            shown = Plane.numbered(source, layout, factors.source, size).rows()
            plane = Plane.numbered(target, layout, factors.target).show(mapped(shown, lambda v: in_depth(v, depth, to)))
            yield f"depth {source} {target} {depth} {size} {to} {text(layout)} = {plane.sum()}"


def range_lines(factors):
    for kind, depth, size in (("u8", 8, 256), ("u16", 10, 1280), ("u16", 16, 0)):
        for component in ("Luma", "Chroma"):
            shown = Plane.numbered(kind, ODD, factors.source, size).rows()
            sums = [Plane.numbered(kind, ODD, factors.target).show(mapped(shown, lambda v: change(v, component, depth))).sum()
                    for change in (full_range, limited_range)]
            yield f"range {kind} {depth} {size} {component} {text(ODD)} = {sums[0]} {sums[1]}"


def upscale_lines(factors):
    for kind in ("u8", "u16"):
        for across, down in ((1, 1), (2, 2), (4, 1), (4, 4), (3, 2), (2, 1)):
            layout = (covering(ODD[0], across), covering(ODD[1], down), 2, 1, 0, 1)
            rows = repeated(Plane.numbered(kind, layout, factors.source).rows(), *ODD[:2], across, down)
            yield f"upscale {kind} {across} {down} {text(layout)} {text(ODD)} = " \
                  f"{Plane.numbered(kind, ODD, factors.target).show(rows).sum()}"


def sizes_of(down, across, most):
    """Returns the sizes of a source and of a target. The larger one has this size in each direction."""
    (wide, width), (high, height) = ((full, covering(full, int(1 / scale))) if scale < 1 else (covering(full, int(scale)), full)
                                     for full, scale in zip(most, (SCALES[across], SCALES[down])))
    return (wide, high, 2, 1, 0, 1), (width, height, 3, 2, 1, 1)


DEEPER, LESS_DEEP = ("u8", 8, 256, "u16", 10), ("u16", 12, 5120, "u8", 8)
BYTES, WORDS = ("u8", 8, 256, "u8", 8), ("u16", 16, 0, "u16", 16)


def resize_line(factors, down, across, most, depths):
    (kind, depth, size, other, to), (source, target) = depths, sizes_of(down, across, most)
    shown = Plane.numbered(kind, source, factors.source, size).rows()
    rows = resized(shown, *target[:2], SCALES[across], SCALES[down])
    plane = Plane.numbered(other, target, factors.target).show(mapped(rows, lambda v: in_depth(v, depth, to)))
    return f"resize {kind} {other} {depth} {size} {to} {across} {down} {text(source)} {text(target)} = {plane.sum()}"


def resize_lines(factors):
    """Yields resizes by all scales, and horizontal ones for each remainder of the width by four."""
    for down in ("Half", "Same", "Double", "Quadruple"):
        for across in SCALES:
            for depths in (DEEPER, LESS_DEEP):
                yield resize_line(factors, down, across, (131, 7), depths)
            for width in (1, 2, 3, 44, 45, 46, 47):
                for depths in (BYTES, WORDS):
                    yield resize_line(factors, down, across, (width, 6), depths)


def halve_lines(factors):
    for kind in ("u8", "u16"):
        source = (131, 7, 2, 1, 0, 1)
        shown = Plane.numbered(kind, source, factors.source).rows()
        for call, down, height in (("both", "Half", 4), ("columns", "Same", 7)):
            target = (66, height, 3, 2, 1, 1)
            plane = Plane.numbered(kind, target, factors.target).show(resized(shown, 66, height, SCALES["Half"], SCALES[down]))
            yield f"halve {kind} {call} {text(source)} {text(target)} = {plane.sum()}"


def threshold_lines(factors):
    for least in (30_000, 0, 65_535):
        shown = Plane.numbered("u16", ODD, factors.source).rows()
        plane = Plane.numbered("u8", ODD, factors.target).show(mapped(shown, lambda v: 0 if v < least else 255))
        yield f"threshold {least} {text(ODD)} = {plane.sum()}"


def frame_planes(factors, kind, size, form):
    """Returns luma, Cb and Cr of a frame of 16 by 6 pixels, without borders."""
    ratio = RATIOS[form]
    chroma = ratio and (16 // ratio[0], 6 // ratio[1], 0, 0, 0, 0)
    layouts = [(16, 6, 0, 0, 0, 0), chroma, chroma]
    return [layout and Plane.numbered(kind, layout, factor, size)
            for layout, factor in zip(layouts, (factors.source, factors.target, factors.third))]


def converted_chroma(plane, other, forms, depth, to):
    """Returns the table of a chroma plane of the target."""
    width, height = other.layout[:2]
    if plane is None:
        return [[2 ** (to - 1)] * width for _ in range(height)]
    across, down = (Fraction(*pair) for pair in zip(RATIOS[forms[0]], RATIOS[forms[1]]))
    return mapped(resized(plane.rows(), width, height, across, down), lambda v: in_depth(v, depth, to))


FRAMES = [("u8 8 256 Yuv444", "u16 10 1280 Yuv420"), ("u16 10 1280 Yuv420", "u8 8 256 Yuv444"), ("u8 8 256 Yuv420", "u8 8 256 Yuv411"),
          ("u16 12 5120 Yuv411", "u16 10 1280 Yuv420"), ("u8 8 256 Yuv422", "u16 16 0 Yuv422"),
          ("u8 8 256 Monochrome", "u16 10 1280 Yuv422"), ("u16 10 1280 Yuv422", "u8 8 256 Monochrome"),
          ("u8 8 256 Yuv444", "u8 8 256 Yuv422"), ("u8 8 256 Yuv422", "u16 12 5120 Yuv411")]


def frame_lines(factors):
    for pair in FRAMES:
        (kind, depth, size, form), (other, to, other_size, other_form) = (words.split() for words in pair)
        depth, to = int(depth), int(to)
        planes = frame_planes(factors, kind, int(size), form)
        targets = frame_planes(factors, other, int(other_size), other_form)
        targets[0].show(mapped(planes[0].rows(), lambda v: in_depth(v, depth, to)))
        for plane, target in zip(planes[1:], targets[1:]):
            if target is not None:
                target.show(converted_chroma(plane, target, (form, other_form), depth, to))
        sums = " ".join(str(target.sum() if target else 0) for target in targets)
        yield f"frame {kind} {other} {depth} {size} {form} {to} {other_size} {other_form} = {sums}"


PARTS = (depth_lines, range_lines, upscale_lines, resize_lines, halve_lines, threshold_lines, frame_lines)


def lines(factors):
    return [line for part in PARTS for line in part(factors)]
