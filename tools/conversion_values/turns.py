"""Planes, rows and frames that are rotated or flipped, by whole buffers."""

from .pictures import Plane, numbers, text

SOURCE = (5, 3, 1, 2, 1, 0)
TURNS = {
    "FlipVertical": lambda rows: rows[::-1],
    "FlipHorizontal": lambda rows: [row[::-1] for row in rows],
    "Rotate180": lambda rows: [row[::-1] for row in rows[::-1]],
    "Transpose": lambda rows: [list(column) for column in zip(*rows)],
    "Rotate90": lambda rows: [list(column) for column in zip(*rows[::-1])],
    "Rotate270": lambda rows: [list(column) for column in zip(*rows)][::-1],
}
IN_PLACE = ("FlipVertical", "FlipHorizontal", "Rotate180")


def size_of(rows):
    return len(rows[0]), len(rows)


def plane_lines():
    shown = Plane.counted(SOURCE, 0).rows()
    for turn, change in TURNS.items():
        rows = change(shown)
        layout = (*size_of(rows), 2, 1, 1, 1)
        yield f"plane {turn} {text(SOURCE)} {text(layout)} = {numbers(Plane.counted(layout, 100).show(rows).entries)}"
    for turn in IN_PLACE:
        yield f"in_place {turn} {text(SOURCE)} = {numbers(Plane.counted(SOURCE, 0).show(TURNS[turn](shown)).entries)}"


def row_lines():
    """Yields results for three by two pixels with a stride of 4, numbered from 1. The target is numbered from 200."""
    shown = [[1, 2, 3], [5, 6, 7]]
    for turn, change in TURNS.items():
        rows = change(shown)
        (width, height), stride, count = size_of(rows), 5 if turn in IN_PLACE else 3, 9 if turn in IN_PLACE else 8
        buffer = [200 + i for i in range(count)]
        for y, row in enumerate(rows):
            buffer[stride * y:stride * y + width] = row
        yield f"rows {turn} {width} {height} {stride} = {numbers(buffer)}"
    for turn in IN_PLACE:
        buffer = list(range(1, 8))
        for y, row in enumerate(TURNS[turn](shown)):
            buffer[4 * y:4 * y + 3] = row
        yield f"rows_in_place {turn} 3 2 4 = {numbers(buffer)}"


def frame_lines():
    """Yields results for a frame of 4:2:0 of four by two pixels. Luma is numbered from 0, and chroma from 100 and 200."""
    planes = [[[0, 1, 2, 3], [4, 5, 6, 7]], [[100, 101]], [[200, 201]]]
    for turn, change in TURNS.items():
        turned = [change(rows) for rows in planes]
        width, height = size_of(turned[0])
        yield f"frame {turn} {width} {height} = {numbers(value for rows in turned for row in rows for value in row)}"


def large_lines(factors):
    """Yields sums for numbered planes with more rows and columns than the code handles at once."""
    for kind in ("u8", "u16"):
        for width, height in ((131, 70), (64, 129)):
            shown = Plane.numbered(kind, (width, height, 1, 0, 2, 3), factors.source).rows()
            for turn, change in TURNS.items():
                rows = change(shown)
                layout = (*size_of(rows), 3, 2, 1, 1)
                plane = Plane.numbered(kind, layout, factors.target).show(rows)
                yield f"large {kind} {turn} {width}x{height}+1+0+2+3 {text(layout)} = {plane.sum()}"


def lines(factors):
    return [*plane_lines(), *row_lines(), *frame_lines(), *large_lines(factors)]
