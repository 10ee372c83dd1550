"""The calls, over planes of one sample size."""

from __future__ import annotations

import ctypes
from collections.abc import Callable, Mapping
from typing import TYPE_CHECKING, Any, Literal, NamedTuple, cast

from . import _library as library
from ._errors import LIMIT, KindError, SizesError, Whole, chosen, sizes, within
from ._planes import Held, P, Plane, numpy, same_pictures, same_size

if TYPE_CHECKING:
    from ._planes import AnyPlane

#: A chroma format.
Format = Literal["mono", "420", "422", "444", "411"]


def new_plane(like: P, width: int, height: int, size: int) -> P:
    """A plane of the kind of another one: an array, or a Plane over bytes of its own."""
    try:
        if isinstance(like, Plane):
            return cast(P, Plane(bytearray(width * height * size), width, height, sample_size=size))
        return cast(P, numpy.empty((height, width), dtype="uint8" if size == 1 else "uint16"))
    except (MemoryError, OverflowError, ValueError) as error:
        raise SizesError(f"there is no memory for a plane of {width} by {height}") from error


def depth_of(depth: Whole | None, size: int, name: str = "depth") -> int:
    """A bit depth that samples of this size have: 8 for one byte where none is given, 8 to 16 for two."""
    if depth is None and size == 2:
        raise KindError(f"{name} has to be given for samples of two bytes, 8 to 16")
    return 8 if depth is None else within(depth, name, 8, 8 * size)


def compared(exports: Mapping[int, Callable[..., int]], a: Any, b: Any, *more: Any) -> None:
    """Calls an export of two planes of one size, with more arguments."""
    with Held(a, "a") as first, Held(b, "b") as second:
        call = exports[same_size(first, second)]
        same_pictures(first, second)
        library.answered(call(*first.told(), *second.told(), *more))


def changed(exports: Mapping[int, Callable[..., int]], target: Any, source: Any, *more: Any, any_size: bool = False) -> None:
    """Calls an export that writes a target from a source of its size, with more arguments."""
    with Held(target, "target", writes=True) as written, Held(source, "source") as read:
        call = exports[same_size(written, read)]
        if not any_size:
            same_pictures(written, read)
        library.answered(call(*written.told(), *read.told_beside(written), *more))


def sse(a: AnyPlane, b: AnyPlane) -> int:
    """The sum of the squares of the differences of two planes of one size, exactly.

    >>> sse(Plane(bytes([1, 2]), 2, 1), Plane(bytes([1, 5]), 2, 1))
    9
    """
    out = library.Sum()
    compared(library.SQUARED_ERRORS, a, b, ctypes.byref(out))
    return int(out.high) << 64 | int(out.low)


def sad(a: AnyPlane, b: AnyPlane) -> int:
    """The sum of the absolute differences of two planes of one size, exactly.

    >>> sad(Plane(bytes([1, 2]), 2, 1), Plane(bytes([1, 5]), 2, 1))
    3
    """
    out = library.Sum()
    compared(library.ABSOLUTE_DIFFERENCES, a, b, ctypes.byref(out))
    return int(out.high) << 64 | int(out.low)


def first_difference(a: AnyPlane, b: AnyPlane) -> tuple[int, int] | None:
    """The column and the row of the first sample, row after row from the top, that differs in two planes of one size; None if the
    planes are equal.

    >>> first_difference(Plane(bytes([1, 2, 3, 4]), 2, 2), Plane(bytes([1, 2, 9, 4]), 2, 2))
    (0, 1)
    """
    out = library.Place()
    compared(library.FIRST_DIFFERENCE, a, b, ctypes.byref(out))
    return (int(out.x), int(out.y)) if out.found else None


def copy(source: AnyPlane, target: AnyPlane) -> None:
    """Copies the samples of a plane to another plane of its size.

    >>> target = Plane(bytearray(5), 2, 2, stride=3)
    >>> copy(Plane(bytes([1, 2, 3, 4]), 2, 2), target)
    >>> list(target.buffer)
    [1, 2, 0, 3, 4]
    """
    changed(library.COPY, target, source)


def copy_clipped(source: AnyPlane, target: AnyPlane, x: Whole, y: Whole) -> None:
    """Copies a plane to another plane of any size, with its first sample at column `x` of row `y`. Both may be negative or past the
    edge. What is outside of the target is left out.

    >>> target = Plane(bytearray(6), 3, 2)
    >>> copy_clipped(Plane(bytes([1, 2, 3, 4]), 2, 2), target, -1, 1)
    >>> list(target.buffer)
    [0, 0, 0, 2, 0, 0]
    """
    places = [within(it, name, -LIMIT // 2, LIMIT // 2 - 1) for it, name in ((x, "x"), (y, "y"))]
    changed(library.COPY_CLIPPED, target, source, *places, any_size=True)


def fill(target: AnyPlane, sample: Whole) -> None:
    """Sets each sample of a plane to one value.

    >>> target = Plane(bytearray(3), 3, 1)
    >>> fill(target, 7)
    >>> list(target.buffer)
    [7, 7, 7]
    """
    with Held(target, "target", writes=True) as written:
        number = within(sample, "sample", 0, 256 ** written.size - 1)
        library.answered(library.FILL[written.size](*written.told(), number))


def half(source: P) -> P:
    """A new plane of half the size: each sample is the mean of a block of two by two, rounded to the nearest value, and upwards at a
    half. The width and the height of the source are even; `downscale_to_edge` takes any.

    >>> list(half(Plane(bytes([1, 2, 3, 4]), 2, 2)).buffer)
    [3]
    """
    with Held(source, "source") as read:
        (width, odd_column), (height, odd_row) = divmod(read.rows.width, 2), divmod(read.rows.height, 2)
        size = read.size
        if odd_column or odd_row:
            raise SizesError(f"{read}, and has to have an even width and height: downscale_to_edge takes any")
    target = new_plane(source, width, height, size)
    changed(library.DOWNSCALE, target, source, any_size=True)
    return target


def pad(plane: P, left: Whole, right: Whole, top: Whole, bottom: Whole) -> P:
    """A new plane with a border of the given numbers of samples. Each sample of the border is the sample of the plane nearest to
    it.

    >>> list(pad(Plane(bytes([1, 2]), 2, 1), left=2, right=1, top=0, bottom=0).buffer)
    [1, 1, 1, 2, 2]
    """
    at_left, at_right, above, below = sizes(SizesError, left=left, right=right, top=top, bottom=bottom)
    with Held(plane, "plane") as read:
        width, height, size = read.rows.width, read.rows.height, read.size
    across, down = at_left + width + at_right, above + height + below
    target = new_plane(plane, across, down, size)
    inside: Any
    if isinstance(target, Plane):
        inside = Plane(memoryview(target.buffer)[(across * above + at_left) * size:], width, height, across, size)
    else:
        inside = cast(Any, target)[above:above + height, at_left:at_left + width]
    copy(plane, inside)
    layout = library.Bordered(width, height, at_left, at_right, above, below)
    with Held(target, "target", writes=True) as written:
        library.answered(library.PAD[size](ctypes.byref(layout), written.address, written.length))
    return target


#: The names of chroma formats, in the order of their numbers.
FORMATS: tuple[Format, ...] = ("mono", "420", "422", "444", "411")


class Part(NamedTuple):
    """A plane in the buffer of a frame: the index at which it begins, the number of its samples with its border, the index of its
    first visible sample, its width, its height and its stride. All are in samples."""

    offset: int
    count: int  # type: ignore[assignment]
    origin: int
    width: int
    height: int
    stride: int


def lay_out(width: Whole, height: Whole, format: Format = "420", padding: Whole = 0) -> list[Part]:
    """Where the planes of a frame are in one buffer, one after the other without gaps: luma, and chroma if the format has some.

    Chroma has as many columns and rows as cover luma. Its padding is the given padding divided by the ratio of the format, rounded
    up; the padding of luma is the padding of chroma times the ratio.

    >>> [(part.offset, part.width, part.height) for part in lay_out(5, 3, "420")]
    [(0, 5, 3), (15, 3, 2), (21, 3, 2)]
    """
    number, found = chosen(format, FORMATS, "format"), library.Parts()
    request = library.Request(*sizes(width=width, height=height, padding=padding), number)
    library.answered(library.LAY_OUT(ctypes.byref(request), ctypes.byref(found)))
    parts = []
    for part in found.planes:
        layout, stride = part.layout, part.layout.pad_left + part.layout.width + part.layout.pad_right
        origin = part.offset + layout.pad_top * stride + layout.pad_left
        parts.append(Part(part.offset, part.count, origin, layout.width, layout.height, stride))
    return [part for part in parts if part.count]
