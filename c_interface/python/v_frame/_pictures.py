"""The calls that make new planes of others, and the numbers that planes give."""

from __future__ import annotations

import ctypes
from collections.abc import Callable
from typing import TYPE_CHECKING, Any, Literal, NamedTuple, overload

from . import _library as library
from ._calls import compared, copy, new_plane
from ._errors import KindError, SizesError, Whole, chosen, sizes, within
from ._planes import Held, P, Plane, same_pictures, same_size

if TYPE_CHECKING:
    import numpy as np
    from numpy.typing import NDArray

    from ._planes import AnyPlane, Array

Turn = Literal["flip_vertical", "flip_horizontal", "rotate_180", "transpose", "rotate_90", "rotate_270"]
Standard = Literal["bt601", "bt709", "bt2020"]
Range = Literal["limited", "full"]
Order = Literal["rgb", "bgr", "rgba", "bgra"]

#: The ways to turn a plane, in the order of their numbers. Turns by 90 and 270 degrees are clockwise.
TURNS: tuple[Turn, ...] = ("flip_vertical", "flip_horizontal", "rotate_180", "transpose", "rotate_90", "rotate_270")
#: Standards of color, in the order of their numbers.
STANDARDS: tuple[Standard, ...] = ("bt601", "bt709", "bt2020")
#: Ranges of luma and chroma, in the order of their numbers.
RANGES: tuple[Range, ...] = ("limited", "full")
#: Orders of the bytes of a color, in the order of their numbers.
ORDERS: tuple[Order, ...] = ("rgb", "bgr", "rgba", "bgra")


class Statistics(NamedTuple):
    """The number of the samples of a plane, their sum and the sum of their squares, both exact, and the least and the greatest
    sample."""

    count: int  # type: ignore[assignment]
    sum: int
    sum_of_squares: int
    minimum: int
    maximum: int


class PairStatistics(NamedTuple):
    """The exact sums over two planes of which SSIM and correlations are computed: of the samples of each, of their squares, and of the
    products of the samples at the same place."""

    first: int
    second: int
    first_squares: int
    second_squares: int
    products: int


def made(export: Callable[..., int], target: P, source: AnyPlane, *more: Any) -> P:
    """The target, which nothing else uses yet, written by an export from the source."""
    with Held(target, "target", writes=True) as written, Held(source, "source") as read:
        library.answered(export(*written.told(), *read.told(), *more))
    return target


def shape(plane: AnyPlane, name: str = "source") -> tuple[int, int, int]:
    """The width and the height of a plane, and the size of its samples."""
    with Held(plane, name) as held:
        return held.rows.width, held.rows.height, held.size


def turn(source: P, how: Turn) -> P:
    """A new plane that shows another one mirrored, transposed or rotated: `how` is one of `TURNS`. The rotations by 90 and 270 degrees
    are clockwise.

    >>> list(turn(Plane(bytes([1, 2, 3, 4]), 2, 2), "rotate_90").buffer)
    [3, 1, 4, 2]
    """
    number = chosen(how, TURNS, "how")
    width, height, size = shape(source)
    if number >= TURNS.index("transpose"):
        width, height = height, width
    return made(library.TURN[size], new_plane(source, width, height, size), source, number)


@overload
def convert_depth(source: Plane, depth: Whole, to: Whole) -> Plane: ...
@overload
def convert_depth(source: Array, depth: Whole, to: Whole) -> Array: ...
def convert_depth(source: AnyPlane, depth: Whole, to: Whole) -> AnyPlane:
    """A new plane with the samples of another one, of `depth` bits, converted to `to` bits. Both are 8 to 16. The new plane has one
    byte for each sample if `to` is 8, and otherwise two.

    To more bits a value is shifted. To fewer bits it is rounded to the nearest value, and upwards at a half, but not above the
    largest value of `to` bits. A value above the largest of `depth` bits counts as the largest.

    >>> memoryview(convert_depth(Plane(bytes([1, 255]), 2, 1), 8, 10).buffer).cast("H").tolist()
    [4, 1020]
    """
    width, height, size = shape(source)
    old, new = within(depth, "depth", 8, 8 * size), within(to, "to", 8, 16)
    target = new_plane(source, width, height, 1 if new == 8 else 2)
    if (size, new) == (1, 8):
        copy(source, target)
        return target
    return made(library.CONVERT_DEPTH[size, 1 if new == 8 else 2], target, source, old, new)


def upscale(source: P, width: Whole, height: Whole, ratio_x: Whole = 2, ratio_y: Whole = 2) -> P:
    """A new plane of a width and a height that repeats each sample of the source `ratio_x` times across and `ratio_y` times down, which
    brings chroma to the size of luma. The width of the source is `width / ratio_x`, rounded up, and its height is
    `height / ratio_y`, rounded up.

    >>> list(upscale(Plane(bytes([1, 2]), 2, 1), 3, 1, 2, 1).buffer)
    [1, 1, 2]
    """
    across, down, columns, rows = sizes(SizesError, 1, width=width, height=height, ratio_x=ratio_x, ratio_y=ratio_y)
    found = shape(source)
    wanted, size = (-(-across // columns), -(-down // rows)), found[2]
    if found[:2] != wanted:
        raise SizesError(f"source is {found[0]} by {found[1]}, and has to be {wanted[0]} by {wanted[1]} for {across} by {down} at the ratios "
                         f"{columns} and {rows}")
    return made(library.UPSCALE[size], new_plane(source, across, down, size), source, columns, rows)


def interleave(u: P, v: P) -> P:
    """A new plane with the samples of two planes of one size interleaved, as NV12 and P010 store chroma.

    >>> list(interleave(Plane(bytes([1, 2]), 2, 1), Plane(bytes([3, 4]), 2, 1)).buffer)
    [1, 3, 2, 4]
    """
    width, height, size = shape(u, "u")
    with Held(u, "u") as first, Held(v, "v") as second:
        same_size(first, second)
        same_pictures(first, second)
    target = new_plane(u, 2 * width, height, size)
    with Held(target, "target", writes=True) as written, Held(u, "u") as first, Held(v, "v") as second:
        library.answered(library.INTERLEAVE[size](*written.told(), *first.told(), *second.told()))
    return target


def deinterleave(plane: P) -> tuple[P, P]:
    """Two new planes with the samples of a plane of interleaved samples, whose width is even: the inverse of `interleave`.

    >>> [list(plane.buffer) for plane in deinterleave(Plane(bytes([1, 3, 2, 4]), 4, 1))]
    [[1, 2], [3, 4]]
    """
    width, height, size = shape(plane, "plane")
    if width % 2:
        raise SizesError(f"plane is {width} by {height}, and has to have an even width")
    u, v = new_plane(plane, width // 2, height, size), new_plane(plane, width // 2, height, size)
    with Held(plane, "plane") as read, Held(u, "u", writes=True) as first, Held(v, "v", writes=True) as second:
        library.answered(library.DEINTERLEAVE[size](*read.told(), *first.told(), *second.told()))
    return u, v


def choice_of(standard: str, range: str, order: str) -> library.Colors:
    """The numbers of a kind of colors."""
    return library.Colors(chosen(standard, STANDARDS, "standard"), chosen(range, RANGES, "range"), chosen(order, ORDERS, "order"))


@overload
def rgb(y: Plane, u: Plane, v: Plane, standard: Standard = "bt709", range: Range = "limited", order: Order = "rgb") -> Plane: ...
@overload
def rgb(y: Array, u: Array, v: Array, standard: Standard = "bt709", range: Range = "limited", order: Order = "rgb") -> NDArray[np.uint8]: ...
def rgb(y: Any, u: Any, v: Any, standard: Standard = "bt709", range: Range = "limited", order: Order = "rgb") -> Any:
    """The colors of three planes of one size, of samples of one byte, with three or four bytes for each pixel. Of arrays it makes an
    array of the shape (height, width, 3) or (height, width, 4), and of others a `Plane` with as many channels. The standard, the range
    and the order are of `STANDARDS`, `RANGES` and `ORDERS`.

    >>> gray = Plane(bytes([128]), 1, 1)
    >>> list(rgb(gray, gray, gray, range="full", order="bgra").buffer)
    [128, 128, 128, 255]
    """
    choice = choice_of(standard, range, order)
    width, height, size = shape(y, "y")
    with Held(y, "y") as luma, Held(u, "u") as first, Held(v, "v") as second:
        for plane in (luma, first, second):
            if plane.size != 1:
                raise KindError(f"{plane.name} has samples of 2 bytes, and has to have samples of 1: convert_depth makes them")
        same_pictures(luma, first, second)
    target = new_plane(y, len(order) * width, height, size)
    with Held(target, "target", writes=True) as written, Held(y, "y") as luma, Held(u, "u") as first, Held(v, "v") as second:
        library.answered(library.TO_RGB(*written.told(), *luma.told(), *first.told(), *second.told(), ctypes.byref(choice)))
    if isinstance(target, Plane):
        target.channels = len(order)
        return target
    return target.reshape(height, width, len(order))


def _number(part: library.Sum) -> int:
    return int(part.high) << 64 | int(part.low)


def statistics(plane: AnyPlane) -> Statistics:
    """The number of samples of a plane, their sum, the sum of their squares, and the least and the greatest sample.

    >>> statistics(Plane(bytes([1, 2, 4]), 3, 1))
    Statistics(count=3, sum=7, sum_of_squares=21, minimum=1, maximum=4)
    """
    out = library.Statistics()
    with Held(plane, "plane") as read:
        library.answered(library.STATISTICS[read.size](*read.told(), ctypes.byref(out)))
    return Statistics(out.count, _number(out.sum), _number(out.sum_of_squares), out.minimum, out.maximum)


def pair_statistics(a: AnyPlane, b: AnyPlane) -> PairStatistics:
    """The sums of the samples of two planes of one size, of their squares, and of the products of the samples at the same place.

    >>> pair_statistics(Plane(bytes([1, 2]), 2, 1), Plane(bytes([3, 5]), 2, 1))
    PairStatistics(first=3, second=8, first_squares=5, second_squares=34, products=13)
    """
    out = library.PairStatistics()
    compared(library.PAIR_STATISTICS, a, b, ctypes.byref(out))
    return PairStatistics(*(_number(getattr(out, name)) for name in PairStatistics._fields))
