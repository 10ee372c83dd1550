"""The calls that resize, blend, change the range of values, make planes of colors, and count."""

from __future__ import annotations

import ctypes
from collections.abc import Callable, Mapping
from typing import TYPE_CHECKING, Any, Literal, overload

from . import _library as library
from ._calls import changed, depth_of, new_plane
from ._errors import KindError, SizesError, Whole, chosen, sizes, whole, within
from ._pictures import Order, Range, Standard, choice_of, made, shape
from ._planes import Held, P, Plane, is_array, numpy, plain, same_pictures, same_size

if TYPE_CHECKING:
    import numpy as np
    from numpy.typing import NDArray

    from ._planes import AnyPlane, Array, Colors

Component = Literal["luma", "chroma"]

#: What a plane holds, in the order of the numbers.
COMPONENTS: tuple[Component, ...] = ("luma", "chroma")


def downscale_to_edge(source: P) -> P:
    """A new plane of half the size, rounded up: each sample is the mean of a block of two by two, rounded to the nearest value, and
    upwards at a half. Past an edge the last column and the last row are repeated.

    >>> list(downscale_to_edge(Plane(bytes([1, 3, 5]), 3, 1)).buffer)
    [2, 5]
    """
    width, height, size = shape(source)
    return made(library.DOWNSCALE_TO_EDGE[size], new_plane(source, -(-width // 2), -(-height // 2), size), source)


def halve_columns(source: P) -> P:
    """A new plane with half as many columns, rounded up: each sample is the mean of two samples of a row, rounded upwards at a half.
    If the width is odd, the last sample of a row is unchanged.

    >>> list(halve_columns(Plane(bytes([1, 2, 5]), 3, 1)).buffer)
    [2, 5]
    """
    width, height, size = shape(source)
    return made(library.HALVE_COLUMNS[size], new_plane(source, -(-width // 2), height, size), source)


def _resized(exports: Mapping[int, Callable[..., int]], source: P, width: Whole, height: Whole) -> P:
    columns, rows = sizes(SizesError, 1, width=width, height=height)
    size = shape(source)[2]
    return made(exports[size], new_plane(source, columns, rows, size), source)


def resize_area(source: P, width: Whole, height: Whole) -> P:
    """A new plane of a width and a height, by a box filter: each sample is the exact mean of the area that it covers, rounded to the
    nearest value, and upwards at a half.

    >>> list(resize_area(Plane(bytes([0, 90, 180]), 3, 1), 2, 1).buffer)
    [30, 150]
    """
    return _resized(library.RESIZE_AREA, source, width, height)


def resize_nearest(source: P, width: Whole, height: Whole) -> P:
    """A new plane of a width and a height, by the nearest neighbor: each sample is the sample of the source that contains its center.
    If the center is between two samples, it is the one to the right or below.

    >>> list(resize_nearest(Plane(bytes([0, 90, 180]), 3, 1), 2, 1).buffer)
    [0, 180]
    """
    return _resized(library.RESIZE_NEAREST, source, width, height)


def _ranged(exports: Mapping[int, Callable[..., int]], source: P, component: str, depth: Whole | None) -> P:
    number = chosen(component, COMPONENTS, "component")
    width, height, size = shape(source)
    bits = depth_of(depth, size)
    return made(exports[size], new_plane(source, width, height, size), source, number, bits)


def to_full_range(source: P, component: Component = "luma", depth: Whole | None = None) -> P:
    """A new plane with the values of the limited range, which are 16 to 235 for luma of 8 bits, converted to the full range. A value is
    rounded to the nearest one, and upwards at a half. A value outside of the limited range becomes the least or the greatest. The
    component is one of `COMPONENTS`. The depth is 8 for samples of one byte, and has to be given for others, 8 to 16.

    >>> list(to_full_range(Plane(bytes([16, 126, 235]), 3, 1)).buffer)
    [0, 128, 255]
    """
    return _ranged(library.TO_FULL_RANGE, source, component, depth)


def to_limited_range(source: P, component: Component = "luma", depth: Whole | None = None) -> P:
    """A new plane with the values of the full range converted to the limited range: the inverse of `to_full_range`, apart from
    rounding.

    >>> list(to_limited_range(Plane(bytes([0, 128, 255]), 3, 1), "chroma").buffer)
    [16, 128, 240]
    """
    return _ranged(library.TO_LIMITED_RANGE, source, component, depth)


@overload
def yuv(colors: Plane, standard: Standard = "bt709", range: Range = "limited", order: Order = "rgb") -> tuple[Plane, Plane, Plane]: ...
@overload
def yuv(colors: NDArray[np.uint8], standard: Standard = "bt709", range: Range = "limited", order: Order = "rgb") -> tuple[
        NDArray[np.uint8], NDArray[np.uint8], NDArray[np.uint8]]: ...
def yuv(colors: Any, standard: Standard = "bt709", range: Range = "limited", order: Order = "rgb") -> tuple[Any, Any, Any]:
    """Luma and the two components of chroma of colors, as three new planes: the inverse of `rgb`, apart from rounding. Colors are an
    array of three dimensions, or a `Plane` with three or four bytes for each pixel. A fourth byte is not read.

    >>> [list(plane.buffer) for plane in yuv(Plane(bytes([255, 0, 0]), 3, 1))]
    [[63], [102], [240]]
    """
    choice = choice_of(standard, range, order)
    channels = len(order)
    if is_array(colors):
        colors = plain(colors, "colors")
        if colors.ndim == 3:
            if colors.shape[2] != channels:
                raise SizesError(f"colors has {colors.shape[2]} samples for each pixel, and the order {order!r} {channels}")
            colors = numpy.ascontiguousarray(colors).reshape(colors.shape[0], colors.shape[1] * colors.shape[2])
    elif isinstance(colors, Plane) and colors.channels not in (1, channels):
        raise SizesError(f"colors has {colors.channels} samples for each pixel, and the order {order!r} {channels}")
    width, height, size = shape(colors, "colors")
    if size != 1:
        raise KindError("colors has samples of 2 bytes, and has to have samples of 1")
    if width % channels:
        raise SizesError(f"colors has rows of {width} samples, which are no whole number of pixels of {channels}")
    y, u, v = (new_plane(colors, width // channels, height, 1) for _ in "yuv")
    with Held(colors, "colors") as read, Held(y, "y", True) as luma, Held(u, "u", True) as first, Held(v, "v", True) as second:
        library.answered(library.TO_YUV(*read.told(), *luma.told(), *first.told(), *second.told(), ctypes.byref(choice)))
    return y, u, v


def blend(source: AnyPlane, target: AnyPlane, weight: Whole) -> None:
    """Blends a plane over a target of its size, in place: a sample p of the target becomes
    (p * (256 - weight) + q * weight + 128) // 256, where q is the sample of the source. The weight is 0 to 256.

    >>> target = Plane(bytearray([0, 100]), 2, 1)
    >>> blend(Plane(bytes([100, 0]), 2, 1), target, 64)
    >>> list(target.buffer)
    [25, 75]
    """
    changed(library.BLEND, target, source, within(weight, "weight", 0, 256))


def blend_with_mask(source: AnyPlane, mask: Colors, target: AnyPlane) -> None:
    """Blends a plane over a target of its size, in place, by a mask of the same size, whose samples have one byte: a sample p of the
    target becomes (p * (255 - weight) + q * weight + 127) // 255, where q is the sample of the source and weight the sample of the
    mask.

    >>> target = Plane(bytearray([0, 100]), 2, 1)
    >>> blend_with_mask(Plane(bytes([100, 0]), 2, 1), Plane(bytes([255, 0]), 2, 1), target)
    >>> list(target.buffer)
    [100, 100]
    """
    with Held(target, "target", writes=True) as written, Held(source, "source") as over, Held(mask, "mask") as weights:
        same_size(over, written)
        if weights.size != 1:
            raise KindError("mask has samples of 2 bytes, and has to have samples of 1")
        same_pictures(written, over, weights)
        library.answered(library.BLEND_WITH_MASK[written.size](*written.told(), *over.told_beside(written),
                                                               *weights.told_beside(written)))


def difference(source: AnyPlane, target: AnyPlane, gain: Whole = 1, depth: Whole | None = None) -> None:
    """Replaces each sample of the target by its absolute difference from the sample of the source, times the gain, but not above the
    largest value of the bit depth. The depth is 8 for samples of one byte, and has to be given for others, 8 to 16.

    >>> target = Plane(bytearray([10, 100]), 2, 1)
    >>> difference(Plane(bytes([12, 0]), 2, 1), target, gain=3)
    >>> list(target.buffer)
    [6, 255]
    """
    factor = within(gain, "gain", 0, (1 << 16) - 1)
    changed(library.DIFFERENCE, target, source, factor, depth_of(depth, shape(target, "target")[2]))


def count_between(plane: AnyPlane, least: Whole, greatest: Whole) -> int:
    """The number of samples with a value from `least` to `greatest`.

    >>> count_between(Plane(bytes([1, 2, 4]), 3, 1), 2, 4)
    2
    """
    out = ctypes.c_uint64()
    with Held(plane, "plane") as read:
        first, last = max(whole(least, "least"), 0), min(whole(greatest, "greatest"), 256 ** read.size - 1)
        if first > last:
            return 0
        library.answered(library.COUNT_BETWEEN[read.size](*read.told(), first, last, ctypes.byref(out)))
    return out.value


@overload
def histogram(plane: Plane, depth: Whole | None = None) -> list[int]: ...
@overload
def histogram(plane: Array, depth: Whole | None = None) -> NDArray[np.uint64]: ...
def histogram(plane: AnyPlane, depth: Whole | None = None) -> Any:
    """The number of samples with each value of a bit depth: entry v counts the samples of the value v. It is a list, or an array if the
    plane is an array. The default depth is that of the samples, 8 or 16. A sample above the largest value is in no entry.

    >>> histogram(Plane(bytes([1, 2, 1]), 3, 1), 2)
    [0, 2, 1, 0]
    """
    with Held(plane, "plane") as read:
        bits = 8 * read.size if depth is None else within(depth, "depth", 0, 8 * read.size)
        # The library requires an entry for each value of samples of one byte.
        counts = (ctypes.c_uint64 * (1 << max(bits, 8)))()
        library.answered(library.HISTOGRAM[read.size](*read.told(), counts, len(counts)))
    found = counts[:1 << bits]
    return found if isinstance(plane, Plane) else numpy.array(found, dtype="uint64")
