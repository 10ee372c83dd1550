"""How far planes and frames are apart, as numbers."""

from __future__ import annotations

import ctypes
import math
from typing import TYPE_CHECKING, Any, NamedTuple, Union

from . import _library as library
from ._calls import compared, depth_of, sse
from ._errors import KindError, NumberError, SizesError, Whole, shown, within
from ._frames import Frame, plane_sizes
from ._pictures import shape
from ._planes import Held

if TYPE_CHECKING:
    from ._planes import AnyPlane

    Measured = Union[AnyPlane, Frame[Any]]


class Greatest(NamedTuple):
    """The greatest difference of the samples of two planes, and the column and the row of the first place that has it."""

    difference: int
    x: int
    y: int


def _are_frames(a: Any, b: Any) -> bool:
    """Whether both are frames, of one format."""
    if not isinstance(a, Frame) and not isinstance(b, Frame):
        return False
    if not isinstance(a, Frame) or not isinstance(b, Frame):
        raise KindError(f"a is of type {type(a).__name__} and b of type {type(b).__name__}, and both have to be planes or both frames")
    if (a.format, a.depth) != (b.format, b.depth):
        raise SizesError(f"a is a frame of {a.format} with {a.depth} bits and b of {b.format} with {b.depth}, and they have to be the same")
    return True


def _errors_of(a: Any, b: Any) -> tuple[int, int]:
    """The sum of the squared errors of two planes, or of all planes of two frames, and the number of their samples."""
    if not _are_frames(a, b):
        total = sse(a, b)
        width, height, _ = shape(a, "a")
        return total, width * height
    found = [_errors_of(p, q) for p, q in zip(a, b)]
    return sum(total for total, _ in found), sum(count for _, count in found)


def _depth_of_either(a: Any, depth: Whole | None) -> int:
    """The depth that is given for planes, or the depth of a frame."""
    if not isinstance(a, Frame):
        return depth_of(depth, shape(a, "a")[2])
    if depth is not None and depth != a.depth:
        raise NumberError(f"depth is {shown(depth)}, and the frames have {a.depth} bits")
    return a.depth


def mse(a: Measured, b: Measured) -> float:
    """The mean of the squares of the differences of two planes of one size, or of all samples of all planes of two frames, which are
    the weights of ffmpeg. The sum is exact, and its contract is proved. The division is one of floating-point numbers.

    >>> mse(Plane(bytes([1, 2]), 2, 1), Plane(bytes([1, 5]), 2, 1))
    4.5
    """
    total, count = _errors_of(a, b)
    return total / count


def psnr(a: Measured, b: Measured, depth: Whole | None = None) -> float:
    """The peak signal-to-noise ratio of two planes of one size, or of two frames, in decibels. It is infinite if they are equal.

    The depth in bits is 8 for samples of one byte, and has to be given for others, 8 to 16. Frames have their own depth. The sum of
    squares is exact, and its contract is proved. The division and the logarithm are those of floating-point numbers.

    >>> round(psnr(Plane(bytes([1, 2]), 2, 1), Plane(bytes([1, 5]), 2, 1)), 4)
    41.5987
    """
    peak = (1 << _depth_of_either(a, depth)) - 1
    total, count = _errors_of(a, b)
    # The mean is rounded first, as in ffmpeg.
    return 10 * math.log10(peak * peak / (total / count)) if total else math.inf


def ssim(a: Measured, b: Measured, depth: Whole | None = None) -> float:
    """The structural similarity of two planes of one size, with the digits of ffmpeg's filter in C: the mean over windows of 8 by 8
    samples at every fourth column and row. Of two frames it is the mean of their planes, weighted by their numbers of samples.

    The depth is as for `psnr`. If the width or the height of a plane is below 8, there is no window, and the error is `SizesError`.

    >>> ssim(Plane(bytes(64), 8, 8), Plane(bytes(64), 8, 8))
    1.0
    """
    if _are_frames(a, b):
        frame: Any = a
        other: Any = b
        depth = _depth_of_either(a, depth)
        counts = [plane_width * plane_height for plane_width, plane_height in plane_sizes(frame.width, frame.height, frame.format)]
        similarity = 0.0
        for p, q, count in zip(frame, other, counts):
            similarity += count / sum(counts) * ssim(p, q, depth)
        return similarity
    out = ctypes.c_double()
    with Held(a, "a") as held:
        size = held.size
        if min(held.rows.width, held.rows.height) < 8:
            raise SizesError(f"{held}, and has to be at least 8 by 8, the size of a window")
    bits = depth_of(depth, size)
    compared(library.SSIM, a, b, *([bits] if size == 2 else []), ctypes.byref(out))
    return out.value


def greatest_difference(a: AnyPlane, b: AnyPlane) -> Greatest:
    """The greatest difference of the samples of two planes of one size, and the first place, row after row from the top, that has it.

    >>> greatest_difference(Plane(bytes([1, 2, 3, 4]), 2, 2), Plane(bytes([1, 2, 9, 4]), 2, 2))
    Greatest(difference=6, x=0, y=1)
    """
    out = library.Greatest()
    compared(library.GREATEST_DIFFERENCE, a, b, ctypes.byref(out))
    return Greatest(out.difference, out.x, out.y)


def count_above(a: AnyPlane, b: AnyPlane, threshold: Whole) -> int:
    """The number of places at which the samples of two planes of one size differ by more than a threshold, which is 0 to 65535.

    >>> count_above(Plane(bytes([1, 2, 3]), 3, 1), Plane(bytes([1, 4, 9]), 3, 1), 2)
    1
    """
    out = ctypes.c_uint64()
    compared(library.COUNT_ABOVE, a, b, within(threshold, "threshold", 0, (1 << 16) - 1), ctypes.byref(out))
    return out.value
