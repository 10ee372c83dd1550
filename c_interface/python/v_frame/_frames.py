"""Frames: the planes Y, U and V of one picture, with their format and bit depth."""

from __future__ import annotations

from collections.abc import Callable, Iterable, Sequence
from contextlib import ExitStack
from typing import TYPE_CHECKING, Any, cast, overload

from . import _library as library
from ._calls import FORMATS, Format, fill, new_plane, pad
from ._conversions import resize_area, yuv
from ._errors import KindError, SizesError, Whole, chosen, within
from ._pictures import RANGES, Order, Range, Standard, convert_depth, rgb, shape, upscale
from ._planes import Held, P, Plane

if TYPE_CHECKING:
    import numpy as np
    from numpy.typing import NDArray

    from ._planes import Colors

#: The numbers of columns and rows of luma for one column and one row of chroma.
RATIOS: dict[Format, tuple[int, int] | None] = {"mono": None, "420": (2, 2), "422": (2, 1), "444": (1, 1), "411": (4, 1)}
#: The formats whose chroma can be interleaved.
SEMI_PLANAR: tuple[Format, ...] = ("420", "422", "444")


def plane_sizes(width: int, height: int, format: str) -> list[tuple[int, int]]:
    """The width and the height of each plane of a frame: chroma has as many columns and rows as cover luma."""
    ratio = RATIOS[FORMATS[chosen(format, FORMATS, "format")]]
    chroma = [] if ratio is None else [(-(-width // ratio[0]), -(-height // ratio[1]))] * 2
    return [(width, height), *chroma]


class Frame(Sequence[P]):
    """The planes of a frame, which it holds and does not copy: luma, and two planes of chroma if the format has some.

    It is a sequence of its planes. The sizes of chroma follow from the format. A sample has one byte at a depth of 8 bits, and
    otherwise two. The range is "limited", "full", or None if it is not known; `y4m.read_y4m` sets it, and `to_rgb` uses it.

    >>> frame = Frame([Plane(bytes(6), 3, 2), Plane(bytes(2), 2, 1), Plane(bytes(2), 2, 1)], "420")
    >>> frame.width, frame.height, frame.depth, len(frame), frame.v.width
    (3, 2, 8, 3, 2)
    """

    format: Format
    depth: int
    range: Range | None
    planes: tuple[P, ...]
    width: int
    height: int

    def __init__(self, planes: Iterable[P], format: Format = "420", depth: Whole = 8, range: Range | None = None) -> None:
        self.format, self.depth = FORMATS[chosen(format, FORMATS, "format")], within(depth, "depth", 8, 16)
        self.range = None if range is None else RANGES[chosen(range, RANGES, "range")]
        try:
            self.planes = tuple(planes)
        except TypeError:
            raise KindError(f"planes is of type {type(planes).__name__}, and has to be the planes of a frame") from None
        if not self.planes:
            raise SizesError("planes has no plane, and a frame has 1 or 3")
        found, size = [], 1 if self.depth == 8 else 2
        for number, plane in enumerate(self.planes):
            with Held(plane, f"planes[{number}]") as held:
                found.append((held.rows.width, held.rows.height))
                if held.size != size:
                    raise KindError(f"planes[{number}] has samples of {held.size} bytes, and samples of {self.depth} bits have {size}")
        wanted = plane_sizes(*found[0], self.format)
        if len(found) != len(wanted):
            raise SizesError(f"planes has {len(found)} planes, and the format {self.format!r} has {len(wanted)}")
        for number, (it, other) in enumerate(zip(found, wanted)):
            if it != other:
                raise SizesError(f"planes[{number}] is {it[0]} by {it[1]}, and has to be {other[0]} by {other[1]} in the format {self.format!r}")
        self.width, self.height = found[0]

    def __len__(self) -> int:
        return len(self.planes)

    @overload
    def __getitem__(self, number: int) -> P: ...
    @overload
    def __getitem__(self, number: slice) -> tuple[P, ...]: ...
    def __getitem__(self, number: Any) -> Any:
        return self.planes[number]

    def __repr__(self) -> str:
        known = "" if self.range is None else f", range={self.range!r}"
        return f"Frame(width={self.width}, height={self.height}, format={self.format!r}, depth={self.depth}{known})"

    @property
    def y(self) -> P:
        """The plane of luma."""
        return self.planes[0]

    @property
    def u(self) -> P | None:
        """The first plane of chroma, and None if the frame has no chroma."""
        return self.planes[1] if len(self.planes) == 3 else None

    @property
    def v(self) -> P | None:
        """The second plane of chroma, and None if the frame has no chroma."""
        return self.planes[2] if len(self.planes) == 3 else None

    def convert(self, format: Format | None = None, depth: Whole | None = None) -> Frame[P]:
        """A new frame in another chroma format, bit depth, or both, as `yuv copy --format` makes it. The range is unchanged.

        If the new format has fewer samples of chroma, each is the mean of its block, rounded to the nearest value, and upwards at a
        half; past an edge the last column and row are repeated. If it has more, they are repeated. Depths are converted as by
        `convert_depth`. If the frame has no chroma, its new chroma is the middle of the depth, which is no color.

        >>> planes = [Plane(bytes(4), 2, 2), Plane(bytes([1, 2, 3, 4]), 2, 2), Plane(bytes(4), 2, 2)]
        >>> Frame(planes, "444").convert("420").u.tobytes()
        b'\\x03'
        """
        wanted = self.format if format is None else FORMATS[chosen(format, FORMATS, "format")]
        bits = self.depth if depth is None else within(depth, "depth", 8, 16)
        luma: Any = self.y
        planes = [convert_depth(luma, self.depth, bits)]
        for number, size in enumerate(plane_sizes(self.width, self.height, wanted)[1:], 1):
            if len(self) == 1:
                planes.append(new_plane(luma, *size, 1 if bits == 8 else 2))
                fill(planes[-1], 1 << bits - 1)
            else:
                plane: Any = _at_ratio(self[number], RATIOS[self.format], RATIOS[wanted], size)
                planes.append(convert_depth(plane, self.depth, bits))
        return Frame(planes, wanted, bits, self.range)

    @overload
    def to_rgb(self: Frame[Plane], standard: Standard = "bt709", range: Range | None = None, order: Order = "rgb") -> Plane: ...
    @overload
    def to_rgb(self: Frame[NDArray[np.uint8]] | Frame[NDArray[np.uint16]], standard: Standard = "bt709", range: Range | None = None,
               order: Order = "rgb") -> NDArray[np.uint8]: ...
    def to_rgb(self, standard: Standard = "bt709", range: Range | None = None, order: Order = "rgb") -> Any:
        """The colors of a frame, of 8 bits, as `rgb` makes them: an array of the shape (height, width, 3) or (height, width, 4), or a
        `Plane`. The default range is the range of the frame, and limited if the frame has none. Chroma is repeated. A frame without
        chroma has no color.

        >>> list(Frame([Plane(bytes([235, 16]), 2, 1)], "mono").to_rgb().buffer)
        [255, 255, 255, 0, 0, 0]
        """
        y, u, v = cast("tuple[Any, Any, Any]", tuple(self.convert("444", 8)))
        return rgb(y, u, v, standard, range or self.range or "limited", order)

    @classmethod
    def from_rgb(cls, colors: Colors, format: Format = "420", depth: Whole = 8, standard: Standard = "bt709", range: Range = "limited",
                 order: Order = "rgb") -> Frame[Any]:
        """A frame of colors, as `yuv` takes them, in a format, a bit depth and a range. `convert` makes it of 4:4:4 of 8 bits.

        >>> Frame.from_rgb(Plane(bytes(12), 6, 2)).y.tobytes()
        b'\\x10\\x10\\x10\\x10'
        """
        planes = yuv(cast(Any, colors), standard, range, order)
        return Frame(planes, "444", 8, range).convert(format, depth)

    def to_semi_planar(self) -> tuple[P, P]:
        """Luma, and a plane of interleaved chroma, as NV12, NV16, NV24 and P010 have them: two new planes. Above 8 bits the samples are
        in the top bits of their words, and a sample above the largest value of the bit depth counts as the largest. The format is
        "420", "422" or "444".

        >>> frame = Frame([Plane(bytes([1, 2]), 2, 1), Plane(bytes([3]), 1, 1), Plane(bytes([4]), 1, 1)], "420")
        >>> [list(plane.buffer) for plane in frame.to_semi_planar()]
        [[1, 2], [3, 4]]
        """
        size, (wide, high) = 1 if self.depth == 8 else 2, plane_sizes(self.width, self.height, self.format)[-1]
        y, uv = new_plane(self.y, self.width, self.height, size), new_plane(self.y, 2 * wide, high, size)
        planes: Sequence[Any] = self.planes if len(self) == 3 else 3 * self.planes
        if 8 < self.depth < 16:
            planes = [convert_depth(it, self.depth, self.depth) for it in planes]
        _semi_planar(library.TO_SEMI_PLANAR[1], library.TO_TOP_BITS, (y, uv), planes, self.format, self.depth)
        return y, uv

    @classmethod
    def from_semi_planar(cls, y: P, uv: P, format: Format = "420", depth: Whole = 8) -> Frame[P]:
        """The frame of luma and interleaved chroma: the inverse of `to_semi_planar`.

        >>> frame = Frame.from_semi_planar(Plane(bytes([1, 2]), 2, 1), Plane(bytes([3, 4]), 2, 1))
        >>> [list(plane.buffer) for plane in frame]
        [[1, 2], [3], [4]]
        """
        bits = within(depth, "depth", 8, 16)
        chosen(format, SEMI_PLANAR, "format")
        width, height, size = shape(y, "y")
        sizes = plane_sizes(width, height, format)
        planes = [new_plane(y, *it, size) for it in (sizes + 2 * sizes)[:3]]
        with Held(uv, "uv") as held:
            wanted = (2 * sizes[-1][0], sizes[-1][1])
            if (held.rows.width, held.rows.height) != wanted:
                raise SizesError(f"{held}, and has to be {wanted[0]} by {wanted[1]} beside luma of {width} by {height} in the format {format!r}")
        _semi_planar(library.FROM_SEMI_PLANAR[1], library.FROM_TOP_BITS, planes, (y, uv), format, bits)
        return Frame(planes, format, bits)


def _semi_planar(of_bytes: Callable[..., int], of_top_bits: Callable[..., int], targets: Sequence[Any], sources: Sequence[Any], format: str,
                 depth: int) -> None:
    """Calls an export that makes planes, which nothing else uses yet, of others: the one for bytes, or the one for words whose top bits
    are the samples."""
    chosen(format, SEMI_PLANAR, "format")
    with ExitStack() as stack:
        planes = [stack.enter_context(Held(it, "a new plane", writes=True)) for it in targets]
        planes += [stack.enter_context(Held(it, name)) for it, name in zip(sources, ("y", "uv") if len(sources) == 2 else "yuv")]
        size = 1 if depth == 8 else 2
        for it in planes:
            if it.size != size:
                raise KindError(f"{it.name} has samples of {it.size} bytes, and samples of {depth} bits have {size}")
        told, number = [word for it in planes for word in it.told()], FORMATS.index(cast(Any, format))
        library.answered(of_bytes(*told, number) if depth == 8 else of_top_bits(*told, number, depth))


def _at_ratio(plane: P, source: tuple[int, int] | None, target: tuple[int, int] | None, size: tuple[int, int]) -> P:
    """A plane of chroma of one format at the size that it has in another. Each block of which the mean is taken is whole: past an edge
    the last column and row are repeated."""
    ratios = list(zip(source or (1, 1), target or (1, 1)))
    across, down = (max(wanted // found, 1) for found, wanted in ratios)
    if (across, down) != (1, 1):
        width, height, _ = shape(plane, "chroma")
        columns, rows = -(-width // across), -(-height // down)
        plane = resize_area(pad(plane, 0, columns * across - width, 0, rows * down - height), columns, rows)
    return upscale(plane, *size, *(max(found // wanted, 1) for found, wanted in ratios))
