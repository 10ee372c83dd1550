"""Header lines of YUV4MPEG2 streams, parsed and written by `libv_frame_y4m`."""

from __future__ import annotations

import ctypes
from collections.abc import Sequence
from dataclasses import dataclass, replace
from typing import Any, Literal

from ._calls import FORMATS, Format
from ._errors import LIMIT, Error, Y4mError, shown, whole
from ._frames import plane_sizes
from ._library import export, of_this_version, opened

Siting = Literal["jpeg", "mpeg2", "paldv"]
Interlacing = Literal["p", "t", "b", "m", "?"]
HeaderRange = Literal["limited", "full"]

#: Where chroma is, in the order of the numbers.
SITINGS: tuple[Siting | None, ...] = (None, "jpeg", "mpeg2", "paldv")
#: How fields are interlaced, in the order of the numbers.
INTERLACINGS: tuple[Interlacing | None, ...] = (None, "p", "t", "b", "m", "?")
#: Ranges of values, in the order of the numbers.
RANGES: tuple[HeaderRange | None, ...] = (None, "limited", "full")
#: The extensions that state a range, which the field for it stands for.
_STATED = (b"COLORRANGE=LIMITED", b"COLORRANGE=FULL")


class _Ratio(ctypes.Structure):
    _fields_ = [("numerator", ctypes.c_uint64), ("denominator", ctypes.c_uint64), ("stated", ctypes.c_uint32)]

    def pair(self) -> tuple[int, int] | None:
        return (self.numerator, self.denominator) if self.stated else None


class _Header(ctypes.Structure):
    _fields_ = [
        ("width", ctypes.c_size_t), ("height", ctypes.c_size_t), ("frame_rate", _Ratio), ("pixel_aspect", _Ratio),
        ("format", ctypes.c_uint32), ("bit_depth", ctypes.c_uint32), ("siting", ctypes.c_uint32),
        ("interlacing", ctypes.c_uint32), ("range", ctypes.c_uint32),
    ]


_library = of_this_version(opened("v_frame_y4m", "V_FRAME_Y4M_LIBRARY"), "v_frame_y4m")
_PARSE = export(_library, "v_frame_y4m_parse_header", ctypes.c_char_p, ctypes.c_size_t, ctypes.POINTER(_Header),
                ctypes.POINTER(ctypes.c_uint32), ctypes.POINTER(ctypes.c_uint32))
_EXTENSIONS = export(_library, "v_frame_y4m_extensions", ctypes.c_char_p, ctypes.c_size_t, ctypes.c_char_p, ctypes.c_size_t,
                     ctypes.POINTER(ctypes.c_size_t))
_WRITE = export(_library, "v_frame_y4m_write_header", ctypes.POINTER(_Header), ctypes.c_char_p, ctypes.c_size_t, ctypes.c_char_p,
                ctypes.c_size_t, ctypes.POINTER(ctypes.c_size_t))
_FRAME_BYTES = export(_library, "v_frame_y4m_frame_bytes", ctypes.POINTER(_Header), ctypes.POINTER(ctypes.c_size_t))
_TEXTS = ("", "the stream does not begin with YUV4MPEG2", "the parameter {} is missing", "the parameter {} is repeated",
          "a parameter is malformed", "the parameter {} is 0", "a size is too large", "the color is unknown", "out of memory")
_TEXTS_OF_WRITING = {5: "a size is 0", 6: "a size is too large", 8: "out of memory", 9: "a number of the header is out of its range",
                     15: "extensions has one with a space or a line feed", 16: "extensions state another range than the header"}


def _size(value: Any, what: str, limit: int = LIMIT) -> int:
    """A whole number below a limit."""
    try:
        number = whole(value, what)
    except Error as error:
        raise Y4mError(str(error)) from None
    if not 0 <= number < limit:
        raise Y4mError(f"{what} is {shown(number)}, which is " + ("negative" if number < 0 else "too large"))
    return number


def _one_of(name: Any, known: Sequence[str | None], what: str) -> int:
    """The number of a name."""
    if name is not None and not isinstance(name, str) or name not in known:
        raise Y4mError(f"{what} is {shown(name)}, and has to be one of {', '.join(map(repr, known))}")
    return known.index(name)


def _ratio(pair: Any, what: str) -> _Ratio:
    if pair is None:
        return _Ratio(0, 0, 0)
    try:
        numerator, denominator = pair
    except (TypeError, ValueError):
        raise Y4mError(f"{what} is {shown(pair)}, and has to be a pair of whole numbers") from None
    return _Ratio(_size(numerator, what, 1 << 64), _size(denominator, what, 1 << 64), 1)


@dataclass
class Header:
    """What a header line states. Ratios are pairs of whole numbers. A value that the line does not state is None.

    The siting says where the chroma samples of 8-bit 4:2:0 are: "jpeg", "mpeg2" or "paldv". None counts as "jpeg", as in a line that
    states none. Only 8-bit 4:2:0 has a siting: the line of another header that states one is rejected. `with_format` makes a header
    of another format or bit depth.

    The range says which values the samples have: "limited", "full", or None. It is the extension XCOLORRANGE of the line. The other
    extensions, its parameters X, are bytes without the letter, in their order. They are written as they were read.

    >>> Header(64, 48, frame_rate=(25, 1), range="full").line()
    b'YUV4MPEG2 W64 H48 F25:1 C420jpeg XCOLORRANGE=FULL\\n'
    """

    width: int
    height: int
    format: Format = "420"
    bit_depth: int = 8
    frame_rate: tuple[int, int] | None = None
    pixel_aspect: tuple[int, int] | None = None
    interlacing: Interlacing | None = None
    siting: Siting | None = None
    range: HeaderRange | None = None
    extensions: tuple[bytes, ...] = ()

    def __post_init__(self) -> None:
        """Rejects a header that has no line."""
        self.line()

    def sizes(self) -> list[tuple[int, int]]:
        """The width and the height of each plane. Chroma has as many columns and rows as cover luma.

        >>> Header(5, 3, "420").sizes()
        [(5, 3), (3, 2), (3, 2)]
        """
        numbers = self._numbers()
        return plane_sizes(numbers.width, numbers.height, FORMATS[numbers.format])

    def line(self) -> bytes:
        """The header line, with its line feed, as the library writes it.

        >>> Header(64, 48, "422", 10, frame_rate=(25, 1)).line()
        b'YUV4MPEG2 W64 H48 F25:1 C422p10\\n'
        """
        numbers, text, needed = self._numbers(), self._text(), ctypes.c_size_t()
        line = ctypes.create_string_buffer(256 + len(text))
        self._written(_WRITE(ctypes.byref(numbers), text, len(text), line, len(line), ctypes.byref(needed)))
        return line.raw[:needed.value]

    def frame_bytes(self) -> int:
        """The number of bytes of a frame after its line.

        >>> Header(5, 3, "420", 10).frame_bytes()
        54
        """
        numbers, count = self._numbers(), ctypes.c_size_t()
        self._written(_FRAME_BYTES(ctypes.byref(numbers), ctypes.byref(count)))
        return count.value

    def with_format(self, format: Format | None = None, bit_depth: int | None = None) -> Header:
        """The header of a stream whose frames have another format or bit depth. 8-bit 4:2:0 keeps its siting, or gets "jpeg" if there
        was none; any other header has none. An extension YSCSS, which repeats the format, is left out if the format changes.

        >>> parse_header(b"YUV4MPEG2 W64 H48 C420mpeg2").with_format(bit_depth=10).line()
        b'YUV4MPEG2 W64 H48 C420p10\\n'
        """
        wanted: Format = self.format if format is None else format
        bits = self.bit_depth if bit_depth is None else bit_depth
        siting: Siting | None = (self.siting or "jpeg") if (wanted, bits) == ("420", 8) else None
        kept = tuple(it for it in self.extensions if (wanted, bits) == (self.format, self.bit_depth) or not it.startswith(b"YSCSS="))
        return replace(self, format=wanted, bit_depth=bits, siting=siting, extensions=kept)

    def _numbers(self) -> _Header:
        """The header as the library takes it."""
        format, siting = _one_of(self.format, FORMATS, "format"), _one_of(self.siting, SITINGS, "siting")
        bit_depth = _size(self.bit_depth, "bit_depth", 1 << 32)
        has_siting = (self.format, bit_depth) == ("420", 8)
        if siting and not has_siting:
            raise Y4mError(f"siting is {self.siting!r}, which only 8-bit 4:2:0 has, and the header is {bit_depth}-bit {self.format}: "
                           "with_format makes a header of another format")
        width, height = _size(self.width, "width"), _size(self.height, "height")
        if not (width and height):
            raise Y4mError(f"the size is {width} by {height}, and has to be at least 1 by 1")
        return _Header(width, height, _ratio(self.frame_rate, "frame_rate"), _ratio(self.pixel_aspect, "pixel_aspect"), format, bit_depth,
                       (siting or SITINGS.index("jpeg")) if has_siting else 0, _one_of(self.interlacing, INTERLACINGS, "interlacing"),
                       _one_of(self.range, RANGES, "range"))

    def _text(self) -> bytes:
        """The extensions as they are in a line."""
        found = tuple(self.extensions) if isinstance(self.extensions, (tuple, list)) else None
        if found is None or not all(isinstance(it, bytes) for it in found):
            raise Y4mError("extensions has to be a tuple of bytes")
        for it in found:
            if b" " in it or b"\n" in it:
                raise Y4mError(f"extensions has {it!r}, which has a space or a line feed")
            if it in _STATED and self.range is not None and it != _STATED[RANGES.index(self.range) - 1]:
                raise Y4mError(f"extensions has {it!r}, and range is {self.range!r}")
        return b"".join(b" X" + it for it in found)

    def _written(self, status: int) -> None:
        """Raises the error of a status of a call that takes a header."""
        if status == 7:
            raise Y4mError(f"the format {self.format!r} has no color of {self.bit_depth} bits in a header line")
        if status:
            raise Y4mError(_TEXTS_OF_WRITING.get(status, f"the library has returned the status {status}, which this module does not know"))


def parse_header(line: bytes) -> Header:
    """The header of a line, which has no line feed. It may be a lax line, as `yuv` takes it: with a carriage return or a space at its
    end, with more than one space between two parameters, or with F25 for F25:1.

    >>> parse_header(b"YUV4MPEG2 W64 H48 F25:1 Cmono XCOLORRANGE=FULL").range
    'full'
    """
    if not isinstance(line, bytes):
        raise Y4mError(f"line is of type {type(line).__name__}, and has to be bytes")
    found, letter, is_lax = _Header(), ctypes.c_uint32(), ctypes.c_uint32()
    status = _PARSE(line, len(line), ctypes.byref(found), ctypes.byref(letter), ctypes.byref(is_lax))
    if status:
        if status >= len(_TEXTS):
            raise Y4mError(f"the library has returned the status {status}, which this module does not know")
        raise Y4mError(_TEXTS[status].format(chr(letter.value)))
    range = RANGES[found.range]
    return Header(found.width, found.height, FORMATS[found.format], found.bit_depth, found.frame_rate.pair(), found.pixel_aspect.pair(),
                  INTERLACINGS[found.interlacing], SITINGS[found.siting], range, _extensions_of(line, range is not None))


def _extensions_of(line: bytes, has_range: bool) -> tuple[bytes, ...]:
    """The extensions of a header line, without the one that states the range if there is one range."""
    text, needed = ctypes.create_string_buffer(len(line) + 1), ctypes.c_size_t()
    status = _EXTENSIONS(line, len(line), text, len(text), ctypes.byref(needed))
    if status:
        raise Y4mError(_TEXTS[status] if status < len(_TEXTS) else f"the library has returned the status {status}, which this module does not know")
    found = text.raw[:needed.value].split(b" ")[1:]
    return tuple(it[1:] for it in found if not (has_range and it[1:] in _STATED))
