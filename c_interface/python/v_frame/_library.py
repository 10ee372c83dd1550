"""The shared library: where it is, what it exports, and what its statuses mean."""

from __future__ import annotations

import ctypes
import ctypes.util
import os
from collections.abc import Callable
from pathlib import Path
from typing import Any

from ._errors import NumberError, RowsError, SizesError, StatusError

VERSION = "0.4.0"


class Rows(ctypes.Structure):
    _fields_ = [("width", ctypes.c_size_t), ("height", ctypes.c_size_t), ("stride", ctypes.c_size_t)]


class Bordered(ctypes.Structure):
    _fields_ = [(name, ctypes.c_size_t) for name in ("width", "height", "pad_left", "pad_right", "pad_top", "pad_bottom")]


class Request(ctypes.Structure):
    _fields_ = [("width", ctypes.c_size_t), ("height", ctypes.c_size_t), ("padding", ctypes.c_size_t),
                ("format", ctypes.c_uint32)]


class Part(ctypes.Structure):
    _fields_ = [("offset", ctypes.c_size_t), ("count", ctypes.c_size_t), ("layout", Bordered)]


class Parts(ctypes.Structure):
    _fields_ = [("planes", Part * 3), ("count", ctypes.c_size_t)]


class Sum(ctypes.Structure):
    _fields_ = [("low", ctypes.c_uint64), ("high", ctypes.c_uint64)]


class Place(ctypes.Structure):
    _fields_ = [("x", ctypes.c_size_t), ("y", ctypes.c_size_t), ("found", ctypes.c_uint32)]


class Statistics(ctypes.Structure):
    _fields_ = [("count", ctypes.c_uint64), ("sum", Sum), ("sum_of_squares", Sum), ("minimum", ctypes.c_uint32),
                ("maximum", ctypes.c_uint32)]


class Greatest(ctypes.Structure):
    _fields_ = [("x", ctypes.c_size_t), ("y", ctypes.c_size_t), ("difference", ctypes.c_uint32)]


class Colors(ctypes.Structure):
    _fields_ = [("standard", ctypes.c_uint32), ("range", ctypes.c_uint32), ("order", ctypes.c_uint32)]


class PairStatistics(ctypes.Structure):
    _fields_ = [(name, Sum) for name in ("first", "second", "first_squares", "second_squares", "products")]


def opened(name: str, variable: str) -> ctypes.CDLL:
    """The library that an environment variable names, or else the one beside this module, the one of its prefix or its wheel, or the
    one that the loader finds.

    A wheel has one library with all calls, as cargo builds it.
    """
    here, file = Path(__file__).resolve().parent, f"lib{name}.so"
    places = [str(it) for it in (here / file, here.parent.parent / file, here / "lib/libv_frame.so")]
    named = os.environ.get(variable)
    found = named or next((it for it in places if Path(it).exists()), None) or ctypes.util.find_library(name) or file
    try:
        return ctypes.CDLL(found)
    except OSError as error:
        looked_for = named or f"{', '.join(places)}, and {file} where the loader looks"
        raise ImportError(f"{file} cannot be loaded ({error}): looked for {looked_for}; install it, or set {variable} to its path") from error


def of_this_version(library: ctypes.CDLL, name: str) -> ctypes.CDLL:
    """A library whose first two numbers of the version are those of this module."""
    version = export(library, f"{name}_version")()
    if version >> 8 != int.from_bytes(map(int, VERSION.split(".")), "big") >> 8:
        numbers = f"{version >> 16}.{version >> 8 & 255}.{version & 255}"
        raise ImportError(f"lib{name}.so is of version {numbers}, and this module of {VERSION}: the first two numbers have to agree")
    return library


def export(library: ctypes.CDLL, name: str, *parameters: Any) -> Callable[..., int]:
    """A call of a library, which returns a status."""
    try:
        found = getattr(library, name)
    except AttributeError:
        raise ImportError(f"the library has no {name}: it is of another version than this module, {VERSION}") from None
    found.restype, found.argtypes = ctypes.c_uint32, list(parameters)
    call: Callable[..., int] = found
    return call


_library = of_this_version(opened("v_frame", "V_FRAME_LIBRARY"), "v_frame")
_rows, _size, _data = ctypes.POINTER(Rows), ctypes.c_size_t, ctypes.c_void_p


def _export(name: str, *more: Any) -> Callable[..., int]:
    return export(_library, name, _rows, _data, _size, *more)


def _both(name: str, *more: Any) -> dict[int, Callable[..., int]]:
    return {size: _export(f"v_frame_{name}_{kind}", *more) for size, kind in ((1, "u8"), (2, "u16"))}


SQUARED_ERRORS = _both("squared_errors", _rows, _data, _size, ctypes.POINTER(Sum))
ABSOLUTE_DIFFERENCES = _both("absolute_differences", _rows, _data, _size, ctypes.POINTER(Sum))
FIRST_DIFFERENCE = _both("first_difference", _rows, _data, _size, ctypes.POINTER(Place))
COPY = _both("copy", _rows, _data, _size)
COPY_CLIPPED = _both("copy_clipped", _rows, _data, _size, ctypes.c_ssize_t, ctypes.c_ssize_t)
DOWNSCALE = _both("downscale", _rows, _data, _size)
FILL = {1: _export("v_frame_fill_u8", ctypes.c_uint8), 2: _export("v_frame_fill_u16", ctypes.c_uint16)}
PAD = {size: export(_library, f"v_frame_pad_{kind}", ctypes.POINTER(Bordered), _data, _size) for size, kind in ((1, "u8"), (2, "u16"))}
TURN = _both("turn", _rows, _data, _size, ctypes.c_uint32)
UPSCALE = _both("upscale", _rows, _data, _size, _size, _size)
INTERLEAVE = _both("interleave", _rows, _data, _size, _rows, _data, _size)
DEINTERLEAVE = _both("deinterleave", _rows, _data, _size, _rows, _data, _size)
_buffer = (_rows, _data, _size)
TO_SEMI_PLANAR = _both("to_semi_planar", *4 * _buffer, ctypes.c_uint32)
FROM_SEMI_PLANAR = _both("from_semi_planar", *4 * _buffer, ctypes.c_uint32)
TO_TOP_BITS = _export("v_frame_to_semi_planar_top_bits_u16", *4 * _buffer, ctypes.c_uint32, ctypes.c_uint32)
FROM_TOP_BITS = _export("v_frame_from_semi_planar_top_bits_u16", *4 * _buffer, ctypes.c_uint32, ctypes.c_uint32)
TO_RGB = _export("v_frame_yuv444_to_rgb_u8", _rows, _data, _size, _rows, _data, _size, _rows, _data, _size,
                 ctypes.POINTER(Colors))
STATISTICS = _both("statistics", ctypes.POINTER(Statistics))
PAIR_STATISTICS = _both("pair_statistics", _rows, _data, _size, ctypes.POINTER(PairStatistics))
CONVERT_DEPTH = {sizes: _export(f"v_frame_convert_depth_{kinds}", _rows, _data, _size, ctypes.c_uint32, ctypes.c_uint32)
                 for sizes, kinds in {(1, 2): "u8_u16", (2, 1): "u16_u8", (2, 2): "u16_u16"}.items()}
DOWNSCALE_TO_EDGE = _both("downscale_to_edge", _rows, _data, _size)
HALVE_COLUMNS = _both("halve_columns", _rows, _data, _size)
RESIZE_AREA = _both("resize_area", _rows, _data, _size)
RESIZE_NEAREST = _both("resize_nearest", _rows, _data, _size)
TO_FULL_RANGE = _both("to_full_range", _rows, _data, _size, ctypes.c_uint32, ctypes.c_uint32)
TO_LIMITED_RANGE = _both("to_limited_range", _rows, _data, _size, ctypes.c_uint32, ctypes.c_uint32)
TO_YUV = _export("v_frame_rgb_to_yuv444_u8", _rows, _data, _size, _rows, _data, _size, _rows, _data, _size,
                 ctypes.POINTER(Colors))
BLEND = _both("blend", _rows, _data, _size, ctypes.c_uint16)
BLEND_WITH_MASK = _both("blend_with_mask", _rows, _data, _size, _rows, _data, _size)
DIFFERENCE = _both("difference", _rows, _data, _size, ctypes.c_uint16, ctypes.c_uint32)
HISTOGRAM = _both("histogram", ctypes.POINTER(ctypes.c_uint64), _size)
COUNT_BETWEEN = {size: _export(f"v_frame_count_between_{kind}", value, value, ctypes.POINTER(ctypes.c_uint64))
                 for size, kind, value in ((1, "u8", ctypes.c_uint8), (2, "u16", ctypes.c_uint16))}
SSIM = {1: _export("v_frame_ssim_u8", _rows, _data, _size, ctypes.POINTER(ctypes.c_double)),
        2: _export("v_frame_ssim_u16", _rows, _data, _size, ctypes.c_uint32, ctypes.POINTER(ctypes.c_double))}
GREATEST_DIFFERENCE = _both("greatest_difference", _rows, _data, _size, ctypes.POINTER(Greatest))
COUNT_ABOVE = _both("count_above", _rows, _data, _size, ctypes.c_uint16, ctypes.POINTER(ctypes.c_uint64))
LAY_OUT = export(_library, "v_frame_lay_out", ctypes.POINTER(Request), ctypes.POINTER(Parts))


_ROWS = {1: "first", 2: "second", 6: "third", 7: "fourth", 9: "fifth"}


def answered(status: int) -> None:
    """Raises the exception of a status. This module tests its arguments before a call, and its errors then name the parameter; so
    only a few statuses are left."""
    if status in _ROWS:
        raise RowsError(f"the rows of the {_ROWS[status]} plane do not fit their buffer")
    if status == 3:
        raise SizesError("the sizes of the planes are not those that the call requires")
    if status == 4:
        raise NumberError("the format is not one that the call takes")
    if status == 5:
        raise NumberError("a bit depth, a ratio, a weight or the number of a choice is out of its range")
    if status == 8:
        raise SizesError("a side of the planes is below 8, so that no window of 8 by 8 samples fits")
    if status != 0:
        raise StatusError(f"the library has returned the status {status}, which this module does not know")
