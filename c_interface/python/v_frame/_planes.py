"""Planes: a width, a height and a stride over memory that somebody else keeps."""

from __future__ import annotations

import ctypes
import importlib
import sys
from types import TracebackType
from typing import TYPE_CHECKING, Any, TypeVar, Union

from ._errors import AccessError, KindError, NumberError, RowsError, SizesError, Whole, shown, sizes, whole
from ._library import Rows

if TYPE_CHECKING:
    import numpy as np
    from numpy.typing import NDArray

    Array = Union[NDArray[np.uint8], NDArray[np.uint16]]
    AnyPlane = Union["Plane", NDArray[np.uint8], NDArray[np.uint16]]
    Colors = Union["Plane", NDArray[np.uint8]]
    Bytes = Union[bytes, bytearray, memoryview, Any]
    P = TypeVar("P", bound=AnyPlane)
else:
    P = TypeVar("P")


def _imported(name: str) -> Any:
    """A module, or None if it is not installed."""
    try:
        return importlib.import_module(name)
    except ImportError:
        return None


numpy: Any = _imported("numpy")


class _Buffer(ctypes.Structure):
    """What the interpreter says of an object's memory (`Py_buffer`)."""

    _fields_ = [
        ("buf", ctypes.c_void_p), ("obj", ctypes.py_object), ("len", ctypes.c_ssize_t), ("itemsize", ctypes.c_ssize_t),
        ("readonly", ctypes.c_int), ("ndim", ctypes.c_int), ("format", ctypes.c_char_p), ("shape", ctypes.c_void_p),
        ("strides", ctypes.c_void_p), ("suboffsets", ctypes.c_void_p), ("internal", ctypes.c_void_p),
    ]


_get, _release = ctypes.pythonapi.PyObject_GetBuffer, ctypes.pythonapi.PyBuffer_Release
_get.argtypes = [ctypes.py_object, ctypes.POINTER(_Buffer), ctypes.c_int]
_release.argtypes = [ctypes.POINTER(_Buffer)]
_WRITABLE = 1


_EMPTY = ctypes.create_string_buffer(2)


class Plane:
    """A plane of `width` by `height` samples: row y is the `width` samples from number `stride * y` of the buffer on.

    The buffer is any object with one run of bytes (bytes, bytearray, memoryview, array, mmap). It is not copied, and is held only
    while a call runs. The stride is in samples; the default is the width. Samples have `sample_size` bytes, 1 or 2; samples of 2
    bytes are in the byte order of the machine. `channels` is the number of samples of a pixel: 1, or 3 or 4 for colors, of which
    the width counts every sample. `numpy.asarray` makes an array over the same memory.

    >>> plane = Plane(bytearray([1, 2, 3, 9, 4, 5, 6]), 3, 2, stride=4)
    >>> plane.tobytes()
    b'\\x01\\x02\\x03\\x04\\x05\\x06'
    """

    buffer: Any
    width: int
    height: int
    stride: int
    sample_size: int
    channels: int

    def __init__(self, buffer: Bytes, width: Whole, height: Whole, stride: Whole | None = None, sample_size: Whole = 1,
                 channels: Whole = 1) -> None:
        self.buffer = buffer
        self.sample_size, self.channels = whole(sample_size, "sample_size"), whole(channels, "channels")
        if self.channels not in (1, 3, 4):
            raise NumberError(f"channels is {shown(self.channels)}, and has to be 1, 3 or 4")
        self.width, self.height, self.stride = sizes(width=width, height=height, stride=width if stride is None else stride)
        self._numbers()

    def __repr__(self) -> str:
        colors = f", channels={self.channels}" if self.channels != 1 else ""
        return f"Plane(width={self.width}, height={self.height}, stride={self.stride}, sample_size={self.sample_size}{colors})"

    @property
    def __array_interface__(self) -> dict[str, Any]:
        """What numpy reads to make an array over the memory of the plane, which it keeps alive."""
        with Held(self, "the plane") as held:
            width, height, stride, size = held.rows.width, held.rows.height, held.rows.stride, held.size
        kind = "|u1" if size == 1 else ("<u2" if sys.byteorder == "little" else ">u2")
        return {"shape": (height, width), "typestr": kind, "strides": (stride * size, size), "data": memoryview(self.buffer), "version": 3}

    def _numbers(self) -> tuple[int, int, int, int]:
        """The width, the height, the stride and the sample size, which anyone may have set meanwhile."""
        size = whole(self.sample_size, "sample_size")
        if size not in (1, 2):
            raise NumberError(f"sample_size is {shown(size)}, and has to be 1 or 2")
        width, height, stride = sizes(width=self.width, height=self.height, stride=self.stride)
        return width, height, stride, size

    def tobytes(self) -> bytes:
        """The samples of the rows, without what is between the rows."""
        with Held(self, "the plane") as held:
            width, height, stride, size = held.rows.width, held.rows.height, held.rows.stride, held.size
            starts = range(held.address, held.address + stride * height * size, stride * size)
            return b"".join(ctypes.string_at(start, width * size) for start in starts)


def is_array(value: Any) -> bool:
    """Whether something is an array of numpy."""
    return numpy is not None and isinstance(value, numpy.ndarray)


def plain(array: Any, name: str) -> Any:
    """The array itself and not what a subclass makes of it: a subclass may override its shape, its strides or its methods. A masked
    array is rejected, since its mask would be ignored."""
    masked = sys.modules.get("numpy.ma")
    if masked is not None and isinstance(array, masked.MaskedArray):
        raise KindError(f"{name} is a masked array, whose mask would be ignored: pass the data of it, or array.filled()")
    return numpy.ndarray.view(array, numpy.ndarray)


class Held:
    """The memory of a plane for the time of a call: its rows, its address, and its length in samples. The name is that of the
    parameter, for errors."""

    rows: Rows
    size: int
    address: int
    length: int

    def __init__(self, plane: Any, name: str, writes: bool = False) -> None:
        self._view: _Buffer | None = None
        self._array: Any = None
        self.name = name
        if isinstance(plane, Plane):
            self._of_buffer(plane, writes)
        elif is_array(plane):
            self._of_array(plane, writes)
        else:
            raise KindError(f"{name} is of type {type(plane).__name__}, and has to be a Plane, or a numpy array of uint8 or uint16 with two "
                            "dimensions")

    def _of_buffer(self, plane: Plane, writes: bool) -> None:
        # All that may be rejected of the numbers is rejected before the buffer is held.
        width, height, stride, self.size = plane._numbers()
        self.rows = self._filled(width, height, stride)
        view = _Buffer()
        try:
            _get(plane.buffer, ctypes.byref(view), _WRITABLE if writes else 0)
        except (BufferError, ValueError) as error:
            raise AccessError(f"the buffer of {self.name} cannot be used: {error}") from error
        except TypeError as error:
            raise KindError(f"the buffer of {self.name} is not a buffer: {error}") from error
        self._view = view
        try:
            self.address, self.length = view.buf or 0, view.len // self.size
            self._settle()
        except BaseException:
            self.__exit__()
            raise

    def _of_array(self, array: Any, writes: bool) -> None:
        name, array = self.name, plain(array, self.name)
        if array.dtype not in (numpy.dtype("uint8"), numpy.dtype("uint16")):
            raise KindError(f"{name} is an array of {array.dtype}, and has to be of uint8 or uint16 in the byte order of the machine")
        if array.ndim != 2:
            raise KindError(f"{name} is an array of {array.ndim} dimensions, and has to have 2: its height and its width")
        if writes and not array.flags.writeable:
            raise AccessError(f"{name} is a read-only array, and is to be written")
        size, (height, width), (down, across) = array.dtype.itemsize, array.shape, array.strides
        rows = self._filled(width, height, width)
        if width > 1 and across != size:
            raise AccessError(f"the samples of a row of {name} are {across} bytes apart, and have to be {size}: make a copy of the array")
        if height > 1 and (down < 0 or down % size):
            raise AccessError(f"the rows of {name} are {down} bytes apart, which has to be a positive number of whole samples: make a copy "
                              "of the array")
        rows.stride = stride = down // size if height > 1 else width
        if stride < width:
            raise RowsError(f"the rows of {name} overlap, as after numpy.broadcast_to: they are {down} bytes apart and {width * size} bytes "
                            "wide; make a copy of the array")
        self.size, self.rows, self._array = size, rows, array
        self.address = array.ctypes.data
        self.length = stride * (height - 1) + width
        self._settle()

    def _filled(self, width: int, height: int, stride: int) -> Rows:
        """The rows of a picture that has a pixel."""
        if not (width and height):
            raise RowsError(f"{self.name} is {width} by {height} samples, and has to have at least one")
        return Rows(width, height, stride)

    def _settle(self) -> None:
        """Sees that the rows are inside of the memory, and that samples are where the library may read them. If there are none, the
        address is one that is not null."""
        width, height, stride = self.rows.width, self.rows.height, self.rows.stride
        if stride < width:
            raise RowsError(f"the rows of {self.name} do not fit their buffer: the stride is {stride}, and the width {width}")
        if stride * (height - 1) + width > self.length:
            raise RowsError(f"the rows of {self.name} do not fit their buffer: {width} by {height} samples with a stride of {stride} are "
                            f"{stride * (height - 1) + width} samples, and the buffer has {self.length}")
        if not self.length:
            self.address = ctypes.addressof(_EMPTY)
        if self.address % self.size:
            raise AccessError(f"the samples of {self.name} have 2 bytes each and are at odd addresses: make a copy")

    def __str__(self) -> str:
        return f"{self.name} is {self.rows.width} by {self.rows.height}"

    def overlaps(self, other: Held) -> bool:
        """Whether two planes have an address in common, between their rows too."""
        return (self.address < other.address + other.length * other.size
                and other.address < self.address + self.length * self.size)

    def told(self) -> tuple[Any, Any, int]:
        """What an export is given of the plane: its rows, its samples and how many they are."""
        return ctypes.byref(self.rows), self.address, self.length

    def told_beside(self, written: Held) -> tuple[Any, Any, int]:
        """The same with a copy of the samples if they overlap a plane that is written: the library is promised that none do."""
        if not written.overlaps(self):
            return self.told()
        count = self.length * self.size
        return ctypes.byref(self.rows), ctypes.create_string_buffer(ctypes.string_at(self.address, count), count), self.length

    def __enter__(self) -> Held:
        return self

    def __exit__(self, kind: type[BaseException] | None = None, error: BaseException | None = None,
                 traceback: TracebackType | None = None) -> None:
        self._array = None
        if self._view is not None:
            _release(ctypes.byref(self._view))
            self._view = None


def same_size(a: Held, b: Held) -> int:
    """The size of the samples of two planes."""
    if a.size != b.size:
        raise KindError(f"{a.name} has samples of {a.size} bytes and {b.name} of {b.size}, and they have to be the same")
    return a.size


def same_pictures(*planes: Held) -> None:
    """Rejects planes of different widths or heights."""
    first = planes[0]
    for other in planes[1:]:
        if (other.rows.width, other.rows.height) != (first.rows.width, first.rows.height):
            raise SizesError(f"{first}, {other}, and they have to have one size")
