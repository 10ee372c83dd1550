"""YUV4MPEG2 streams: the header as a `Header`, and frames as planes.

>>> import io
>>> stream = io.BytesIO(b"YUV4MPEG2 W2 H2 F25:1 Cmono\\nFRAME\\n" + bytes([1, 2, 3, 4]))
>>> header, frames = read_y4m(stream)
>>> header.width, header.height, header.frame_rate, header.bit_depth
(2, 2, (25, 1), 8)
>>> [[plane.tobytes() for plane in planes] for planes in frames]
[[b'\\x01\\x02\\x03\\x04']]
"""

from __future__ import annotations

import os
import stat
import sys
import threading
import weakref
from collections.abc import Callable, Iterable, Iterator
from dataclasses import replace
from types import TracebackType
from typing import TYPE_CHECKING, Any, Protocol, Union

from ._errors import Error, Y4mError, Y4mStreamError
from ._frames import RATIOS, Frame
from ._headers import Header, parse_header
from ._planes import Held, Plane, is_array, numpy, plain
from ._png import File
from ._targets import Target, write_all, writes_bytes

if TYPE_CHECKING:
    from ._planes import AnyPlane


class Reader(Protocol):
    """An object that reads bytes, as a file that is open."""

    def read(self, size: int = ..., /) -> bytes:
        """Reads bytes."""

    def readline(self, size: int = ..., /) -> bytes:
        """Reads a line."""


#: A path, or an object that reads bytes.
Input = Union[str, bytes, "os.PathLike[str]", "os.PathLike[bytes]", Reader]

__all__ = ["Frames", "Header", "RATIOS", "Y4mError", "Y4mWriter", "parse_header", "read_y4m", "write_y4m"]

_LONGEST_LINE = 1024
#: How many bytes are asked for at once: a header may claim frames that are larger than any memory.
_PIECE = 1 << 24
#: What reads frames now.
_READ: weakref.WeakSet[Frames] = weakref.WeakSet()


def read_y4m(file: Input) -> tuple[Header, Frames]:
    """The header of a stream, and an iterator over its frames, each a `Frame` with the planes Y, U and V.

    `file` is a path or an object that reads bytes. Planes are arrays if numpy is installed, and otherwise of `Plane`. Above 8 bits a
    sample has two bytes. Each plane has memory of its own, and each frame has the range of the header. A malformed stream, an
    incomplete frame, and a reader that returns no bytes raise `Y4mError`. An error of the system raises OSError. `Frames` is also a
    context manager, which closes the file.

    >>> import io
    >>> header, frames = read_y4m(io.BytesIO(b"YUV4MPEG2 W120 H1 Cmono\\nFRAME\\n" + bytes(120)))
    >>> [(frame.width, frame.height, frame.depth) for frame in frames]
    [(120, 1, 8)]
    """
    is_path = isinstance(file, (str, bytes, os.PathLike))
    stream: Any = open(file, "rb") if isinstance(file, (str, bytes, os.PathLike)) else file
    if getattr(stream, "closed", False) or not (hasattr(stream, "readline") and hasattr(stream, "read")):
        raise Y4mError(f"file, of type {type(stream).__name__}, is closed or does not read bytes")
    try:
        line = _line(stream)
        if line is None:
            raise Y4mError("the stream ends inside a line")
        header = parse_header(line)
    except BaseException:
        if is_path:
            stream.close()
        raise
    return header, Frames(stream, header, is_path)


def _read(read: Callable[[int], Any], count: int) -> bytes:
    """At most a number of bytes, and none at the end of the stream."""
    found = read(count)
    if not isinstance(found, (bytes, bytearray, memoryview)):
        raise Y4mError("the stream has returned None: it does not wait for bytes" if found is None else "the stream does not read bytes")
    if len(found) > count:
        raise Y4mError(f"the stream has returned {len(found)} bytes for a request of {count}")
    return bytes(found)


def _line(stream: Any) -> bytes | None:
    """A line without its line feed; None at the end of the stream."""
    line = _read(stream.readline, _LONGEST_LINE + 1)
    if not line:
        return None
    if not line.endswith(b"\n"):
        raise Y4mError("a line is longer than 1024 bytes" if len(line) > _LONGEST_LINE else "the stream ends inside a line")
    return line[:-1]


class Frames:
    """The frames of a stream, one after the other: an iterator and a context manager. A file that `read_y4m` has opened is closed after
    the last frame, after a failure, by `close`, at the end of a `with` block, and when nothing refers to the iterator any more. Any
    number of threads may use one iterator: each frame goes to one of them."""

    def __init__(self, stream: Any, header: Header, closes: bool) -> None:
        # A header of its own, which nobody changes meanwhile.
        self._stream, self._header, self._closes = stream, replace(header), closes
        self._lock = threading.RLock()
        _READ.add(self)

    def __iter__(self) -> Iterator[Frame[Any]]:
        return self

    def __next__(self) -> Frame[Any]:
        with self._lock:
            return self._next_or_stop()

    def __enter__(self) -> Frames:
        return self

    def __exit__(self, kind: type[BaseException] | None, error: BaseException | None, traceback: TracebackType | None) -> None:
        self.close()

    def _next_or_stop(self) -> Frame[Any]:
        try:
            frame = None if self._stream is None else self._next()
        except BaseException:
            self.close()
            raise
        if frame is None:
            self.close()
            raise StopIteration
        return frame

    def _next(self) -> Frame[Any] | None:
        line, header = _line(self._stream), self._header
        if line is None:
            return None
        if line not in (b"FRAME", b"FRAME\r") and not line.startswith(b"FRAME "):
            raise Y4mError(f"the line {line[:40]!r} is not one that begins a frame")
        return Frame(_planes(_frame_data(self._stream, header.frame_bytes()), header), header.format, header.bit_depth, header.range)

    def close(self) -> None:
        """Closes the file, if `read_y4m` has opened it. No frame follows."""
        with self._lock:
            stream, self._stream = self._stream, None
        if self._closes and stream is not None:
            stream.close()

    def __del__(self) -> None:
        self.close()


def _frame_data(stream: Any, total: int) -> bytes:
    """The bytes of a frame, in memory that grows with what the stream has, whatever its header claims."""
    parts: list[bytes] = []
    found = 0
    try:
        while found < total and (more := _read(stream.read, min(total - found, _PIECE))):
            parts.append(more)
            found += len(more)
        data = parts[0] if len(parts) == 1 else b"".join(parts)
    except MemoryError:
        raise Y4mError(f"there is no memory for a frame of {total} bytes") from None
    if found < total:
        raise Y4mError(f"expected {total} bytes of a frame, found {found}")
    return data


def _planes(data: bytes, header: Header) -> list[Any]:
    planes: list[Any] = []
    start, size = 0, 1 if header.bit_depth == 8 else 2
    for width, height in header.sizes():
        part = data[start:start + width * height * size]
        start += len(part)
        if numpy is not None:
            kind = numpy.dtype("uint8" if size == 1 else "<u2")
            planes.append(numpy.frombuffer(part, dtype=kind).astype(kind.newbyteorder("=")).reshape(height, width))
        else:
            planes.append(Plane(bytearray(_low_byte_first(part, size)), width, height, sample_size=size))
    return planes


def _low_byte_first(data: bytes, size: int) -> bytes:
    """Samples in the order of the machine as those of a stream, and back."""
    if size == 1 or sys.byteorder == "little":
        return data
    swapped = bytearray(data)
    swapped[::2], swapped[1::2] = data[1::2], data[::2]
    return bytes(swapped)


def write_y4m(file: File, header: Header, frames: Iterable[Frame[Any] | Iterable[AnyPlane]]) -> None:
    """Writes a stream: the header line, and for each frame a line and its planes, which have the sizes and the samples that the header
    states. Samples above the largest value of the bit depth are written unchanged.

    `file` is a path or an object that writes bytes. If it is a path, the stream goes to a new file `NAME.partial` in the same folder
    (`NAME.partial1` to `NAME.partial99` if there is one already), which replaces the target after the last frame. The frames may
    therefore come from the same path, and after a failure the target is unchanged. Devices, pipes and names of open files, such as
    `/dev/stdout`, are written directly.

    A header without a line raises `Y4mError` before anything is opened. A frame that does not fit the header raises it before any of
    the frame is written, and so does a stream that does not take the bytes. An error of the system raises OSError.

    >>> import io
    >>> stream = io.BytesIO()
    >>> write_y4m(stream, Header(120, 1, "mono"), [[Plane(bytes(120), 120, 1)]])
    >>> stream.getvalue() == b"YUV4MPEG2 W120 H1 Cmono\\nFRAME\\n" + bytes(120)
    True
    """
    with Y4mWriter(file, header) as writer:
        for planes in frames:
            writer.write(planes)


class Y4mWriter:
    """Writes a stream frame by frame, as `write_y4m` does. It is a context manager: at the end of the block the file replaces the
    target. If the block ends with an exception, the target is unchanged. Any number of threads may write to one writer: each frame is
    written as a whole, in the order of the calls.

    >>> import io
    >>> stream = io.BytesIO()
    >>> with Y4mWriter(stream, Header(120, 1, "mono")) as writer:
    ...     writer.write([Plane(bytes(120), 120, 1)])
    >>> len(stream.getvalue())
    150
    """

    def __init__(self, file: File, header: Header) -> None:
        if not isinstance(header, Header):
            raise Y4mError(f"header is of type {type(header).__name__}, and has to be a Header")
        # A header of its own, which nobody changes meanwhile.
        self._header, self._line, self._sizes = replace(header), header.line(), header.sizes()
        self._file: Any = file
        self._stream: Any = None
        self._target: Target | None = None
        self._is_broken, self._lock = False, threading.Lock()

    def __enter__(self) -> Y4mWriter:
        if self._file is None:
            raise Y4mError("a writer writes one stream")
        file, self._file = self._file, None
        if isinstance(file, (str, bytes, os.PathLike)):
            self._target = Target(file)
            self._stream = self._target.stream
        else:
            self._stream = writes_bytes(file, Y4mStreamError)
        try:
            if self._target is None or not self._target.is_beside:
                _refuse_what_is_read(self._stream)
            write_all(self._stream, self._line, Y4mStreamError)
        except BaseException:
            self._discard()
            raise
        return self

    def write(self, planes: Frame[Any] | Iterable[AnyPlane]) -> None:
        """Writes a frame: a `Frame`, or its planes. A frame that does not fit the header is rejected, and the next one may be written.
        After any other failure no frame can be written, and the target is unchanged."""
        data = self._frame_data(planes)
        with self._lock:
            if self._stream is None:
                raise Y4mError("the writer is not open: use it as a context manager")
            if self._is_broken:
                raise Y4mError("an earlier frame could not be written")
            self._is_broken = True
            write_all(self._stream, b"FRAME\n" + data, Y4mStreamError)
            self._is_broken = False

    def __exit__(self, kind: type[BaseException] | None, error: BaseException | None, traceback: TracebackType | None) -> None:
        if kind is not None or self._is_broken:
            self._discard()
            if kind is None:
                raise Y4mError("a frame could not be written")
            return
        target, self._stream, self._target = self._target, None, None
        if target is not None:
            target.keep()

    def _discard(self) -> None:
        target, self._stream, self._target = self._target, None, None
        if target is not None:
            target.discard()

    def _frame_data(self, planes: Any) -> bytes:
        """The bytes of a frame that fits the header."""
        header = self._header
        size = 1 if header.bit_depth == 8 else 2
        if isinstance(planes, Frame):
            if (planes.format, planes.depth) != (header.format, header.bit_depth):
                raise Y4mError(f"the frame is {planes.depth}-bit {planes.format}, and the header states {header.bit_depth}-bit {header.format}")
            if None not in (planes.range, header.range) and planes.range != header.range:
                raise Y4mError(f"the frame has the range {planes.range!r}, and the header states {header.range!r}")
        try:
            found = tuple(planes)
        except TypeError:
            raise Y4mError(f"a frame is of type {type(planes).__name__}, and has to be its planes") from None
        if len(found) != len(self._sizes):
            raise Y4mError(f"a frame has {len(found)} planes, and the header states {len(self._sizes)}")
        return b"".join(_bytes_of(plane, number, wanted, size) for number, (plane, wanted) in enumerate(zip(found, self._sizes)))


def _file_of(stream: Any) -> tuple[int, int] | None:
    """The numbers of a regular file that a stream has open, and None for others."""
    try:
        about = os.fstat(stream.fileno())
    except (AttributeError, OSError, TypeError, ValueError):
        return None
    return (about.st_dev, about.st_ino) if stat.S_ISREG(about.st_mode) else None


def _refuse_what_is_read(stream: Any) -> None:
    """Rejects a stream that is also read: the file would grow without end."""
    read = {_file_of(it._stream) for it in list(_READ)}
    if _file_of(stream) in read - {None}:
        raise Y4mError("a stream cannot be read and written at once")


def _bytes_of(plane: Any, number: int, wanted: tuple[int, int], size: int) -> bytes:
    """The samples of a plane of a frame as the bytes of a stream."""
    name = f"plane {number} of a frame"
    try:
        if is_array(plane):
            array = plain(plane, name)
            if array.shape[::-1] != wanted or array.dtype != numpy.dtype("uint8" if size == 1 else "uint16"):
                raise Y4mError(f"{name} is an array of {array.dtype} with the shape {array.shape}, and has to be of "
                               f"{'uint8' if size == 1 else 'uint16'} with the shape {wanted[::-1]}")
            return bytes(array.astype("uint8" if size == 1 else "<u2").tobytes())
        with Held(plane, name) as held:
            if (held.rows.width, held.rows.height, held.size) != (*wanted, size):
                raise Y4mError(f"{held} with samples of {held.size} bytes, and has to be {wanted[0]} by {wanted[1]} with samples of {size}")
        return _low_byte_first(plane.tobytes(), size)
    except Y4mError:
        raise
    except Error as error:
        raise Y4mError(str(error)) from error
