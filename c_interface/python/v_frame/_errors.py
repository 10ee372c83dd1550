"""The module's errors, and the tests of numbers that come from its users."""

from __future__ import annotations

import ctypes
import operator
from collections.abc import Sequence
from typing import Any, SupportsIndex, Union

#: A size is below this number: a larger one would be cut off on its way into the library.
LIMIT = 1 << 8 * ctypes.sizeof(ctypes.c_size_t)


class Error(Exception):
    """The base class of this module's errors. Each of them also has one of Python's own classes as a base."""


class RowsError(Error, ValueError):
    """The rows of a plane do not fit its buffer: a size is 0, the stride is below the width, or the last row ends past the end of
    the buffer."""


class SizesError(Error, ValueError):
    """The sizes of planes are not those that the call requires, or are too large for a new plane."""


class NumberError(Error, ValueError):
    """A number or a name is out of its range: a bit depth, a ratio, a weight, a sample, a format or another choice."""


class KindError(Error, TypeError):
    """An argument is of another type than the call takes: it is not a plane, has samples of another size, or is not a whole
    number."""


class AccessError(Error, BufferError):
    """The samples cannot be used where they are: they are read-only, are not next to each other in a row, or have odd
    addresses."""


class StatusError(Error, RuntimeError):
    """The library has returned a status that this module does not know."""


class StreamError(Error, ValueError):
    """An object that is to write bytes is closed, does not write bytes, or has not taken all of them."""


class Y4mError(Error, ValueError):
    """A YUV4MPEG2 stream is malformed, ends inside a frame, or cannot be written: its header has no line, a frame does not fit
    the header, or the object that is to write does not take the bytes."""


class Y4mStreamError(Y4mError, StreamError):
    """The object that a YUV4MPEG2 stream is written to is closed, does not write bytes, or has not taken all of them."""


#: What is taken for a whole number: an int, or another type that has `__index__`, such as numpy's integers.
Whole = Union[int, SupportsIndex]


def shown(value: Any) -> str:
    """A value as an error shows it. Python does not print numbers of more than some thousands of digits."""
    try:
        return repr(value)
    except ValueError:
        return f"a number of {value.bit_length()} bits"


def whole(value: Any, what: str) -> int:
    """A whole number of any of Python's or numpy's types."""
    try:
        return operator.index(value)
    except TypeError:
        raise KindError(f"{what} is {shown(value)} of type {type(value).__name__}, and has to be a whole number") from None


def within(value: Any, what: str, least: int, most: int) -> int:
    """A whole number from the least to the most."""
    number = whole(value, what)
    if not least <= number <= most:
        raise NumberError(f"{what} is {shown(number)}, and has to be {least}" + (f" to {most}" if least != most else ""))
    return number


def sizes(error: type[Error] = RowsError, least: int = 0, **named: Any) -> list[int]:
    """Whole numbers that the library takes as sizes, by the names of their parameters."""
    numbers = [whole(value, name) for name, value in named.items()]
    for name, number in zip(named, numbers):
        if number < least:
            raise error(f"{name} is {shown(number)}, and has to be at least {least}")
        if number >= LIMIT:
            raise error(f"{name} is {shown(number)}, which is too large for this machine")
    return numbers


def chosen(name: Any, known: Sequence[str | None], what: str) -> int:
    """The number of a name among those that are known."""
    if not isinstance(name, str) or name not in known:
        raise NumberError(f"{what} is {shown(name)}, and has to be one of {', '.join(map(repr, known))}")
    return known.index(name)
