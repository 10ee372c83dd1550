"""Files that are written beside their target, and replace it when they are whole."""

from __future__ import annotations

import errno
import os
import re
import stat
import sys
from io import RawIOBase, TextIOBase
from typing import Any, BinaryIO

from ._errors import StreamError

#: How many symbolic links may lead from a name to its file, and how many names are tried for the file beside a target.
MOST_LINKS, MOST_NAMES = 40, 100
_OWN = getattr(os, "O_CLOEXEC", 0) | getattr(os, "O_BINARY", 0)


class Target:
    """A file that is open for writing in place of a target. `keep` puts it there; `discard` leaves the target as it was.

    A device or a pipe is opened itself, and so is what is open already, by a name as `/dev/stdout`: it is written as it is.
    """

    stream: BinaryIO

    def __init__(self, name: str | bytes | os.PathLike[str] | os.PathLike[bytes]) -> None:
        path = os.fsdecode(name)
        about: os.stat_result | None = None
        missing: FileNotFoundError | None = None
        try:
            about = os.stat(path)
        except FileNotFoundError as error:
            missing = error
        self._target = _led_to(path)
        self._partial: str | None = None
        if missing is not None and not os.path.basename(self._target):
            raise missing
        if _is_open_already(self._target):
            self.stream = _opened_again(self._target)
        elif about is not None and not stat.S_ISREG(about.st_mode):
            self.stream = open(self._target, "wb")
        else:
            self._create_beside(about)

    @property
    def is_beside(self) -> bool:
        """Whether the file is a new one beside the target."""
        return self._partial is not None

    def _create_beside(self, about: os.stat_result | None) -> None:
        """Opens a new file beside the target, with the permissions of what stands there, which has to be one that may be written."""
        if about is not None:
            os.close(os.open(self._target, os.O_WRONLY | _OWN))
        mode = 0o666 if about is None else about.st_mode & 0o777
        descriptor, self._partial = _new_file(self._target, mode)
        try:
            if about is not None:
                os.chmod(self._partial, stat.S_IMODE(about.st_mode))
            self.stream = os.fdopen(descriptor, "wb")
        except BaseException:
            os.close(descriptor)
            os.unlink(self._partial)
            raise

    def keep(self) -> None:
        """Replaces the target by the file, when all of it is on the disk."""
        try:
            with self.stream:
                self.stream.flush()
                if self._partial is not None:
                    os.fsync(self.stream.fileno())
            if self._partial is not None:
                os.replace(self._partial, self._target)
        except BaseException:
            self.discard()
            raise

    def discard(self) -> None:
        """Removes the file beside the target."""
        try:
            self.stream.close()
        except OSError:
            pass  # What could not be written is what is removed.
        if self._partial is not None:
            try:
                os.unlink(self._partial)
            except FileNotFoundError:
                pass


def _is_open_already(name: str) -> bool:
    """Whether a name is one that the system has for what a process has open: who has it open goes on with that very file."""
    return name.startswith(("/proc/", "/dev/fd/"))


def _led_to(name: str) -> str:
    """The name that a name leads to through symbolic links, whether there is a file or not."""
    for _ in range(MOST_LINKS + 1):
        folder, last = os.path.split(name)
        name = os.path.join(os.path.realpath(folder or os.curdir), last)
        if _is_open_already(name):
            return name
        try:
            link = os.readlink(name)
        except OSError:
            return name  # It is no link, or there is nothing.
        name = os.path.join(os.path.dirname(name), link)
    raise OSError(errno.ELOOP, os.strerror(errno.ELOOP), name)


def _opened_again(name: str) -> BinaryIO:
    """What is open already: at the place where its descriptor stands, and behind what was printed to it."""
    own = re.fullmatch(rf"(?:/proc/{os.getpid()}(?:/task/\d+)?|/dev)/fd/(\d+)", name)
    if own is None:
        return os.fdopen(os.open(name, os.O_WRONLY | _OWN), "wb")
    for stream in (sys.stdout, sys.stderr):
        try:
            if stream.fileno() == int(own[1]):
                stream.flush()
        except (AttributeError, OSError, ValueError):
            pass  # There is no such stream, or it has no descriptor.
    return os.fdopen(os.dup(int(own[1])), "wb")


def _new_file(target: str, mode: int) -> tuple[int, str]:
    """A new file beside a target: with the target's name and an ending, and a number where there is such a file already."""
    for number in range(MOST_NAMES):
        partial = f"{target}.partial{number or ''}"
        try:
            return os.open(partial, os.O_WRONLY | os.O_CREAT | os.O_EXCL | _OWN, mode), partial
        except FileExistsError:
            pass
    raise FileExistsError(errno.EEXIST, os.strerror(errno.EEXIST), partial)


def writes_bytes(stream: Any, fault: type[StreamError] = StreamError) -> Any:
    """A stream that writes bytes."""
    if getattr(stream, "closed", False) or isinstance(stream, TextIOBase) or not hasattr(stream, "write"):
        raise fault(f"the stream, of type {type(stream).__name__}, is closed or does not write bytes")
    return stream


def write_all(stream: Any, data: bytes, fault: type[StreamError] = StreamError) -> None:
    """Writes all bytes, also to an unbuffered stream, which may take fewer at once."""
    rest = memoryview(data)
    while rest:
        taken = stream.write(rest)
        # A stream of the system that does not wait says None where it took nothing; others may say it where they took all.
        if taken is None and not isinstance(stream, RawIOBase):
            return
        if not isinstance(taken, int) or not 0 < taken <= len(rest):
            raise fault("the stream has taken no bytes" if taken in (0, None) else f"the stream returned {taken!r} for {len(rest)} bytes")
        rest = rest[taken:]
