"""A test case with a temporary folder that contains a stream, and functions that create frames."""

import os
import tempfile
import unittest

from v_frame import Plane, y4m

HEADER = y4m.Header(4, 2, "420", siting="mpeg2")
LINE = b"YUV4MPEG2 W4 H2 C420mpeg2\n"
NOBODY = 65534


def stream_of(numbers):
    """Returns a stream in which all samples of each frame are one of these numbers."""
    return LINE + b"".join(b"FRAME\n" + bytes([it] * 12) for it in numbers)


def frames_of(numbers):
    return [[Plane(bytes([it] * 8), 4, 2), Plane(bytes([it] * 2), 2, 1), Plane(bytes([it] * 2), 2, 1)] for it in numbers]


GOOD, OTHER = stream_of((1, 2, 3)), stream_of((7, 8))


class Room(unittest.TestCase):
    """Creates a folder with a stream for each test. Tests run as the user nobody, because an error could otherwise replace a device."""

    as_nobody = True

    def setUp(self):
        folder = tempfile.TemporaryDirectory()
        self.addCleanup(folder.cleanup)
        before, umask = os.getcwd(), os.umask(0o022)
        self.addCleanup(os.umask, umask)
        self.addCleanup(os.chdir, before)
        os.chmod(folder.name, 0o777)
        os.chdir(folder.name)
        if self.as_nobody and os.geteuid() == 0:
            os.seteuid(NOBODY)
            self.addCleanup(os.seteuid, 0)
        os.mkdir("work")
        self.put("work/a.y4m", GOOD)

    def put(self, name, data):
        with open(name, "wb") as file:
            file.write(data)

    def assertHas(self, name, data):
        with open(name, "rb") as file:
            self.assertEqual(file.read(), data)

    def assertNothingBeside(self):
        self.assertEqual([it for it in os.listdir("work") if "partial" in it], [])

    def fails(self, error, write, words=""):
        """A write that fails leaves the target unchanged, and creates no file if there was none."""
        before = sorted(os.listdir("work"))
        for name in ("work/a.y4m", "work/new.y4m"):
            with self.assertRaisesRegex(error, words):
                write(name)
            self.assertHas("work/a.y4m", GOOD)
            self.assertEqual(sorted(os.listdir("work")), before)
