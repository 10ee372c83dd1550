"""Tests reading and writing of YUV4MPEG2 streams, with file objects that work or fail: test_streams.py [--without-numpy]"""

import set_up

import io
import os
import tempfile
import unittest
from unittest import mock

import v_frame
from rooms import GOOD, HEADER, LINE, OTHER, Room, frames_of
from v_frame import Frame, Plane, StreamError, write_png, y4m


class Streams(unittest.TestCase):
    LINE = b"YUV4MPEG2 W3 H3 F30000:1001 Ip A1:1 C420p10"

    def test_a_stream_is_read_and_written_back(self):
        data = b"".join(b"FRAME\n" + bytes([n, n // 128]) * 9 + bytes([7, 1]) * 4 + bytes([8, 2]) * 4 for n in (1, 200))
        header, frames = y4m.read_y4m(io.BytesIO(self.LINE + b"\n" + data))
        self.assertEqual(header, y4m.Header(3, 3, "420", 10, (30000, 1001), (1, 1), "p", None))
        self.assertEqual(header.sizes(), [(3, 3), (2, 2), (2, 2)])
        frames = list(frames)
        self.assertEqual(v_frame.sse(frames[0][1], frames[0][2]), 4 * (0x208 - 0x107) ** 2)
        self.assertEqual(v_frame.sse(frames[0][0], frames[1][0]), 9 * (0x1C8 - 1) ** 2)
        written = io.BytesIO()
        y4m.write_y4m(written, header, frames)
        self.assertEqual(written.getvalue(), self.LINE + b"\n" + data)

    def test_lax_lines_are_read(self):
        """Nonstandard lines are accepted as in `yuv`. All other errors in a line are reported."""
        data = b"YUV4MPEG2  W2 H1 F25 Cmono \r\nFRAME\r\n\x01\x02FRAME \r\n\x03\x04"
        header, frames = y4m.read_y4m(io.BytesIO(data))
        self.assertEqual(header, y4m.Header(2, 1, "mono", 8, (25, 1)))
        self.assertEqual([frame.y.tobytes() if isinstance(frame.y, Plane) else bytes(frame.y) for frame in frames], [b"\1\2", b"\3\4"])
        for line in (b"YUV4MPEG2 W02 H1", b"YUV4MPEG2 W2 H1\r\r", b"YUV4MPEG2 W2 H1 A1", b"YUV4MPEG2\tW2 H1"):
            self.assertRaises(y4m.Y4mError, y4m.parse_header, line)
        with self.assertRaisesRegex(y4m.Y4mError, "not one that begins a frame"):
            list(y4m.read_y4m(io.BytesIO(b"YUV4MPEG2 W2 H1 Cmono\nFRAME\r\r\n\x01\x02"))[1])

    def test_a_stream_is_written_onto_itself(self):
        data = self.LINE.replace(b"C420p10", b"Cmono") + b"\n" + b"".join(b"FRAME\n" + bytes([n] * 9) for n in range(3))
        with tempfile.TemporaryDirectory() as folder:
            path, link = os.path.join(folder, "a.y4m"), os.path.join(folder, "link.y4m")
            with open(path, "wb") as file:
                file.write(data)
            os.chmod(path, 0o640)
            os.symlink(path, link)
            for target in (path, link):
                header, frames = y4m.read_y4m(path)
                y4m.write_y4m(target, header, frames)
                with open(path, "rb") as file:
                    self.assertEqual(file.read(), data)
                self.assertTrue(os.path.islink(link))
                self.assertEqual(os.stat(path).st_mode & 0o777, 0o640)

            def broken():
                yield [Plane(bytes(9), 3, 3)]
                raise RuntimeError("no frame")

            self.assertRaises(RuntimeError, y4m.write_y4m, path, header, broken())
            self.assertRaises(y4m.Y4mError, y4m.write_y4m, path, header, [[Plane(bytes(4), 2, 2)]])
            with open(path, "rb") as file:
                self.assertEqual(file.read(), data)
            self.assertEqual(sorted(os.listdir(folder)), ["a.y4m", "link.y4m"])

    def test_lines_of_every_color_are_read_back(self):
        for text in ("420", "420jpeg", "420mpeg2", "420paldv", "411", "422", "444", "mono", "420p9", "422p12", "444p16", "mono10"):
            header = y4m.parse_header(b"YUV4MPEG2 W4 H2 C" + text.encode())
            again = y4m.parse_header(header.line()[:-1])
            self.assertEqual(header, again)
        self.assertEqual(y4m.parse_header(b"YUV4MPEG2 W4 H2").siting, "jpeg")

    def test_what_is_refused(self):
        for line, text in ((b"", "not begin with YUV4MPEG2"), (b"YUV4MPEG2 W4", "parameter H is missing"),
                           (b"YUV4MPEG2 W4 H2 H2", "parameter H is repeated"), (b"YUV4MPEG2 W0 H2", "parameter W is 0"),
                           (b"YUV4MPEG2 W4 H2 C4", "color is unknown"), (b"YUV4MPEG2 W4 H2 Z", "parameter is malformed")):
            with self.assertRaisesRegex(y4m.Y4mError, text):
                y4m.parse_header(line)
        start = b"YUV4MPEG2 W2 H1 Cmono\n"
        for data, text in ((b"", None), (b"FRAME\n\1", "expected 2 bytes of a frame, found 1"), (b"FRAM\n", "not one that begins a frame"),
                           (b"FRAME", "inside a line"), (b"FRAME X\n\1\2", None), (b"F" * 2000, "longer than 1024")):
            header, frames = y4m.read_y4m(io.BytesIO(start + data))
            if text is None:
                self.assertEqual(len(list(frames)), len(data) > 0)
            else:
                with self.assertRaisesRegex(y4m.Y4mError, text):
                    list(frames)
        self.assertRaises(y4m.Y4mError, y4m.read_y4m, io.BytesIO(b""))
        self.assertRaises(y4m.Y4mError, y4m.write_y4m, io.BytesIO(), y4m.Header(2, 1, "mono"), [[Plane(b"1", 1, 1)]])


class Writers(Room):
    """File objects that write and read bytes, or fail to do so."""

    def test_writers_that_take_less(self):
        class Slow(io.BytesIO):
            def write(self, data):
                return super().write(bytes(data)[:5])

        class Silent:
            def __init__(self):
                self.data = b""

            def write(self, data):
                self.data += data

        for stream, found in ((Slow(), io.BytesIO.getvalue), (Silent(), lambda it: it.data)):
            y4m.write_y4m(stream, HEADER, frames_of((7, 8)))
            self.assertEqual(found(stream), OTHER)

    def test_writers_that_take_nothing(self):
        class Stuck(io.BytesIO):
            answer, calls = 0, 0

            def write(self, data):
                self.calls += 1
                if self.calls > 99:
                    raise AssertionError("a writer that takes nothing is asked without end")
                return self.answer

        class Waits(io.RawIOBase):
            def writable(self):
                return True

            def write(self, data):
                return None

        closed = open("work/b.y4m", "wb")
        closed.close()
        for answer in (0, -1, 1000, "5", 2.0):
            Stuck.answer = answer
            self.assertRaisesRegex(y4m.Y4mError, "taken|returned", y4m.write_y4m, Stuck(), HEADER, frames_of((7, 8)))
            self.assertRaisesRegex(StreamError, "taken|returned", write_png, Stuck(), Plane(bytes(4), 2, 2))
        for stream in (Waits(), closed, io.StringIO(), 5, None):
            self.assertRaises(y4m.Y4mError, y4m.write_y4m, stream, HEADER, frames_of((7, 8)))
            self.assertRaises(StreamError, write_png, stream, Plane(bytes(4), 2, 2))

    def test_readers(self):
        class Reader:
            def __init__(self, line, data):
                self.line, self.data = line, data

            def readline(self, limit):
                return self.line

            def read(self, count):
                return self.data

        closed = io.BytesIO(GOOD)
        closed.close()
        for stream in (Reader(None, b""), Reader("YUV4MPEG2 W4 H2\n", b""), Reader(5, b""), closed, io.StringIO("YUV4MPEG2 W4 H2\n"), 5, None):
            self.assertRaises(y4m.Y4mError, y4m.read_y4m, stream)
        for data in (None, "text", b"x" * 9999, 5):
            header, frames = y4m.read_y4m(stream := Reader(LINE, data))
            stream.line = b"FRAME\n"
            self.assertRaises(y4m.Y4mError, list, frames)

    def test_a_writer_frame_by_frame(self):
        with y4m.Y4mWriter("work/a.y4m", HEADER) as writer:
            writer.write(frames_of((7,))[0])
            self.assertHas("work/a.y4m", GOOD)
            # A frame that is rejected is not written, and the next one is.
            self.assertRaises(y4m.Y4mError, writer.write, frames_of((7,))[0][:2])
            writer.write(Frame(frames_of((8,))[0]))
        self.assertHas("work/a.y4m", OTHER)
        self.assertRaises(y4m.Y4mError, writer.write, frames_of((7,))[0])
        self.assertRaises(y4m.Y4mError, writer.__enter__)
        self.assertRaises(y4m.Y4mError, y4m.Y4mWriter("work/a.y4m", HEADER).write, frames_of((7,))[0])
        self.assertHas("work/a.y4m", OTHER)

    def test_a_writer_whose_stream_is_lost(self):
        def goes_on(name):
            with y4m.Y4mWriter(name, HEADER) as writer:
                with mock.patch.object(y4m, "write_all", side_effect=OSError(28, "full")):
                    self.assertRaises(OSError, writer.write, frames_of((7,))[0])
                self.assertRaises(y4m.Y4mError, writer.write, frames_of((7,))[0])

        self.fails(y4m.Y4mError, goes_on, "could not be written")

    def test_a_header_is_taken_as_it_is_at_first(self):
        header = y4m.Header(4, 2, "420", siting="mpeg2")
        with y4m.Y4mWriter("work/a.y4m", header) as writer:
            header.width, header.format, header.bit_depth = 8, "mono", 10
            writer.write(frames_of((7,))[0])
            writer.write(Frame(frames_of((8,))[0]))
        self.assertHas("work/a.y4m", OTHER)
        header, frames = y4m.read_y4m("work/a.y4m")
        header.width, header.format, header.bit_depth = 8, "mono", 10
        self.assertEqual([(it.width, it.format, it.depth) for it in frames], [(4, "420", 8)] * 2)


if __name__ == "__main__":
    set_up.main()
