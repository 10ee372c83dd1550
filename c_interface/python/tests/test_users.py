"""Tests typical uses: ranges and extensions of streams, errors that name the parameter, threads, and arrays of other classes:
test_users.py [--without-numpy]"""

import set_up
from set_up import numpy

import colorsys
import io
import itertools
import os
import re
import subprocess
import sys
import tempfile
import threading
import unittest

import v_frame
from v_frame import AccessError, Frame, KindError, NumberError, Plane, RowsError, SizesError, StreamError, y4m


def bytes_of(plane):
    """Returns the samples of a plane or of an array."""
    return plane.tobytes()


def stream_of(parameters, *frames):
    return b"YUV4MPEG2 " + parameters + b"\n" + b"".join(b"FRAME\n" + bytes(it) for it in frames)


def color(y, cb, cr, is_full):
    """Returns the 8-bit color of 8-bit BT.709 samples, by the formulas of ITU-R BT.709-6 in floating point."""
    luma, scale = (y / 255, 255) if is_full else ((y - 16) / 219, 224)
    blue, red = (cb - 128) / scale, (cr - 128) / scale
    r, b = luma + 2 * (1 - 0.2126) * red, luma + 2 * (1 - 0.0722) * blue
    g = (luma - 0.2126 * r - 0.0722 * b) / 0.7152
    return [min(max(255 * it, 0), 255) for it in (r, g, b)]


class Ranges(unittest.TestCase):
    TEXTS = {None: b"", "full": b" XCOLORRANGE=FULL", "limited": b" XCOLORRANGE=LIMITED"}

    def test_a_copied_stream_keeps_its_line(self):
        for range, others in itertools.product(self.TEXTS, (b"", b" Xa=1", b" XYSCSS=444 X", b" X\xff\xfe Xb")):
            data = stream_of(b"W1 H1 F25:1 Ip A1:1 C444" + self.TEXTS[range] + others, (1, 2, 3), (4, 5, 6))
            header, frames = y4m.read_y4m(io.BytesIO(data))
            self.assertEqual((header.range, header.extensions), (range, tuple(it[1:] for it in others.split())))
            stream = io.BytesIO()
            y4m.write_y4m(stream, header, frames)
            self.assertEqual(stream.getvalue(), data)

    def test_what_states_no_range(self):
        for text in (b"XCOLORRANGE=full", b"XCOLORRANGE=FULL XCOLORRANGE=LIMITED", b"XCOLORRANGE=FULL2"):
            line = b"YUV4MPEG2 W1 H1 C444 " + text
            header = y4m.parse_header(line)
            self.assertEqual((header.range, header.line()), (None, line + b"\n"))

    def test_the_range_of_a_stream_is_that_of_its_colors(self):
        samples = [(y, cb, cr) for y in (0, 16, 81, 145, 235, 255) for cb in (16, 90, 128, 240) for cr in (16, 128, 200, 240)]
        for range, text in self.TEXTS.items():
            data = stream_of(b"W%d H1 C444" % len(samples) + text, [it for plane in zip(*samples) for it in plane])
            [frame] = y4m.read_y4m(io.BytesIO(data))[1]
            self.assertEqual(frame.range, range)
            found = bytes_of(frame.to_rgb())
            for number, sample in enumerate(samples):
                for value, wanted in zip(found[3 * number:], color(*sample, range == "full")):
                    self.assertLessEqual(abs(value - wanted), 0.52, (sample, range))
            self.assertEqual(bytes_of(frame.to_rgb(range="full")), bytes_of(frame.convert().to_rgb(range="full")))
            self.assertEqual(frame.convert("420", 10).range, range)

    def test_colors_make_a_frame_of_their_range(self):
        colors = Plane(bytes(int(255 * it) for hue in range(8) for it in colorsys.hsv_to_rgb(hue / 8, 1, 1)), 24, 1, channels=3)
        for name in ("full", "limited"):
            frame = Frame.from_rgb(colors, "444", range=name)
            self.assertEqual(frame.range, name)
            for found, wanted in zip(bytes_of(frame.to_rgb()), bytes_of(colors)):
                self.assertLessEqual(abs(found - wanted), 3)

    def test_a_frame_of_the_other_range_is_not_written(self):
        frame = Frame([Plane(bytes(1), 1, 1)], "mono", range="full")
        for range, is_taken in ((None, True), ("full", True), ("limited", False)):
            with y4m.Y4mWriter(io.BytesIO(), y4m.Header(1, 1, "mono", range=range)) as writer:
                if is_taken:
                    writer.write(frame)
                else:
                    self.assertRaisesRegex(y4m.Y4mError, "'full'.*'limited'", writer.write, frame)
        self.assertRaises(NumberError, Frame, [Plane(bytes(1), 1, 1)], "mono", range="tv")

    def test_extensions_that_no_line_has(self):
        for extensions in ((b"a b",), (b"a\n",), ("a",), b"a", 5, (b"COLORRANGE=LIMITED",)):
            self.assertRaises(y4m.Y4mError, y4m.Header, 4, 2, range="full", extensions=extensions)
        self.assertRaises(y4m.Y4mError, y4m.Header, 4, 2, extensions=(b"COLORRANGE=FULL",))
        self.assertRaises(y4m.Y4mError, y4m.Header, 4, 2, range="tv")
        header = y4m.Header(4, 2, siting="mpeg2", extensions=(b"YSCSS=420MPEG2", b"a"))
        self.assertEqual(header.with_format("422").extensions, (b"a",))
        self.assertEqual(header.with_format().extensions, header.extensions)

    def test_ffmpeg_finds_the_same_colors(self):
        import shutil
        if not shutil.which("ffmpeg"):
            self.skipTest("there is no ffmpeg")
        with tempfile.TemporaryDirectory() as folder:
            for range, text in self.TEXTS.items():
                data = stream_of(b"W16 H16 F25:1 C444" + text, [it for plane in range_of_samples() for it in plane])
                [frame] = y4m.read_y4m(io.BytesIO(data))[1]
                name = os.path.join(folder, "a.y4m")
                with open(name, "wb") as file:
                    file.write(data)
                command = ["ffmpeg", "-v", "error", "-i", name, "-vf", "scale=in_color_matrix=bt709:flags=accurate_rnd+full_chroma_int", "-pix_fmt",
                           "rgb24", "-f", "rawvideo", "-"]
                wanted = subprocess.run(command, capture_output=True, check=True).stdout
                found = bytes_of(frame.to_rgb())
                self.assertLessEqual(max(abs(p - q) for p, q in zip(found, wanted, strict=True)), 2)


def range_of_samples():
    """Returns the planes of a frame of 16x16 pixels in which all three components vary."""
    places = [(x, y) for y in range(16) for x in range(16)]
    return [[16 + 13 * x for x, _ in places], [64 + 8 * y for _, y in places], [64 + 4 * (x + y) for x, y in places]]


class Messages(unittest.TestCase):
    """Each error names the parameter, the value that was given, and the values that are allowed."""

    def test_messages(self):
        small, large, short = Plane(bytearray(4), 2, 2), Plane(bytearray(6), 3, 2), Plane(bytes(5), 3, 2)
        words = Plane(bytearray(8), 2, 2, sample_size=2)
        for kind, parts, call in (
                (RowsError, ("source", "3 by 2", "6", "5"), lambda: v_frame.copy(short, large)),
                (RowsError, ("target", "3 by 2", "6", "5"), lambda: v_frame.copy(large, short_to_write())),
                (RowsError, ("b", "stride is 2", "width 3"), lambda: v_frame.sse(large, Plane(bytes(9), 3, 2, 2))),
                (RowsError, ("planes[1]", "0 by 1"), lambda: Frame([small, Plane(b"", 0, 1), small])),
                (SizesError, ("a is 2 by 2", "b is 3 by 2"), lambda: v_frame.psnr(small, large)),
                (SizesError, ("target is 3 by 2", "source is 2 by 2"), lambda: v_frame.copy(small, large)),
                (SizesError, ("source is 3 by 2", "even"), lambda: v_frame.half(large)),
                (SizesError, ("planes[2]", "2 by 2", "1 by 1", "'420'"), lambda: Frame([small, Plane(bytes(1), 1, 1), small])),
                (SizesError, ("planes has 2", "3"), lambda: Frame([small, small])),
                (SizesError, ("uv is 3 by 2", "2 by 1"), lambda: Frame.from_semi_planar(small, large)),
                (SizesError, ("a is 2 by 2", "8 by 8"), lambda: v_frame.ssim(small, small)),
                (KindError, ("a has samples of 1 bytes", "b of 2"), lambda: v_frame.sad(small, words)),
                (KindError, ("source", "list", "Plane"), lambda: v_frame.half([1, 2])),
                (KindError, ("depth", "8 to 16"), lambda: v_frame.psnr(words, words)),
                (KindError, ("mask", "2 bytes"), lambda: v_frame.blend_with_mask(small, words, Plane(bytearray(4), 2, 2))),
                (KindError, ("width", "2.5", "float"), lambda: Plane(bytes(4), 2.5, 2)),
                (NumberError, ("depth is 9", "8"), lambda: v_frame.psnr(small, small, 9)),
                (NumberError, ("how", "'left'", "'rotate_90'"), lambda: v_frame.turn(small, "left")),
                (NumberError, ("weight is 257", "0 to 256"), lambda: v_frame.blend(small, small, 257)),
                (NumberError, ("format", "'I420'", "'420'"), lambda: v_frame.lay_out(4, 4, "I420")),
                (RowsError, ("padding is -1", "0"), lambda: v_frame.lay_out(4, 4, padding=-1)),
                (NumberError, ("sample is 256", "0 to 255"), lambda: v_frame.fill(small, 256)),
                (y4m.Y4mError, ("format", "'I420'", "'420'"), lambda: y4m.Header(64, 48, "I420")),
                (y4m.Y4mError, ("0 by 48", "1 by 1"), lambda: y4m.Header(0, 48)),
                (y4m.Y4mError, ("'411'", "10 bits"), lambda: y4m.Header(64, 48, "411", 10)),
                (y4m.Y4mError, ("siting", "'jpeg'", "10-bit"), lambda: y4m.Header(64, 48, "420", 10, siting="jpeg")),
                (AccessError, ("target",), lambda: v_frame.fill(Plane(bytes(4), 2, 2), 1)),
        ):
            with self.assertRaises(kind) as caught:
                call()
            for part in parts:
                self.assertIn(part, str(caught.exception))

    def test_a_png_is_no_stream(self):
        closed = io.BytesIO()
        closed.close()
        with self.assertRaises(StreamError) as caught:
            v_frame.write_png(closed, Plane(bytes(1), 1, 1))
        self.assertNotIsInstance(caught.exception, y4m.Y4mError)
        with self.assertRaises(y4m.Y4mError) as caught:
            y4m.write_y4m(closed, y4m.Header(1, 1, "mono"), [])
        self.assertIsInstance(caught.exception, StreamError)


def short_to_write():
    return Plane(bytearray(5), 3, 2)


class Pictures(unittest.TestCase):
    def test_colors_are_written_as_colors(self):
        gray = Plane(bytes([10, 20]), 2, 1)
        for order, kind in (("rgb", 2), ("rgba", 6)):
            found = v_frame.rgb(gray, gray, gray, order=order)
            self.assertEqual(found.channels, len(order))
            data = v_frame.png_bytes(found)
            self.assertEqual((int.from_bytes(data[16:20], "big"), data[25]), (2, kind))
            self.assertRaises(SizesError, v_frame.yuv, found, order="rgb" if order == "rgba" else "rgba")
        self.assertEqual(v_frame.png_bytes(gray)[25], 0)
        for channels in (0, 2, 5):
            self.assertRaises(NumberError, Plane, bytes(6), 6, 1, channels=channels)

    def test_what_numpy_reads_of_a_plane(self):
        found = Plane(bytes(24), 3, 3, 4, 2).__array_interface__
        self.assertEqual((found["shape"], found["strides"], found["typestr"][1:], len(found["data"])), ((3, 3), (8, 2), "u2", 24))
        with self.assertRaises(RowsError):
            Plane(bytes(4), 3, 2).__array_interface__

    def test_samples_above_the_depth_saturate(self):
        """As in `convert`, 1024 in 10 bits becomes 1023, which is 65472 in the top bits of a word."""
        def words(*values):
            return Plane(bytearray(b"".join(it.to_bytes(2, sys.byteorder) for it in values)), len(values), 1, sample_size=2)
        frame = Frame([words(1023, 1024, 65535, 5), words(1024, 0), words(2000, 1)], "422", 10)
        y, uv = frame.to_semi_planar()
        self.assertEqual(memoryview(y.buffer).cast("H").tolist(), [65472, 65472, 65472, 320])
        self.assertEqual(memoryview(uv.buffer).cast("H").tolist(), [65472, 65472, 0, 64])


class Threads(unittest.TestCase):
    def test_one_iterator_and_one_writer(self):
        count, size = 200, 500
        data = stream_of(b"W%d H1 Cmono" % size, *([number] * size for number in range(count)))
        header, frames = y4m.read_y4m(io.BytesIO(data))
        stream, failures = io.BytesIO(), []

        def work(writer):
            try:
                for frame in frames:
                    writer.write(frame)
            except BaseException as error:
                failures.append(error)

        interval = sys.getswitchinterval()
        sys.setswitchinterval(1e-6)
        try:
            with y4m.Y4mWriter(stream, header) as writer:
                threads = [threading.Thread(target=work, args=(writer,)) for _ in range(4)]
                for it in threads:
                    it.start()
                for it in threads:
                    it.join()
        finally:
            sys.setswitchinterval(interval)
        self.assertEqual(failures, [])
        found = sorted(bytes_of(frame.y) for frame in y4m.read_y4m(io.BytesIO(stream.getvalue()))[1])
        self.assertEqual(found, [bytes([number] * size) for number in range(count)])

    def test_calls_over_the_same_planes(self):
        a, b = Plane(bytes(range(256)) * 40, 128, 80), Plane(bytes(range(255, -1, -1)) * 40, 128, 80)
        wanted, found = (v_frame.sse(a, b), v_frame.ssim(a, b), v_frame.half(a).tobytes()), []

        def work():
            found.extend((v_frame.sse(a, b), v_frame.ssim(a, b), v_frame.half(a).tobytes()) for _ in range(50))

        threads = [threading.Thread(target=work) for _ in range(6)]
        for it in threads:
            it.start()
        for it in threads:
            it.join()
        self.assertEqual(found, [wanted] * 300)

    def test_with(self):
        with tempfile.TemporaryDirectory() as folder:
            name = os.path.join(folder, "a.y4m")
            y4m.write_y4m(name, y4m.Header(1, 1, "mono"), [[Plane(b"a", 1, 1)], [Plane(b"b", 1, 1)]])
            with y4m.read_y4m(name)[1] as frames:
                self.assertEqual(bytes_of(next(frames).y), b"a")
                stream = frames._stream
            self.assertTrue(stream.closed)
            self.assertEqual(list(frames), [])


class Arrays(unittest.TestCase):
    def setUp(self):
        if numpy is None:
            self.skipTest("there is no numpy")

    def test_a_subclass_cannot_say_another_shape(self):
        class Lying(numpy.ndarray):
            """An array with the memory of 4x4 samples and a false shape."""
            shape = property(lambda self: (1 << 20, 1 << 20))
            strides = property(lambda self: (1 << 20, 1))
            ndim = property(lambda self: 2)
            size = property(lambda self: 1 << 40)
            dtype = property(lambda self: numpy.dtype("uint8"))
            ctypes = property(lambda self: self)
            data = property(lambda self: 0)

            def astype(self, *_, **__):
                return self

            def tobytes(self, *_, **__):
                return bytes(1)

            def view(self, *_, **__):
                return self

        plain = numpy.arange(16, dtype="uint8").reshape(4, 4)
        lying = numpy.ndarray.view(plain.copy(), Lying)
        self.assertEqual(v_frame.sse(lying, plain), 0)
        self.assertEqual(v_frame.statistics(lying).count, 16)
        self.assertEqual(bytes_of(v_frame.half(lying)), bytes_of(v_frame.half(plain)))
        self.assertEqual(v_frame.png_bytes(lying), v_frame.png_bytes(plain))
        v_frame.fill(lying, 7)
        self.assertEqual(v_frame.statistics(lying).sum, 112)
        stream = io.BytesIO()
        y4m.write_y4m(stream, y4m.Header(4, 4, "mono"), [[lying]])
        self.assertEqual(stream.getvalue()[-16:], bytes([7] * 16))
        deep = numpy.ndarray.view(numpy.zeros((4, 4, 3), "uint8"), Lying)
        self.assertEqual([it.shape for it in v_frame.yuv(deep)], [(4, 4)] * 3)
        wide = numpy.ndarray.view(numpy.zeros((4, 4), "uint16"), Lying)
        self.assertRaises(KindError, v_frame.sse, wide, plain)

    def test_masked_arrays_are_rejected(self):
        import numpy.ma
        masked = numpy.ma.masked_array(numpy.zeros((4, 4), "uint8"), mask=numpy.eye(4))
        self.assertRaisesRegex(KindError, "masked", v_frame.statistics, masked)
        self.assertRaisesRegex(KindError, "masked", v_frame.png_bytes, masked)
        self.assertRaisesRegex(y4m.Y4mError, "masked", y4m.write_y4m, io.BytesIO(), y4m.Header(4, 4, "mono"), [[masked]])

    def test_messages(self):
        plane = numpy.zeros((4, 6), "uint8")
        for array, kind, words in (
                (plane[::-1], AccessError, "a are -6 bytes apart"), (plane[:, ::2], AccessError, "of a are 2 bytes apart"),
                (numpy.broadcast_to(plane[:1], (4, 6)), RowsError, "of a overlap"), (plane.astype("float32"), KindError, "a is an array of float32"),
                (plane.astype("int32"), KindError, "a is an array of int32"), (plane[0], KindError, "a is an array of 1 dimensions"),
                (plane.astype("uint16").astype(">u2" if sys.byteorder == "little" else "<u2"), KindError, "a is an array of [<>]u2|uint16")):
            self.assertRaisesRegex(kind, words, v_frame.sse, array, plane)

    def test_an_array_over_a_plane(self):
        for size in (1, 2):
            memory = bytearray(range(24))
            plane = Plane(memory, 3, 3, 4, size) if size == 1 else Plane(memory, 3, 3, 4, 2)
            array = numpy.asarray(plane)
            self.assertEqual((array.shape, array.dtype), ((3, 3), numpy.dtype("uint8" if size == 1 else "uint16")))
            self.assertEqual(array.tobytes(), plane.tobytes())
            array[1, 2] = 77
            self.assertEqual(numpy.asarray(plane)[1, 2], 77)
        self.assertFalse(numpy.asarray(Plane(bytes(4), 2, 2)).flags.writeable)


if __name__ == "__main__":
    set_up.main()
