"""Tests the errors of the module, and that a failed call changes nothing: test_refusals.py [--without-numpy]"""

import set_up

import ctypes.util
import inspect
import io
import itertools
import math
import mmap
import os
import pathlib
import shutil
import subprocess
import sys
import tempfile
import unittest
from unittest import mock

import v_frame
from v_frame import Error, Frame, KindError, NumberError, Plane, RowsError, SizesError, _errors, _headers, _library, y4m

numpy = set_up.numpy


class Headers(unittest.TestCase):
    GOOD = y4m.Header(4, 2, "420", 8, (25, 1), (1, 1), "p", "mpeg2")
    WRONG = {
        "format": ("410", "", "420p10", None, 5, ["420"], "411\n"),
        "bit_depth": (0, 7, 11, 17, -8, 8.0, "8", None, 264, 8 + (1 << 32)),
        "interlacing": ("x", "", "p\nFRAME", "pp", 1, b"p", ["p"]),
        "siting": ("zz", "", "mpeg2 W9", 1, b"jpeg"),
        "width": (0, -1, 4.5, 4.0, "4", None, 1 << 64, (1 << 64) + 4, 10 ** 1100),
        "height": (0, -1, 4.5, 4.0, "4", None, 1 << 64, 10 ** 1100),
        "frame_rate": ((1,), (1, 2, 3), 25, "25:1", (25.0, 1), (-1, 1), (1 << 64, 1), (1, 10 ** 1100), (10 ** 5000, 1), (None, 1), ()),
        "pixel_aspect": ((1,), 1.0, "11:1", (1, "1"), (1, -1), (10 ** 1100, 1)),
    }

    def set(self, **words):
        """Returns a header whose fields were changed after its creation. A header cannot be created with these fields."""
        self.assertRaises(y4m.Y4mError, y4m.Header, **{**vars(self.GOOD), **words})
        header = y4m.Header(**vars(self.GOOD))
        for name, value in words.items():
            setattr(header, name, value)
        return header

    def headers(self):
        for name, values in self.WRONG.items():
            for value in values:
                yield self.set(**{name: value})
        yield self.set(format="411", bit_depth=10, siting=None)
        for depth in self.WRONG["bit_depth"]:
            yield self.set(format="444", bit_depth=depth, siting=None)
        # Only 8-bit 4:2:0 has a siting. No other header is written without its siting.
        for format, depth in (("420", 10), ("422", 8), ("444", 8), ("mono", 8), ("411", 8), ("444", 16)):
            yield self.set(format=format, bit_depth=depth, siting="jpeg")
        yield from (None, "YUV4MPEG2 W4 H2", b"YUV4MPEG2 W4 H2", 5)

    def test_headers_that_have_no_line(self):
        with tempfile.TemporaryDirectory() as folder:
            names = [os.path.join(folder, it) for it in ("good.y4m", "new.y4m")]
            with open(names[0], "wb") as file:
                file.write(b"good")
            for header in self.headers():
                begun, stream = [], io.BytesIO()
                frames = (begun.append(it) for it in range(3))
                for file in (*names, stream):
                    with mock.patch("builtins.open", side_effect=AssertionError("opened")), \
                            mock.patch("os.open", side_effect=AssertionError("opened")):
                        self.assertRaises(y4m.Y4mError, y4m.write_y4m, file, header, frames)
                if isinstance(header, y4m.Header):
                    self.assertRaises(y4m.Y4mError, header.line)
                    self.assertRaises(y4m.Y4mError, header.frame_bytes)
                self.assertEqual((begun, stream.getvalue(), os.listdir(folder)), ([], b"", ["good.y4m"]))
                with open(names[0], "rb") as file:
                    self.assertEqual(file.read(), b"good")

    def test_each_line_is_read_back(self):
        ratios = (None, (0, 0), (25, 1), (2 ** 64 - 1, 1001))
        written = 0
        for format, depth, siting, interlacing, ratio in itertools.product(
                (*v_frame.FORMATS, "410"), range(7, 18), _headers.SITINGS, (*_headers.INTERLACINGS, "x"), ratios):
            stream = io.BytesIO()
            try:
                header = y4m.Header(5, 3, format, depth, ratio, ratio, interlacing, siting)
                y4m.write_y4m(stream, header, [])
            except y4m.Y4mError:
                continue
            written += 1
            stream.seek(0)
            found, frames = y4m.read_y4m(stream)
            if (format, depth, siting) == ("420", 8, None):
                header.siting = "jpeg"
            self.assertEqual((found, list(frames)), (header, []))
            self.assertEqual(sum(width * height for width, height in found.sizes()) * (1 if depth == 8 else 2), found.frame_bytes())
        # Five formats of 8 bits, of which one has four sitings, and four formats with five other depths.
        self.assertEqual(written, (4 + 4 + 4 * 5) * 6 * 4)

    def test_another_format(self):
        parsed = y4m.parse_header(b"YUV4MPEG2 W4 H2 C420mpeg2")
        for ways, line in (({"bit_depth": 10}, b"C420p10"), ({"format": "444"}, b"C444"), ({"format": "mono", "bit_depth": 16}, b"Cmono16"),
                           ({}, b"C420mpeg2")):
            self.assertEqual(parsed.with_format(**ways).line(), b"YUV4MPEG2 W4 H2 " + line + b"\n")
        self.assertEqual(y4m.Header(4, 2, "422", 10).with_format("420", 8).siting, "jpeg")
        parsed.bit_depth = 10
        self.assertRaisesRegex(y4m.Y4mError, "with_format", parsed.line)
        self.assertRaises(y4m.Y4mError, y4m.Header(4, 2).with_format, "411", 10)

    def test_huge_claims(self):
        for words, text in ((b"W4294967296 H4294967296 C444p16", "size is too large"), (b"W18446744073709551615 H1 Cmono", "found 4"),
                            (b"W1099511627776 H1048576 Cmono", "expected 1152921504606846976 bytes of a frame, found 4"),
                            (b"W100000 H100000 C444", "found 4"), (b"W18446744073709551616 H1 Cmono", "size is too large")):
            with self.assertRaisesRegex(y4m.Y4mError, text):
                list(y4m.read_y4m(io.BytesIO(b"YUV4MPEG2 " + words + b"\nFRAME\n1234"))[1])

        class Endless(io.BytesIO):
            def read(self, count):
                raise MemoryError

        with self.assertRaisesRegex(y4m.Y4mError, "no memory"):
            next(y4m.read_y4m(Endless(b"YUV4MPEG2 W99 H99\nFRAME\n"))[1])

    def test_statuses_that_are_not_known(self):
        for status in (9, 15, 99, 2 ** 32 - 1):
            with mock.patch.object(_headers, "_PARSE", lambda *_: status):
                self.assertRaisesRegex(y4m.Y4mError, str(status), y4m.parse_header, b"YUV4MPEG2 W4 H2")
        for status in (1, 10, 14, 99):
            with mock.patch.object(_headers, "_WRITE", lambda *_: status), mock.patch.object(_headers, "_FRAME_BYTES", lambda *_: status):
                self.assertRaisesRegex(y4m.Y4mError, str(status), self.GOOD.line)
                self.assertRaisesRegex(y4m.Y4mError, str(status), self.GOOD.frame_bytes)
        for status in (10, 11, 99, 2 ** 32 - 1):
            self.assertRaisesRegex(v_frame.StatusError, str(status), _library.answered, status)


class Libraries(unittest.TestCase):
    def test_a_library_that_is_not_there(self):
        for variable in ("V_FRAME_LIBRARY", "V_FRAME_Y4M_LIBRARY"):
            for name, words in (("/none/libother.so", f"/none/libother.so.*{variable}"), (ctypes.util.find_library("c"), "of another version")):
                run = subprocess.run([sys.executable, "-c", "from v_frame import y4m"], env={**os.environ, variable: name}, capture_output=True,
                                     text=True)
                self.assertRegex(run.stderr.splitlines()[-1], f"^ImportError: .*{words}")

    def test_a_library_of_another_version(self):
        """The major and the minor version must match."""
        major, minor, patch = map(int, v_frame.__version__.split("."))
        for library, name in ((_library._library, "v_frame"), (_headers._library, "v_frame_y4m")):
            for other in (f"{major}.{minor + 1}.{patch}", f"{major + 1}.{minor}.{patch}"):
                with mock.patch.object(_library, "VERSION", other):
                    self.assertRaisesRegex(ImportError, f"is of version {v_frame.__version__}, and this module of {other}",
                                           _library.of_this_version, library, name)
            with mock.patch.object(_library, "VERSION", f"{major}.{minor}.{patch + 1}"):
                _library.of_this_version(library, name)

    def test_where_a_library_is_looked_for(self):
        """The library is searched beside the module, in its prefix, in its wheel, and by the loader. The message lists all four."""
        module, library = pathlib.Path(v_frame.__path__[0]), pathlib.Path(_library._library._name)
        with tempfile.TemporaryDirectory() as folder:
            room = pathlib.Path(folder).resolve()
            there = room / "lib/python/v_frame"
            shutil.copytree(module, there, ignore=shutil.ignore_patterns("*.so", "__pycache__"))
            environment = {name: it for name, it in os.environ.items() if name not in ("V_FRAME_LIBRARY", "LD_LIBRARY_PATH")}
            environment["PYTHONPATH"] = str(there.parent)

            def tried(**more):
                words = [sys.executable, "-c", "from v_frame import _library; print(_library._library._name)"]
                return subprocess.run(words, env={**environment, **more}, capture_output=True, text=True)

            places, loaded = [there / "libv_frame.so", room / "lib/libv_frame.so", there / "lib/libv_frame.so"], room / "other"
            if not ctypes.util.find_library("v_frame"):
                said = tried().stderr.splitlines()[-1]
                looked_for = ", ".join(map(str, places))
                for words in (f"looked for {looked_for}, and libv_frame.so where the loader looks", "V_FRAME_LIBRARY"):
                    self.assertIn(words, said)
            loaded.mkdir()
            for name in ("libv_frame.so", f"libv_frame.so.{_library.VERSION.rpartition('.')[0]}"):
                shutil.copy(library, loaded / name)
            self.assertEqual(tried(LD_LIBRARY_PATH=str(loaded)).stderr, "")
            for place in reversed(places):
                place.parent.mkdir(exist_ok=True)
                shutil.copy(library, place)
                self.assertEqual(tried(LD_LIBRARY_PATH=str(loaded)).stdout, f"{place}\n")


class Shapes(unittest.TestCase):
    """Frames that do not fit the header, including those with the right number of bytes."""

    def refused(self, header, planes):
        stream = io.BytesIO()
        self.assertRaises(y4m.Y4mError, y4m.write_y4m, stream, header, [planes])
        self.assertEqual(stream.getvalue(), header.line())

    def test_planes(self):
        bytes_, words = y4m.Header(4, 2, "mono"), y4m.Header(4, 2, "mono", 10)
        for plane in (Plane(bytes(8), 2, 4), Plane(bytes(8), 8, 1), Plane(bytes(8), 1, 8), Plane(bytes(8), 4, 1, 4, 2), Plane(bytes(7), 4, 2),
                      Plane(bytes(16), 4, 2, sample_size=2), Plane(bytes(8), 4, 2, 5), bytes(8), bytearray(8), None, 5, "planes", [1, 2]):
            self.refused(bytes_, [plane])
        for plane in (Plane(bytes(16), 2, 4, sample_size=2), Plane(bytes(16), 8, 2), Plane(bytes(8), 4, 2)):
            self.refused(words, [plane])
        for planes in ([], [Plane(bytes(8), 4, 2)] * 3, None, 5, Plane(bytes(8), 4, 2)):
            self.refused(bytes_, planes)
        parts = [Plane(bytes(8), 4, 2), Plane(bytes(2), 2, 1), Plane(bytes(2), 1, 2)]
        self.refused(y4m.Header(4, 2), parts)
        self.refused(y4m.Header(4, 2), parts[:2])
        self.refused(bytes_, Frame([Plane(bytes(16), 4, 2, sample_size=2)], "mono", 10))
        self.refused(words, Frame([Plane(bytes(16), 4, 2, sample_size=2)], "mono", 12))
        self.refused(y4m.Header(4, 2, "444"), Frame([Plane(bytes(8), 4, 2), *[Plane(bytes(4), 2, 2)] * 2], "422"))
        changed = Plane(bytes(8), 4, 2)
        changed.sample_size = 0
        self.refused(bytes_, [changed])

    @unittest.skipIf(numpy is None, "there is no numpy")
    def test_arrays(self):
        bytes_, words = y4m.Header(4, 2, "mono"), y4m.Header(4, 2, "mono", 10)
        for shape, kind in (((4, 2), "uint8"), ((8, 1), "uint8"), ((1, 8), "uint8"), ((8,), "uint8"), ((2, 4, 1), "uint8"), ((2, 4), "int8"),
                            ((2, 4), "uint16"), ((2, 2), "uint16"), ((2, 4), "bool"), ((2, 4), "float64"), ((1, 2), "uint32")):
            self.refused(bytes_, [numpy.zeros(shape, kind)])
        for shape, kind in (((4, 2), "uint16"), ((2, 4), "int16"), ((2, 4), "uint8"), ((2, 8), "uint8"), ((2, 4), ">u2"), ((2, 4), "float16")):
            self.refused(words, [numpy.zeros(shape, kind)])
        # Samples are written in the right order for all strides and for both kinds of arrays.
        stream, whole = io.BytesIO(), numpy.arange(64, dtype="uint8").reshape(8, 8)
        y4m.write_y4m(stream, bytes_, [[whole[::4, ::2]], [whole.T[:2, :4]], [whole[7:5:-1, 4:]]])
        wanted = ([0, 2, 4, 6, 32, 34, 36, 38], [0, 8, 16, 24, 1, 9, 17, 25], [60, 61, 62, 63, 52, 53, 54, 55])
        self.assertEqual(stream.getvalue(), bytes_.line() + b"".join(b"FRAME\n" + bytes(it) for it in wanted))

    def test_frames(self):
        y, c = Plane(bytes(15), 5, 3), Plane(bytes(6), 3, 2)
        frame = Frame([y, c, c])
        self.assertEqual((frame.width, frame.height, frame.format, frame.depth, len(frame), frame.u, list(frame)), (5, 3, "420", 8, 3, c, [y, c, c]))
        self.assertEqual((Frame([y], "mono").u, Frame([y], "mono").v), (None, None))
        for planes, words in (([y, c], {}), ([y, c, c, c], {}), ([], {}), (None, {}), (y, {}), ([y, c, y], {}), ([y, c, c], {"format": "422"}),
                              ([y, c, c], {"format": "410"}), ([y, c, c], {"format": None}), ([y, c, c], {"depth": 10}), ([y, c, c], {"depth": 7}),
                              ([y, c, c], {"depth": 8.0}), ([y, c, None], {})):
            self.assertRaises(Error, Frame, planes, **words)


class Planes(unittest.TestCase):
    def test_no_buffer_stays_locked(self):
        data = bytearray(16)
        area = mmap.mmap(-1, 16)
        for buffer in (data, area):
            for name, value in (("width", 4.0), ("height", 4.0), ("stride", 4.5), ("width", None), ("height", "4"), ("width", -1),
                                ("stride", 1 << 64), ("sample_size", 0), ("sample_size", 3), ("sample_size", 1.0), ("sample_size", None)):
                plane = Plane(buffer, 4, 4)
                setattr(plane, name, value)
                self.assertRaises(Error, v_frame.sse, plane, Plane(buffer, 4, 4))
                self.assertRaises(Error, v_frame.sse, Plane(buffer, 4, 4), plane)
                self.assertRaises(Error, v_frame.fill, plane, 1)
                self.assertRaises(Error, plane.tobytes)
                self.assertRaises(Error, Plane, buffer, **{"width": 4, "height": 4, name: value} if value is not None else {"width": 4.0, "height": 4})
            for width, height, stride in ((0, 4, 4), (4, 0, 4), (5, 4, 4), (5, 3, 4), (4, 5, 4), (4, 4, 5)):
                plane = Plane(buffer, width, height, stride)
                self.assertRaises(RowsError, v_frame.statistics, plane)
                self.assertRaises(RowsError, plane.tobytes)
            self.assertRaises(Error, v_frame.fill, Plane(buffer, 4, 4), 1.5)
            self.assertRaises(Error, v_frame.statistics, Plane(memoryview(buffer)[1:], 2, 2, sample_size=2))
        data.append(1)
        area.close()

    def test_buffers_that_are_none(self):
        for buffer in (None, 5, "text", [1, 2, 3, 4]):
            self.assertRaises(KindError, v_frame.statistics, Plane(buffer, 2, 2))
        apart = memoryview(bytes(16))[::2]
        self.assertRaises(v_frame.AccessError, v_frame.statistics, Plane(apart, 2, 2))
        self.assertRaises(v_frame.AccessError, v_frame.fill, Plane(bytes(4), 2, 2), 1)
        released = memoryview(bytes(4))
        released.release()
        self.assertRaises(v_frame.AccessError, v_frame.statistics, Plane(released, 2, 2))
        if numpy is not None:
            self.assertRaises(v_frame.AccessError, v_frame.statistics, Plane(numpy.zeros((4, 4), "uint8")[:, ::2], 2, 2))
            read_only = numpy.zeros((2, 2), "uint8")
            read_only.flags.writeable = False
            for plane in (read_only, Plane(read_only, 2, 2)):
                self.assertRaises(v_frame.AccessError, v_frame.fill, plane, 1)

    def test_numbers_that_are_not_whole(self):
        a, words, colors = Plane(bytearray(16), 4, 4), Plane(bytearray(32), 4, 4, sample_size=2), Plane(bytearray(24), 6, 4)
        for wrong in (1.5, 8.0, "8", b"8", None, math.nan, math.inf, [8], 8j, 10 ** 5000, -1):
            calls = [
                lambda: Plane(bytes(16), wrong, 4), lambda: Plane(bytes(16), 4, wrong), lambda: Plane(bytes(16), 4, 4, wrong or 4.0),
                lambda: Plane(bytes(16), 4, 4, sample_size=wrong), lambda: v_frame.fill(a, wrong), lambda: v_frame.pad(a, wrong, 0, 0, 0),
                lambda: v_frame.pad(a, 0, 0, 0, wrong), lambda: v_frame.lay_out(wrong, 4), lambda: v_frame.lay_out(4, wrong),
                lambda: v_frame.lay_out(4, 4, "420", wrong), lambda: v_frame.lay_out(4, 4, wrong), lambda: v_frame.turn(a, wrong),
                lambda: v_frame.convert_depth(words, wrong, 8), lambda: v_frame.convert_depth(words, 10, wrong),
                lambda: v_frame.upscale(a, wrong, 8), lambda: v_frame.upscale(a, 8, wrong), lambda: v_frame.upscale(a, 8, 8, wrong, 2),
                lambda: v_frame.upscale(a, 8, 8, 2, wrong), lambda: v_frame.resize_area(a, wrong, 4), lambda: v_frame.resize_area(a, 4, wrong),
                lambda: v_frame.resize_nearest(a, wrong, 4), lambda: v_frame.resize_nearest(a, 4, wrong), lambda: v_frame.blend(a, a, wrong),
                lambda: v_frame.difference(a, a, wrong), lambda: v_frame.difference(words, words, 1, wrong),
                lambda: v_frame.to_full_range(words, "luma", wrong), lambda: v_frame.to_limited_range(words, "luma", wrong),
                lambda: v_frame.to_full_range(a, wrong), lambda: v_frame.psnr(words, words, wrong), lambda: v_frame.rgb(a, a, a, wrong),
                lambda: v_frame.rgb(a, a, a, range=wrong), lambda: v_frame.rgb(a, a, a, order=wrong), lambda: v_frame.yuv(colors, wrong),
            ]
            if wrong not in (-1, 10 ** 5000):
                calls += [lambda: v_frame.count_between(a, wrong, 4), lambda: v_frame.count_between(a, 4, wrong)]
            if wrong is not None:
                calls += [lambda: v_frame.histogram(a, wrong)]
            for call in calls:
                self.assertRaises(Error, call)
        self.assertEqual((bytes(a.buffer), bytes(words.buffer)), (bytes(16), bytes(32)))

    def test_depths_of_psnr(self):
        a, words = Plane(bytes([1, 2, 3, 4]), 2, 2), Plane(bytes(range(8)), 2, 2, sample_size=2)
        for depth in (0, -1, 7, 9, 10, 16, 17, 300, 8.0, "8", 2 ** 40):
            self.assertRaises(Error, v_frame.psnr, a, a, depth)
            if depth not in (9, 10, 16):
                self.assertRaises(Error, v_frame.psnr, words, words, depth)
        other = Plane(bytes([1, 2, 3, 6]), 2, 2)
        self.assertAlmostEqual(v_frame.psnr(a, other, 8), 10 * math.log10(255 ** 2))
        self.assertEqual(v_frame.mse(a, other), 1.0)
        for depth in range(8, 17):
            self.assertEqual(v_frame.psnr(words, words, depth), math.inf)

    def test_measures_of_frames(self):
        y, other = Plane(bytes(16), 4, 4), Plane(bytes([0, 3] + 14 * [0]), 4, 4)
        u, v = Plane(bytes(4), 2, 2), Plane(bytes([0, 0, 2, 1]), 2, 2)
        # The measures are those of all samples together, as in ffmpeg's filter.
        self.assertEqual(v_frame.mse(Frame([y, u, u]), Frame([other, u, v])), 14 / 24)
        self.assertAlmostEqual(v_frame.psnr(Frame([y, u, u]), Frame([other, u, v])), 10 * math.log10(255 ** 2 * 24 / 14))
        self.assertEqual(v_frame.psnr(Frame([y, u, u]), Frame([y, u, u])), math.inf)
        deep = [Frame([Plane(bytes([low, 1] * 4), 2, 2, sample_size=2)], "mono", 10) for low in (0, 2)]
        self.assertEqual(v_frame.mse(*deep), 4.0)
        self.assertAlmostEqual(v_frame.psnr(*deep), 10 * math.log10(1023 ** 2 / 4))
        self.assertRaises(NumberError, v_frame.psnr, *deep, 12)
        self.assertRaises(SizesError, v_frame.mse, Frame([y], "mono"), Frame([u], "mono"))
        self.assertRaises(SizesError, v_frame.mse, Frame([y], "mono"), Frame([y, u, u]))
        self.assertRaises(KindError, v_frame.mse, Frame([y], "mono"), y)
        self.assertRaises(KindError, v_frame.psnr, y, Frame([y], "mono"))

    def test_planes_that_are_too_large(self):
        a = Plane(bytes(16), 4, 4)
        for size in (2 ** 40, 2 ** 62, 2 ** 64 - 1, 2 ** 64):
            self.assertRaises(SizesError, v_frame.resize_area, a, size, size)
            self.assertRaises(SizesError, v_frame.resize_nearest, a, size, 2 ** 40)
            self.assertRaises(SizesError, v_frame.upscale, a, size, 2 ** 40)
            self.assertRaises(SizesError, v_frame.pad, a, size, size, size, size)
            self.assertRaises(Error, v_frame.lay_out, size, size)

    def test_all_errors_are_of_the_module(self):
        found = [it for _, it in inspect.getmembers(_errors, inspect.isclass) if issubclass(it, BaseException)]
        self.assertEqual(len(found), 10)
        for it in found:
            self.assertTrue(issubclass(it, Error) and getattr(v_frame, it.__name__) is it)
        self.assertTrue(all(hasattr(v_frame, it) for it in v_frame.__all__) and all(hasattr(y4m, it) for it in y4m.__all__))


@unittest.skipIf(numpy is None, "there is no numpy")
class Arrays(unittest.TestCase):
    def test_arrays_without_a_sample(self):
        for shape in ((0, 5), (5, 0), (0, 0), (0, 4), (4, 0), (0, 6)):
            for kind in ("uint8", "uint16"):
                a = numpy.zeros(shape, kind)
                depth = 8 * a.dtype.itemsize
                for call in (
                    lambda: v_frame.sse(a, a), lambda: v_frame.sad(a, a), lambda: v_frame.first_difference(a, a), lambda: v_frame.psnr(a, a, depth),
                    lambda: v_frame.mse(a, a), lambda: v_frame.copy(a, a), lambda: v_frame.fill(a, 1), lambda: v_frame.half(a),
                    lambda: v_frame.pad(a, 1, 1, 1, 1), lambda: v_frame.turn(a, "rotate_90"), lambda: v_frame.convert_depth(a, depth, 10),
                    lambda: v_frame.upscale(a, 8, 8), lambda: v_frame.interleave(a, a), lambda: v_frame.deinterleave(a),
                    lambda: v_frame.statistics(a), lambda: v_frame.pair_statistics(a, a), lambda: v_frame.rgb(a, a, a), lambda: v_frame.yuv(a),
                    lambda: v_frame.downscale_to_edge(a), lambda: v_frame.halve_columns(a), lambda: v_frame.resize_area(a, 2, 2),
                    lambda: v_frame.resize_nearest(a, 2, 2), lambda: v_frame.to_full_range(a, depth=depth), lambda: v_frame.blend(a, a, 1),
                    lambda: v_frame.to_limited_range(a, depth=depth), lambda: v_frame.blend_with_mask(a, a, a), lambda: v_frame.histogram(a),
                    lambda: v_frame.difference(a, a, 1, depth), lambda: v_frame.count_between(a, 0, 9), lambda: Frame([a], "mono", depth),
                    lambda: v_frame.yuv(numpy.zeros((*shape, 3), "uint8")), lambda: v_frame.yuv(numpy.zeros((2, *shape), "uint8")),
                ):
                    self.assertRaises(Error, call)

    def test_numbers_of_numpy(self):
        a = numpy.zeros((4, 4), "uint8")
        v_frame.fill(a, numpy.uint8(3))
        self.assertRaises(Error, v_frame.fill, a, numpy.float32(3))
        self.assertEqual(v_frame.resize_area(a, numpy.int64(2), numpy.uint16(3)).shape, (3, 2))
        self.assertEqual(Plane(bytes(16), numpy.int32(4), numpy.int8(4)).tobytes(), bytes(16))
        for kind in ("int8", "float32", "bool", ">u2", "uint32", "object"):
            self.assertRaises(KindError, v_frame.statistics, numpy.zeros((4, 4), kind))


if __name__ == "__main__":
    set_up.main()
