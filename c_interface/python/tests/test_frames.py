"""Tests conversions of frames to other formats, bit depths and colors against simple loops: test_frames.py [--without-numpy]"""

import set_up

import io
import itertools
import os
import random
import struct
import sys
import tempfile
import unittest
import zlib

import v_frame
from v_frame import Error, Frame, Plane, y4m

numpy = set_up.numpy

RATIOS = {"420": (2, 2), "422": (2, 1), "444": (1, 1), "411": (4, 1)}


def samples_of(plane):
    if not isinstance(plane, Plane):
        return plane.tolist()
    data = memoryview(plane.tobytes()).cast("H" if plane.sample_size == 2 else "B").tolist()
    return [data[plane.width * y:plane.width * (y + 1)] for y in range(plane.height)]


def plane_of(rows, depth, as_array):
    if as_array:
        return numpy.array(rows, dtype="uint8" if depth == 8 else "uint16")
    size = 1 if depth == 8 else 2
    return Plane(b"".join(it.to_bytes(size, sys.byteorder) for row in rows for it in row), len(rows[0]), len(rows), sample_size=size)


def random_frame(source, width, height, format, depth, as_array=False):
    sizes = y4m.Header(width, height, format).sizes()
    return Frame([plane_of([[source.randrange(1 << depth) for _ in range(w)] for _ in range(h)], depth, as_array) for w, h in sizes],
                 format, depth)


def at_depth(value, source, target):
    if target >= source:
        return value << (target - source)
    return min((value + (1 << (source - target - 1))) >> (source - target), (1 << target) - 1)


def chroma_by_hand(rows, source, target, width, height):
    """Calculates chroma by hand. A sample is the mean of a block, in which the last sample repeats past an edge, or a repeated sample."""
    (sx, sy), (tx, ty) = RATIOS[source], RATIOS[target]
    found = []
    for y in range(-(-height // ty)):
        found.append([])
        for x in range(-(-width // tx)):
            columns = range(x * tx // sx, max((x + 1) * tx // sx, x * tx // sx + 1))
            lines = range(y * ty // sy, max((y + 1) * ty // sy, y * ty // sy + 1))
            block = [rows[min(j, len(rows) - 1)][min(i, len(rows[0]) - 1)] for j in lines for i in columns]
            found[-1].append((sum(block) + len(block) // 2) // len(block))
    return found


class Frames(unittest.TestCase):
    def test_formats_and_depths(self):
        source = random.Random(74)
        for (first, second), _ in itertools.product(itertools.product(v_frame.FORMATS, repeat=2), range(6)):
            width, height = source.randrange(1, 12), source.randrange(1, 8)
            depth, other = source.choice((8, 10, 16)), source.choice((8, 9, 12, 16))
            for as_array in {False, numpy is not None}:
                frame = random_frame(source, width, height, first, depth, as_array)
                found = frame.convert(second, other)
                self.assertEqual((found.width, found.height, found.format, found.depth), (width, height, second, other))
                self.assertEqual(isinstance(found.y, Plane), not as_array)
                wanted = [samples_of(frame.y)]
                for number in (1, 2) if second != "mono" else ():
                    wanted.append(chroma_by_hand(samples_of(frame[number]), first, second, width, height) if first != "mono" else
                                  [[1 << depth - 1] * w for w, h in [y4m.Header(width, height, second).sizes()[1]] for _ in range(h)])
                self.assertEqual([samples_of(it) for it in found], [[[at_depth(it, depth, other) for it in row] for row in rows] for rows in wanted])
                # A conversion to the frame's own format returns a copy.
                again = frame.convert()
                self.assertEqual([samples_of(it) for it in again], [samples_of(it) for it in frame])
                self.assertTrue(all(p is not q for p, q in zip(again, frame)))

    def test_semi_planar(self):
        """Chroma is interleaved, and samples above 8 bits are in the top bits, as ffmpeg defines nv12, nv16, nv24, p010le and others."""
        source = random.Random(20)
        for format, depth, as_array in itertools.product(("420", "422", "444"), (8, 9, 10, 16), (False, True)[:2 if numpy else 1]):
            for width, height in ((1, 1), (5, 3), (8, 4)):
                frame = random_frame(source, width, height, format, depth, as_array)
                y, uv = frame.to_semi_planar()
                unused = 0 if depth == 8 else 16 - depth
                self.assertEqual(samples_of(y), [[it << unused for it in row] for row in samples_of(frame.y)])
                self.assertEqual(samples_of(uv), [[it << unused for pair in zip(u, v) for it in pair]
                                                  for u, v in zip(samples_of(frame.u), samples_of(frame.v))])
                back = Frame.from_semi_planar(y, uv, format, depth)
                self.assertEqual([samples_of(it) for it in back], [samples_of(it) for it in frame])
                self.assertEqual((back.format, back.depth), (format, depth))
        # The bits below a sample are ignored.
        words = Plane((64 * 5 + 63).to_bytes(2, sys.byteorder) * 2, 2, 1, sample_size=2)
        self.assertEqual([samples_of(it) for it in Frame.from_semi_planar(words, words, "420", 10)], [[[5, 5]], [[5]], [[5]]])
        for format in ("mono", "411"):
            self.assertRaises(v_frame.NumberError, random_frame(source, 8, 8, format, 8).to_semi_planar)
            self.assertRaises(v_frame.NumberError, Frame.from_semi_planar, Plane(bytes(64), 8, 8), Plane(bytes(64), 8, 8), format)
        for wrong in ((Plane(bytes(8), 4, 2), Plane(bytes(8), 4, 2)), (Plane(bytes(8), 4, 2), Plane(bytes(3), 3, 1))):
            self.assertRaises(v_frame.SizesError, Frame.from_semi_planar, *wrong)
        for depth in (7, 17):
            self.assertRaises(v_frame.NumberError, Frame.from_semi_planar, Plane(bytes(4), 2, 2), Plane(bytes(2), 2, 1), "420", depth)
        self.assertRaises(v_frame.KindError, Frame.from_semi_planar, Plane(bytes(4), 2, 2), Plane(bytes(2), 2, 1), "420", 10)
        self.assertRaises(v_frame.KindError, Frame.from_semi_planar, Plane(bytes(4), 2, 2), Plane(bytes(4), 2, 1, sample_size=2))

    def test_colors(self):
        source = random.Random(75)
        for format, depth, as_array in itertools.product(RATIOS, (8, 10), {False, numpy is not None}):
            frame = random_frame(source, 5, 3, format, depth, as_array)
            full = frame.convert("444", 8)
            for words in (("bt601", "full", "bgra"), ("bt709", "limited", "rgb")):
                found, wanted = frame.to_rgb(*words), v_frame.rgb(*full, *words)
                self.assertEqual(samples_of(found), samples_of(wanted))
                if as_array:
                    self.assertEqual(found.shape, (3, 5, len(words[2])))
                back, planes = Frame.from_rgb(found, format, depth, *words), v_frame.yuv(wanted, *words)
                self.assertEqual([samples_of(it) for it in back], [samples_of(it) for it in Frame(planes, "444").convert(format, depth)])

    def test_no_color(self):
        gray = Frame([plane_of([[0, 16, 126, 235, 255]], 8, False)], "mono")
        self.assertEqual(samples_of(gray.to_rgb()), [[it for value in (0, 0, 128, 255, 255) for it in [value] * 3]])
        self.assertEqual(samples_of(gray.convert("420", 10).u), [[512] * 3])

    def test_what_is_refused(self):
        frame = random_frame(random.Random(76), 4, 4, "420", 8)
        for words in (("410",), (420,), ("420p10",), ("420", 7), ("420", 17), ("420", 10.0), ("420", "10")):
            self.assertRaises(Error, frame.convert, *words)
        for words in (("bt470",), ("bt601", "wide"), ("bt601", "full", "grb")):
            self.assertRaises(Error, frame.to_rgb, *words)
        for colors, words in ((Plane(bytes(8), 4, 2), ()), (Plane(bytes(12), 6, 2), ("410",)), (Plane(bytes(12), 6, 2), ("420", 7)), (None, ()),
                               (Plane(bytes(24), 6, 2, sample_size=2), ()), (Plane(bytes(12), 6, 2), ("420", 8, "bt470"))):
            self.assertRaises(Error, Frame.from_rgb, colors, *words)


def parts_of(data):
    """Returns the parts of a PNG file by type, and verifies their checksums."""
    found, at = {}, 8
    while at < len(data):
        length, kind = struct.unpack(">I4s", data[at:at + 8])
        body, (check,) = data[at + 8:at + 8 + length], struct.unpack(">I", data[at + 8 + length:at + 12 + length])
        assert zlib.crc32(kind + body) == check
        found[kind], at = body, at + 12 + length
    return found


def narrow(value):
    """Returns a number rounded to a float of 32 bits."""
    return struct.unpack("f", struct.pack("f", value))[0]


def ssim_by_hand(a, b, depth):
    """Returns the mean over the windows, rounded as in ffmpeg's C code: above 8 bits, lines are summed in floats of 32 bits."""
    peak, total, across, down = (1 << depth) - 1, 0.0, len(a[0]) // 4 - 1, len(a) // 4 - 1
    means, variances = ((factor * peak * peak + 5000) // 10000 for factor in (64, 36288))
    for y in range(down):
        line = 0.0
        for x in range(across):
            pairs = [(a[4 * y + j][4 * x + i], b[4 * y + j][4 * x + i]) for j in range(8) for i in range(8)]
            s1, s2, products = sum(p for p, _ in pairs), sum(q for _, q in pairs), sum(p * q for p, q in pairs)
            squares = sum(p * p + q * q for p, q in pairs)
            covariance = narrow(128 * products - 2 * s1 * s2 + variances)
            deviation = narrow(64 * squares - s1 * s1 - s2 * s2 + variances)
            over = narrow(narrow(2 * s1 * s2 + means) * covariance)
            line += narrow(over / narrow(narrow(s1 * s1 + s2 * s2 + means) * deviation))
            line = line if depth == 8 else narrow(line)
        total += line
    return total / (across * down)


class Measures(unittest.TestCase):
    def test_similarity(self):
        source = random.Random(78)
        for depth, as_array in itertools.product((8, 9, 10, 16), {False, numpy is not None}):
            width = source.choice((8, 13, 21))
            rows = [[source.randrange(1 << depth) for _ in range(width)] for _ in range(11)]
            near = [[max(it - source.randrange(9), 0) for it in row] for row in rows]
            far = [[source.randrange(1 << depth) for _ in row] for row in rows]
            for other in (rows, near, far):
                a, b = (plane_of(it, depth, as_array) for it in (rows, other))
                self.assertEqual(v_frame.ssim(a, b, depth), ssim_by_hand(rows, other, depth))
                apart = [abs(p - q) for first, second in zip(rows, other) for p, q in zip(first, second)]
                greatest = max(apart)
                place = apart.index(greatest)
                self.assertEqual(v_frame.greatest_difference(a, b), (greatest, place % len(rows[0]), place // len(rows[0])))
                for threshold in (0, 3, greatest, 65535):
                    self.assertEqual(v_frame.count_above(a, b, threshold), sum(it > threshold for it in apart))
                self.assertEqual(v_frame.mse(a, b), sum(it * it for it in apart) / len(apart))

    def test_similarity_of_frames(self):
        source = random.Random(79)
        for format, depth in (("420", 8), ("422", 10), ("444", 16), ("mono", 12)):
            a, b = (random_frame(source, 17, 19, format, depth) for _ in "ab")
            counts = [len(samples_of(it)) * len(samples_of(it)[0]) for it in a]
            wanted = 0.0
            for p, q, count in zip(a, b, counts):
                wanted += count / sum(counts) * ssim_by_hand(samples_of(p), samples_of(q), depth)
            self.assertEqual((v_frame.ssim(a, b), v_frame.ssim(a, b, depth), v_frame.ssim(a, a)), (wanted, wanted, 1.0))

    def test_what_has_no_measure(self):
        small, words = Plane(bytes(70), 10, 7), Plane(bytes(128), 8, 8, sample_size=2)
        self.assertRaisesRegex(v_frame.SizesError, "window", v_frame.ssim, small, small)
        for depth in (None, 7, 17, 8 + 256, 8.0):
            self.assertRaises(Error, v_frame.ssim, words, words, depth)
        for depth in (7, 10, 16):
            self.assertRaises(Error, v_frame.ssim, Plane(bytes(64), 8, 8), Plane(bytes(64), 8, 8), depth)
        for threshold in (-1, 65536, 1.5, None):
            self.assertRaises(Error, v_frame.count_above, small, small, threshold)
        for call in (v_frame.ssim, v_frame.greatest_difference, lambda a, b: v_frame.count_above(a, b, 1)):
            for a, b in ((small, words), (small, Plane(bytes(80), 10, 8)), (Frame([small], "mono"), small), (small, None), (small, Plane(bytes(6), 10, 7))):
                self.assertRaises(Error, call, a, b)


class Pictures(unittest.TestCase):
    def test_png(self):
        source = random.Random(77)
        for (channels, kind), size in itertools.product(((1, 0), (3, 2), (4, 6)), (1, 2)):
            width, height, stride = 5, 3, 5 * channels + 2
            plane = Plane(source.randbytes(size * stride * height), width * channels, height, stride, size)
            pictures = [(plane, channels)]
            if numpy is not None:
                array = numpy.array(samples_of(plane), dtype=f"u{size}")
                pictures.append((array.reshape(height, width, channels), None) if channels > 1 else (array, None))
            for picture, told in pictures:
                stream = io.BytesIO()
                v_frame.write_png(stream, picture, told)
                self.assertEqual(v_frame.png_bytes(picture, told), stream.getvalue())
                found = parts_of(stream.getvalue())
                self.assertEqual(list(found), [b"IHDR", b"IDAT", b"IEND"])
                self.assertEqual(stream.getvalue()[:8], b"\x89PNG\r\n\x1a\n")
                self.assertEqual(found[b"IHDR"], struct.pack(">IIBBBBB", width, height, 8 * size, kind, 0, 0, 0))
                wanted = b"".join(b"\0" + b"".join(it.to_bytes(size, "big") for it in row) for row in samples_of(plane))
                self.assertEqual(zlib.decompress(found[b"IDAT"]), wanted)

    def test_what_no_png_is_made_of(self):
        plane = Plane(bytes(16), 4, 4)
        with tempfile.TemporaryDirectory() as folder:
            name = os.path.join(folder, "a.png")
            v_frame.write_png(name, plane)
            with open(name, "rb") as file:
                before = file.read()
            for picture, channels in ((plane, 2), (plane, 3), (plane, 0), (plane, 1.0), (plane, "3"), (None, 1), (Plane(bytes(3), 4, 4), 1)):
                self.assertRaises(Error, v_frame.write_png, name, picture, channels)
                self.assertRaises(Error, v_frame.png_bytes, picture, channels)
            if numpy is not None:
                for shape, kind in (((4, 4), "int8"), ((4, 4, 2), "uint8"), ((4, 0, 3), "uint8"), ((0, 4), "uint8"), ((4,), "uint8"), ((1,) * 4, "uint8")):
                    self.assertRaises(Error, v_frame.write_png, name, numpy.zeros(shape, kind))
            with open(name, "rb") as file:
                self.assertEqual(file.read(), before)
            self.assertEqual(os.listdir(folder), ["a.png"])


if __name__ == "__main__":
    set_up.main()
