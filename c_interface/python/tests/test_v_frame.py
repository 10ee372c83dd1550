"""Tests each call against simple loops, each error, and views of arrays: test_v_frame.py [--without-numpy]"""

import set_up

import math
import random
import sys
import unittest

import v_frame
from v_frame import Plane, RowsError, SizesError

numpy = set_up.numpy


def random_plane(source, width, height, size):
    stride = width + source.randrange(4)
    length = (stride * (height - 1) + width) * size
    return Plane(bytearray(source.randbytes(length)), width, height, stride, size)


def rows_of(plane):
    data = memoryview(plane.buffer).cast("B").cast("H" if plane.sample_size == 2 else "B")
    return [list(data[plane.stride * y:plane.stride * y + plane.width]) for y in range(plane.height)]


class Pictures(unittest.TestCase):
    """Tests calls that create planes against simple loops, and calls that return numbers."""

    def setUp(self):
        source = random.Random(314)
        self.planes = [random_plane(source, source.randrange(1, 30), source.randrange(1, 9), size) for size in (1, 2) * 60]

    def test_turns(self):
        by_hand = {
            "flip_vertical": lambda rows: rows[::-1],
            "flip_horizontal": lambda rows: [row[::-1] for row in rows],
            "rotate_180": lambda rows: [row[::-1] for row in rows[::-1]],
            "transpose": lambda rows: [list(column) for column in zip(*rows)],
            "rotate_90": lambda rows: [list(column) for column in zip(*rows[::-1])],
            "rotate_270": lambda rows: [list(column) for column in zip(*rows)][::-1],
        }
        self.assertEqual(tuple(by_hand), v_frame.TURNS)
        for plane in self.planes:
            for how, turned in by_hand.items():
                self.assertEqual(rows_of(v_frame.turn(plane, how)), turned(rows_of(plane)))
        self.assertRaises(ValueError, v_frame.turn, self.planes[0], "rotate_45")

    def test_depths(self):
        for plane in self.planes:
            depth = 8 if plane.sample_size == 1 else 10
            for to in (8, 10, 16):
                found, largest = v_frame.convert_depth(plane, depth, to), 2 ** depth - 1
                if to >= depth:
                    wanted = [[min(it, largest) << (to - depth) for it in row] for row in rows_of(plane)]
                else:
                    wanted = [[min((it + 2) // 4, 255) for it in row] for row in rows_of(plane)]
                self.assertEqual(found.sample_size, 1 if to == 8 else 2)
                self.assertEqual(rows_of(found), wanted)
        for depth, to in ((7, 8), (9, 8), (8, 7), (8, 17), (-1, 10), (8, 2 ** 40)):
            self.assertRaises(ValueError, v_frame.convert_depth, Plane(bytes(4), 2, 2), depth, to)

    def test_upscale(self):
        for plane in self.planes:
            for across, down in ((1, 1), (2, 2), (4, 1), (3, 2)):
                width, height = across * plane.width - (across > 1), down * plane.height - (down > 1)
                found = rows_of(v_frame.upscale(plane, width, height, across, down))
                rows = rows_of(plane)
                self.assertEqual(found, [[rows[y // down][x // across] for x in range(width)] for y in range(height)])
        self.assertRaises(SizesError, v_frame.upscale, Plane(bytes(4), 2, 2), 5, 4)
        self.assertRaises(SizesError, v_frame.upscale, Plane(bytes(4), 2, 2), 4, 4, 0, 2)

    def test_interleave(self):
        source = random.Random(5)
        for plane in self.planes:
            other = random_plane(source, plane.width, plane.height, plane.sample_size)
            both = v_frame.interleave(plane, other)
            self.assertEqual(rows_of(both), [[it for pair in zip(p, q) for it in pair] for p, q in zip(rows_of(plane), rows_of(other))])
            u, v = v_frame.deinterleave(both)
            self.assertEqual((rows_of(u), rows_of(v)), (rows_of(plane), rows_of(other)))
        self.assertRaises(SizesError, v_frame.deinterleave, Plane(bytes(3), 3, 1))
        self.assertRaises(SizesError, v_frame.interleave, Plane(bytes(4), 2, 2), Plane(bytes(2), 2, 1))
        self.assertRaises(TypeError, v_frame.interleave, Plane(bytes(4), 2, 2), Plane(bytes(8), 2, 2, sample_size=2))

    def test_statistics(self):
        source = random.Random(6)
        for plane in self.planes:
            other = random_plane(source, plane.width, plane.height, plane.sample_size)
            a, b = ([it for row in rows_of(each) for it in row] for each in (plane, other))
            self.assertEqual(v_frame.statistics(plane), (len(a), sum(a), sum(it * it for it in a), min(a), max(a)))
            self.assertEqual(v_frame.pair_statistics(plane, other), (
                sum(a), sum(b), sum(it * it for it in a), sum(it * it for it in b), sum(p * q for p, q in zip(a, b))))
        self.assertRaises(SizesError, v_frame.pair_statistics, Plane(bytes(4), 2, 2), Plane(bytes(2), 2, 1))

    def test_rgb(self):
        # Calculated from the fractions of the standards, rounded to the nearest: red 255, gray, black and white of BT.709 in limited range.
        planes = [Plane(bytes(row), 4, 1) for row in ((63, 126, 16, 235), (102, 128, 128, 128), (240, 128, 128, 128))]
        self.assertEqual(bytes(v_frame.rgb(*planes).buffer), bytes([255, 1, 0, 128, 128, 128, 0, 0, 0, 255, 255, 255]))
        self.assertEqual(bytes(v_frame.rgb(*planes, order="bgra").buffer)[:8], bytes([0, 1, 255, 255, 128, 128, 128, 255]))
        self.assertNotEqual(bytes(v_frame.rgb(*planes, standard="bt601").buffer)[:3], bytes([255, 1, 0]))
        for wrong in ({"standard": "bt470"}, {"range": "wide"}, {"order": "grb"}):
            self.assertRaises(ValueError, v_frame.rgb, *planes, **wrong)
        self.assertRaises(SizesError, v_frame.rgb, planes[0], planes[1], Plane(bytes(3), 3, 1))
        words = Plane(bytes(8), 4, 1, sample_size=2)
        self.assertRaises(TypeError, v_frame.rgb, words, words, words)

    def test_halves(self):
        for plane in self.planes:
            rows = rows_of(plane)
            for down, halve in ((1, v_frame.halve_columns), (2, v_frame.downscale_to_edge)):
                wanted = [[(sum(rows[min(down * y + j, plane.height - 1)][min(2 * x + i, plane.width - 1)]
                                for j in range(down) for i in range(2)) + down) // (2 * down)
                           for x in range(-(-plane.width // 2))] for y in range(-(-plane.height // down))]
                self.assertEqual(rows_of(halve(plane)), wanted)

    def test_resize(self):
        # A plane with numbered samples. numpy calculated the result from blocks of the common multiple of both sizes.
        plane = Plane(bytes([11, 34, 103, 218, 123, 74, 48, 71, 140, 255, 160, 111, 85, 108, 177, 36, 197, 148, 122, 145, 214, 73, 234,
                             185]), 6, 4)
        self.assertEqual(rows_of(v_frame.resize_area(plane, 4, 3)), [[28, 89, 196, 100], [74, 136, 157, 146], [120, 182, 117, 192]])
        self.assertEqual(rows_of(v_frame.resize_nearest(plane, 4, 3)), [[11, 103, 218, 74], [85, 177, 36, 148], [122, 214, 73, 185]])
        self.assertEqual(rows_of(v_frame.resize_area(plane, 1, 1)), [[128]])
        for plane in self.planes:
            self.assertEqual(rows_of(v_frame.resize_area(plane, plane.width, plane.height)), rows_of(plane))
            self.assertEqual(rows_of(v_frame.resize_nearest(plane, 2 * plane.width, plane.height)),
                             [[it for it in row for _ in range(2)] for row in rows_of(plane)])
        for size in ((0, 4), (4, -1), (4, 2 ** 64)):
            self.assertRaises(SizesError, v_frame.resize_area, plane, *size)

    def test_ranges(self):
        luma = Plane(bytes([0, 16, 17, 126, 235, 255]), 3, 2)
        self.assertEqual(rows_of(v_frame.to_full_range(luma)), [[0, 0, 1], [128, 255, 255]])
        self.assertEqual(rows_of(v_frame.to_limited_range(luma)), [[16, 30, 31], [124, 218, 235]])
        chroma = Plane(bytes([3, 16, 128, 240]), 4, 1)
        self.assertEqual(rows_of(v_frame.to_full_range(chroma, "chroma")), [[0, 1, 128, 255]])
        self.assertEqual(rows_of(v_frame.to_limited_range(chroma, "chroma")), [[18, 30, 128, 226]])
        words = Plane(memoryview(bytearray(b"".join(it.to_bytes(2, sys.byteorder) for it in (64, 940)))), 2, 1, sample_size=2)
        self.assertEqual(rows_of(v_frame.to_full_range(words, depth=10)), [[0, 1023]])
        self.assertRaises(TypeError, v_frame.to_full_range, words)
        for wrong in ({"component": "alpha"}, {"depth": 7}, {"depth": 9}, {"depth": 2 ** 40}):
            self.assertRaises(ValueError, v_frame.to_limited_range, luma, **wrong)

    def test_yuv(self):
        # Calculated from the fractions of the standards, rounded to the nearest: red and gray.
        colors = Plane(bytes([255, 0, 0, 128, 128, 128]), 6, 1)
        self.assertEqual([rows_of(it) for it in v_frame.yuv(colors)], [[[63, 126]], [[102, 128]], [[240, 128]]])
        swapped = Plane(bytes([0, 0, 255, 7, 128, 128, 128, 9]), 8, 1)
        self.assertEqual([rows_of(it) for it in v_frame.yuv(swapped, "bt601", "full", "bgra")], [[[76, 128]], [[85, 128]], [[255, 128]]])
        self.assertRaises(SizesError, v_frame.yuv, colors, order="rgba")
        self.assertRaises(TypeError, v_frame.yuv, Plane(bytes(12), 6, 1, sample_size=2))
        self.assertRaises(ValueError, v_frame.yuv, colors, "bt470")

    def test_blends(self):
        source = random.Random(7)
        for plane in self.planes:
            over = random_plane(source, plane.width, plane.height, plane.sample_size)
            mask = random_plane(source, plane.width, plane.height, 1)
            largest = 256 ** plane.sample_size - 1
            for call, by_hand in (
                (lambda under: v_frame.blend(over, under, 100), lambda p, q, m: (p * 156 + q * 100 + 128) // 256),
                (lambda under: v_frame.blend_with_mask(over, mask, under), lambda p, q, m: (p * (255 - m) + q * m + 127) // 255),
                (lambda under: v_frame.difference(over, under, 3, 8 * under.sample_size), lambda p, q, m: min(3 * abs(p - q), largest)),
            ):
                under = Plane(bytearray(plane.buffer), plane.width, plane.height, plane.stride, plane.sample_size)
                call(under)
                wanted = [[by_hand(*pixels) for pixels in zip(*rows)] for rows in zip(rows_of(plane), rows_of(over), rows_of(mask))]
                self.assertEqual(rows_of(under), wanted)
        for weight in (-1, 257):
            self.assertRaises(ValueError, v_frame.blend, Plane(bytes(4), 2, 2), Plane(bytearray(4), 2, 2), weight)
        words = Plane(bytearray(8), 2, 2, sample_size=2)
        self.assertRaises(TypeError, v_frame.blend, Plane(bytes(4), 2, 2), words, 1)
        self.assertRaises(TypeError, v_frame.blend_with_mask, words, words, words)
        self.assertRaises(TypeError, v_frame.difference, words, words)
        self.assertRaises(ValueError, v_frame.difference, words, words, 2 ** 16, 10)
        self.assertRaises(SizesError, v_frame.blend_with_mask, words, Plane(bytes(2), 2, 1), words)

    def test_a_blend_may_overlap_its_source(self):
        data = bytearray(range(0, 240, 10))
        before = bytes(data)
        v_frame.blend(Plane(memoryview(data)[3:], 3, 3), Plane(memoryview(data)[:9], 3, 3), 128)
        self.assertEqual(bytes(data), bytes((before[i] + before[i + 3] + 1) // 2 for i in range(9)) + before[9:])
        v_frame.blend_with_mask(Plane(data, 3, 3), Plane(data, 3, 3), Plane(data, 3, 3))
        v_frame.difference(Plane(data, 3, 3), Plane(data, 3, 3))
        self.assertEqual(bytes(data), bytes(9) + before[9:])

    def test_counts(self):
        for plane in self.planes:
            samples = [it for row in rows_of(plane) for it in row]
            self.assertEqual(len(v_frame.histogram(plane)), 256 ** plane.sample_size)
            self.assertEqual(v_frame.histogram(plane, 4), [samples.count(v) for v in range(16)])
            self.assertEqual({v: n for v, n in enumerate(v_frame.histogram(plane)) if n}, {v: samples.count(v) for v in samples})
            for least, greatest in ((0, 100), (100, 50), (-5, 10 ** 6), (samples[0], samples[0])):
                self.assertEqual(v_frame.count_between(plane, least, greatest), sum(least <= it <= greatest for it in samples))
        self.assertRaises(ValueError, v_frame.histogram, Plane(bytes(4), 2, 2), 9)

    @unittest.skipUnless(numpy, "there is no numpy")
    def test_converted_arrays(self):
        array = numpy.arange(6 * 10, dtype="uint8").reshape(6, 10)[:, 1:9]
        blocks = numpy.kron(array.astype(int), numpy.ones((4, 3), dtype=int)).reshape(4, 6, 3, 8).sum((1, 3))
        self.assertEqual(v_frame.resize_area(array, 3, 4).tolist(), ((2 * blocks + 48) // 96).tolist())
        columns, lines = (2 * numpy.arange(3) + 1) * 8 // 6, (2 * numpy.arange(4) + 1) * 6 // 8
        self.assertEqual(v_frame.resize_nearest(array, 3, 4).tolist(), array[numpy.ix_(lines, columns)].tolist())
        self.assertEqual(v_frame.histogram(array).tolist(), numpy.bincount(array.ravel(), minlength=256).tolist())
        self.assertEqual(v_frame.count_between(array, 10, 20), int(((array >= 10) & (array <= 20)).sum()))
        self.assertEqual(v_frame.downscale_to_edge(array[:5, :7]).shape, (3, 4))
        colors = numpy.dstack([array] * 3)
        self.assertEqual([it.tolist() for it in v_frame.yuv(colors, range="full")], [array.tolist(), *[[[128] * 8] * 6] * 2])
        self.assertRaises(SizesError, v_frame.yuv, colors, order="bgra")
        under = numpy.full((3, 4), 10, dtype="uint16")
        v_frame.blend(numpy.full((3, 4), 30, dtype="uint16"), under[:, :], 128)
        self.assertEqual(under.tolist(), [[20] * 4] * 3)

    @unittest.skipUnless(numpy, "there is no numpy")
    def test_arrays(self):
        array = numpy.arange(3 * 8, dtype="uint16").reshape(3, 8)[:, 1:6]
        self.assertEqual(v_frame.turn(array, "rotate_90").tolist(), numpy.rot90(array, -1).tolist())
        self.assertEqual(v_frame.convert_depth(array, 10, 8).dtype, numpy.uint8)
        self.assertEqual(v_frame.upscale(array, 9, 6).tolist(), numpy.repeat(numpy.repeat(array, 2, 0), 2, 1)[:, :9].tolist())
        self.assertEqual(v_frame.interleave(array, array).shape, (3, 10))
        self.assertEqual(v_frame.statistics(array).sum, int(array.sum()))
        flat = numpy.full((2, 3), 128, dtype="uint8")
        self.assertEqual(v_frame.rgb(flat, flat, flat, range="full").tolist(), [[[128] * 3] * 3] * 2)


class Planes(unittest.TestCase):
    def test_comparisons_are_those_of_plain_loops(self):
        source = random.Random(2026)
        for _ in range(300):
            width, height, size = source.randrange(1, 40), source.randrange(1, 6), source.choice((1, 2))
            a, b = random_plane(source, width, height, size), random_plane(source, width, height, size)
            pairs = [(x, y, p, q) for y, both in enumerate(zip(rows_of(a), rows_of(b)))
                     for x, (p, q) in enumerate(zip(*both))]
            self.assertEqual(v_frame.sse(a, b), sum((p - q) ** 2 for _, _, p, q in pairs))
            self.assertEqual(v_frame.sad(a, b), sum(abs(p - q) for _, _, p, q in pairs))
            self.assertEqual(v_frame.first_difference(a, b), next(((x, y) for x, y, p, q in pairs if p != q), None))
            self.assertIsNone(v_frame.first_difference(a, a))

    def test_psnr(self):
        a, b = Plane(bytes([1, 2, 3, 4, 5, 6]), 3, 2), Plane(bytes([1, 2, 4, 4, 5, 8]), 3, 2)
        self.assertAlmostEqual(v_frame.psnr(a, b), 48.92261606915535)
        self.assertEqual(v_frame.psnr(a, a), math.inf)
        words = Plane(bytes(8), 2, 2, sample_size=2)
        self.assertRaises(TypeError, v_frame.psnr, words, words)
        self.assertEqual(v_frame.psnr(words, words, depth=10), math.inf)

    def test_changes_leave_what_lies_between_the_rows(self):
        target = Plane(bytearray([9] * 11), 3, 2, stride=5)
        v_frame.fill(target, 7)
        self.assertEqual(bytes(target.buffer), bytes([7, 7, 7, 9, 9, 7, 7, 7, 9, 9, 9]))
        v_frame.copy(Plane(bytes(range(1, 7)), 3, 2), target)
        self.assertEqual(bytes(target.buffer), bytes([1, 2, 3, 9, 9, 4, 5, 6, 9, 9, 9]))
        self.assertEqual(target.tobytes(), bytes(range(1, 7)))

    def test_a_copy_may_overlap_its_source(self):
        for start, target in ((0, 3), (3, 0), (0, 0), (1, 6)):
            data = bytearray(range(24))
            expected = bytearray(range(24))
            expected[target:target + 9] = expected[start:start + 9]
            v_frame.copy(Plane(memoryview(data)[start:], 3, 3), Plane(memoryview(data)[target:], 3, 3))
            self.assertEqual(data, expected)

    def test_a_copy_at_any_place(self):
        source = Plane(bytes(range(1, 7)), 3, 2)
        for x, y in [*((x, y) for x in range(-4, 6) for y in range(-3, 5)), (-2 ** 63, 0), (0, 2 ** 63 - 1)]:
            target = Plane(bytearray([9] * 20), 4, 3, stride=7)
            v_frame.copy_clipped(source, target, x, y)
            for place, found in enumerate(target.buffer):
                row, column = divmod(place, 7)
                i, j = column - x, row - y
                is_there = column < 4 and row < 3 and 0 <= i < 3 and 0 <= j < 2
                self.assertEqual(found, 1 + 3 * j + i if is_there else 9)
        for place in (2 ** 63, -2 ** 63 - 1):
            self.assertRaises(v_frame.NumberError, v_frame.copy_clipped, source, target, place, 0)
            self.assertRaises(v_frame.NumberError, v_frame.copy_clipped, source, target, 0, place)
        self.assertRaises(v_frame.KindError, v_frame.copy_clipped, source, target, 1.5, 0)
        self.assertRaises(v_frame.KindError, v_frame.copy_clipped, Plane(bytes(4), 2, 1, sample_size=2), target, 0, 0)

    def test_sizes_are_not_cut_off(self):
        for sizes in ((2 ** 64 + 4, 2, 4), (4, 2 ** 64 + 2, 4), (4, 2, 2 ** 64 + 4)):
            self.assertRaises(RowsError, Plane, bytes(16), *sizes)
        self.assertRaises(RowsError, v_frame.lay_out, 2 ** 64 + 4, 2)
        self.assertRaises(SizesError, v_frame.pad, Plane(bytes(4), 2, 2), 2 ** 64, 0, 0, 0)

    def test_words_at_odd_addresses_are_refused(self):
        plane = Plane(memoryview(bytearray(33))[1:], 4, 4, sample_size=2)
        even = Plane(bytearray(32), 4, 4, sample_size=2)
        with self.assertRaises(BufferError):
            v_frame.sse(plane, even)

    def test_half_the_size(self):
        large = Plane(bytes([0, 1, 5, 5, 1, 0, 5, 6]), 4, 2)
        self.assertEqual(bytes(v_frame.half(large).buffer), bytes([1, 5]))
        self.assertRaises(SizesError, v_frame.half, Plane(bytes(6), 3, 2))

    def test_a_border_repeats_the_samples_nearest_to_it(self):
        padded = v_frame.pad(Plane(bytes([1, 2, 9, 3, 4]), 2, 2, stride=3), 1, 1, 1, 0)
        self.assertEqual(bytes(padded.buffer), bytes([1, 1, 2, 2, 1, 1, 2, 2, 3, 3, 4, 4]))
        self.assertRaises(SizesError, v_frame.pad, Plane(bytes(4), 2, 2), -1, 0, 0, 0)

    def test_the_planes_of_a_frame_lie_one_after_the_other(self):
        parts = v_frame.lay_out(5, 3, "420", 1)
        self.assertEqual(parts, [(0, 63, 20, 5, 3, 9), (63, 20, 69, 3, 2, 5), (83, 20, 89, 3, 2, 5)])
        self.assertEqual(len(v_frame.lay_out(5, 3, "mono")), 1)
        self.assertRaises(RowsError, v_frame.lay_out, 0, 3)
        self.assertRaises(ValueError, v_frame.lay_out, 5, 3, "410")
        self.assertRaises(ValueError, v_frame.lay_out, 5, 3, "420", -1)

    def test_no_status_but_0_is_a_success(self):
        from v_frame import _library
        self.assertIsNone(_library.answered(0))
        for status, error in ((1, RowsError), (3, SizesError), (4, ValueError), (5, ValueError), (8, SizesError), (9, RowsError), (10, RuntimeError)):
            self.assertRaises(error, _library.answered, status)

    def test_what_does_not_fit_is_refused(self):
        for width, height, stride in ((0, 2, 4), (4, 0, 4), (4, 2, 3), (4, 4, 5)):
            plane = Plane(bytes(16), width, height, stride)
            self.assertRaises(RowsError, v_frame.sse, plane, plane)
        self.assertRaises(SizesError, v_frame.sse, Plane(bytes(16), 4, 2), Plane(bytes(16), 4, 3))
        self.assertRaises(TypeError, v_frame.sse, Plane(bytes(16), 4, 2), Plane(bytes(16), 4, 2, sample_size=2))
        self.assertRaises(ValueError, Plane, bytes(16), 4, 2, sample_size=3)
        self.assertRaises(RowsError, Plane, bytes(16), 4, 2, -4)
        self.assertRaises(BufferError, v_frame.fill, Plane(bytes(16), 4, 2), 1)
        self.assertRaises(ValueError, v_frame.fill, Plane(bytearray(16), 4, 2), 256)
        self.assertRaises(TypeError, v_frame.sse, [1], [1])


@unittest.skipIf(numpy is None, "numpy is not there")
class Arrays(unittest.TestCase):
    def test_views_go_in_as_they_are(self):
        source = numpy.random.default_rng(2026)
        for kind in ("uint8", "uint16"):
            whole = source.integers(0, 256, (2, 20, 30), dtype=kind)
            for a, b in ((whole[0], whole[1]), (whole[0, 3:9, 5:21], whole[1, 2:8, 1:17]), (whole[0, ::2], whole[1, 1::2])):
                apart = a.astype(int) - b.astype(int)
                self.assertEqual(v_frame.sse(a, b), int((apart ** 2).sum()))
                self.assertEqual(v_frame.sad(a, b), int(abs(apart).sum()))
                first = numpy.argwhere(apart)[0]
                self.assertEqual(v_frame.first_difference(a, b), (first[1], first[0]))

    def test_changes(self):
        array = numpy.arange(48, dtype="uint16").reshape(6, 8)
        before = array.copy()
        v_frame.fill(array[1:3, 2:5], 7)
        before[1:3, 2:5] = 7
        self.assertTrue((array == before).all())
        mean = (array.astype(int).reshape(3, 2, 4, 2).sum(axis=(1, 3)) + 2) // 4
        self.assertTrue((v_frame.half(array) == mean).all())
        target = numpy.zeros((6, 9), dtype="uint16")
        v_frame.copy(array, target[:, :8])
        self.assertTrue((target[:, :8] == array).all() and not target[:, 8].any())

    def test_views_of_one_array_may_overlap(self):
        array = numpy.arange(60, dtype="uint16").reshape(6, 10)
        expected = array.copy()
        expected[1:5, 1:9] = array[:4, :8]
        v_frame.copy(array[:4, :8], array[1:5, 1:9])
        self.assertTrue((array == expected).all())
        odd = numpy.frombuffer(bytearray(33), dtype="uint8")[1:].view("uint16").reshape(4, 4)
        self.assertRaises(BufferError, v_frame.sse, odd, odd)

    def test_borders(self):
        array = numpy.random.default_rng(7).integers(0, 65536, (9, 31), dtype="uint16")[1:8, 2:29]
        self.assertTrue((v_frame.pad(array, 3, 18, 2, 1) == numpy.pad(array, ((2, 1), (3, 18)), mode="edge")).all())

    def test_what_does_not_go_in(self):
        array = numpy.zeros((4, 6), dtype="uint8")
        for other in (array.astype("int16"), array.reshape(2, 2, 6)):
            self.assertRaises(TypeError, v_frame.sse, other, other)
        for view in (array[::-1], array[:, ::2], array.T):
            self.assertRaises(BufferError, v_frame.sse, view, view)
        array.flags.writeable = False
        self.assertRaises(BufferError, v_frame.fill, array, 1)
        self.assertRaises(RowsError, v_frame.sse, array[:0], array[:0])


if __name__ == "__main__":
    set_up.main()
