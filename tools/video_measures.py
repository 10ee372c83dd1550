"""Measures of two streams, as `yuv compare` reports them, with Python's integers and floats.

Structural similarity follows ffmpeg's filter `ssim`: windows of 8 by 8 samples on a grid of 4, each in single precision. The windows
of a line are added in double precision at 8 bits, and in single precision at other depths.
"""
import json
import math
import struct

NAMES = ["all planes", "Y", "U", "V"]
SHORT = ["avg", "y", "u", "v"]


def psnr_of(error, depth):
    return 10 * math.log10((2 ** depth - 1) ** 2 / error) if error else math.inf


def errors_of(one, other):
    """Returns the sum of squared errors and the number of samples of each plane."""
    pairs = [[(p, q) for a, b in zip(first, second) for p, q in zip(a, b)] for first, second in zip(one, other)]
    return [(sum((p - q) ** 2 for p, q in plane), len(plane)) for plane in pairs]


def means(errors):
    """Returns the mean squared error of all planes, and of each plane."""
    every = [(sum(e for e, _ in errors), sum(n for _, n in errors))] + errors
    return [e / n if e else 0.0 for e, n in every]


def single(number):
    return struct.unpack("f", struct.pack("f", number))[0]


def window(first, second, x, y, peak):
    """Returns the similarity of two windows, by their integer sums."""
    a = [p for row in first[y:y + 8] for p in row[x:x + 8]]
    b = [p for row in second[y:y + 8] for p in row[x:x + 8]]
    s1, s2, s12 = sum(a), sum(b), sum(p * q for p, q in zip(a, b))
    squares = sum(p * p for p in a) + sum(p * p for p in b)
    c1, c2 = (64 * peak * peak + 5000) // 10000, (36288 * peak * peak + 5000) // 10000
    over = single(single(2 * s1 * s2 + c1) * single(128 * s12 - 2 * s1 * s2 + c2))
    under = single(single(s1 * s1 + s2 * s2 + c1) * single(64 * squares - s1 * s1 - s2 * s2 + c2))
    return single(over / under)


def plane_similarity(first, second, depth):
    columns, lines, total = len(first[0]) // 4 - 1, len(first) // 4 - 1, 0.0
    for line in range(lines):
        added = 0.0
        for column in range(columns):
            added += window(first, second, 4 * column, 4 * line, 2 ** depth - 1)
            added = added if depth == 8 else single(added)
        total += added
    return total / (columns * lines)


def similarities(one, other, depth):
    """Returns the similarity of all planes, weighted by their samples, and of each plane."""
    planes = [plane_similarity(a, b, depth) for a, b in zip(one, other)]
    counts, all_planes = [len(plane) * len(plane[0]) for plane in one], 0.0
    for count, value in zip(counts, planes):
        all_planes += count / sum(counts) * value
    return [all_planes] + planes


class Comparison:
    """Two streams, compared up to the end of the shorter one. Frames have their numbers in the first file, with `passed` skipped."""

    def __init__(self, one, other, ssim=False, exact=False, before=0):
        self.depth, self.ssim, self.exact, self.before = one.depth, ssim, exact, before
        self.pairs = list(zip(one.frames, other.frames))
        self.errors = [errors_of(a, b) for a, b in self.pairs]
        self.similarities = [similarities(a, b, one.depth) for a, b in self.pairs] if ssim else []
        self.totals = [(sum(e[k][0] for e in self.errors), sum(e[k][1] for e in self.errors)) for k in range(len(one.sizes()))]
        self.difference = next((found for found in map(self.first_in, range(len(self.pairs))) if found), None)
        more = len(one.frames) - len(other.frames)
        self.longer = "first" if more > 0 else "second" if more < 0 else None
        self.status = 1 if self.difference or self.longer else 0

    def first_in(self, number):
        one, other = self.pairs[number]
        return next(((self.before + number + 1, c, x, y, p, q) for c, first, second in zip("YUV", one, other) for y, rows in enumerate(zip(first, second))
                     for x, (p, q) in enumerate(zip(*rows)) if p != q), None)

    def mean_similarities(self):
        columns = list(zip(*self.similarities))
        return [sum(column) / len(column) for column in columns] if columns else None

    # Lines for people.

    def frame_line(self, number):
        errors = self.errors[number]
        text = f"n:{self.before + number + 1}" + "".join(f" mse_{k}:{e:.2f}" for k, e in zip(SHORT, means(errors)))
        text += "".join(f" psnr_{k}:{psnr_of(e, self.depth):.2f}" for k, e in zip(SHORT, means(errors)))
        if self.ssim:
            text += "".join(f" ssim_{k}:{s:.6f}" for k, s in zip(SHORT, self.similarities[number]))
        if self.exact:
            text += "".join(f" sse_{k}:{e}" for k, (e, _) in zip("yuv", errors))
        return text + "\n"

    def lines(self, by_frame=False):
        text = "".join(map(self.frame_line, range(len(self.pairs)))) if by_frame else ""
        text += f"frames: {len(self.pairs)}\n"
        for name, error in zip(NAMES, means(self.totals)):
            text += f"{name}: mse {error:.2f}, psnr {psnr_of(error, self.depth):.2f}\n"
        if self.ssim and self.pairs:
            text += "ssim:" + ",".join(f" {name} {s:.6f}" for name, s in zip(NAMES, self.mean_similarities())) + "\n"
        if self.exact:
            text += "squared errors:" + ",".join(f" {name} {e}" for name, (e, _) in zip("YUV", self.totals)) + "\n"
        found = self.difference
        text += "first difference: " + ("frame %d, plane %s, column %d, row %d, %d and %d" % found if found else "none") + "\n"
        return text + (f"length: the {self.longer} stream has more frames\n" if self.longer else "")

    # Output for programs: the shortest digits that are read back as the same number.

    def measures(self, errors, similarity):
        """Returns the measures of frames as a JSON object, with their sums."""
        keys = ["all", "y", "u", "v"]
        mse = means(errors)
        found = {"mse": dict(zip(keys, mse)), "psnr": dict(zip(keys, [psnr_of(e, self.depth) for e in mse]))}
        if similarity:
            found["ssim"] = dict(zip(keys, similarity))
        if self.exact:
            found["squared_errors"] = dict(zip("yuv", [e for e, _ in errors]))
        return found


def read_json(text):
    """Returns a report as a JSON object. An infinite ratio is null."""
    return json.loads(text)
