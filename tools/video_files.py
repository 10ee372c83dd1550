"""Video streams for the tools: read, written, cropped, halved and counted, with Python's integers and lists.

This is an independent implementation: it computes the expected output of `yuv`.
"""
import zlib
from collections import Counter
from pathlib import Path

CASES = Path(__file__).resolve().parent.parent / "crates/test_yuv_runs"
DATA = CASES / "data"
RATIOS = {"420": (2, 2), "422": (2, 1), "411": (4, 1), "444": (1, 1), "mono": None}
FORMATS = {"420": "4:2:0", "422": "4:2:2", "411": "4:1:1", "444": "4:4:4", "mono": "monochrome"}
SITES = {"420jpeg": "center", "420": "center", "420mpeg2": "left", "420paldv": "alternating, as in PAL DV"}
FIELDS = {"p": "progressive", "t": "top field first", "b": "bottom field first", "m": "mixed", "?": "unknown"}


class Video:
    """A stream: its parameters, and its frames as lists of planes. A plane is a list of rows."""

    def __init__(self, parameters, frames):
        self.parameters, self.frames = parameters, frames

    @staticmethod
    def read(name):
        line, rest = (DATA / name).read_bytes().split(b"\n", 1)
        video = Video(line.decode().split(" ")[1:], [])
        while rest:
            head, rest = rest.split(b"\n", 1)
            assert head.split(b" ")[0] == b"FRAME"
            frame, rest = video.cut(rest)
            video.frames.append(frame)
        return video

    def of(self, letter):
        return next((it[1:] for it in self.parameters if it[0] == letter), None)

    color = property(lambda self: self.of("C") or "420")
    size = property(lambda self: (int(self.of("W")), int(self.of("H"))))
    family = property(lambda self: next(it for it in RATIOS if self.color.startswith(it)))

    @property
    def depth(self):
        rest = self.color[len(self.family):].lstrip("p")
        return int(rest) if rest.isdigit() else 8

    def sizes(self):
        width, height = self.size
        ratio = RATIOS[self.family]
        chroma = ratio and (-(-width // ratio[0]), -(-height // ratio[1]))
        return [(width, height), chroma, chroma] if ratio else [(width, height)]

    def cut(self, data):
        bytes_each, planes = (1 if self.depth == 8 else 2), []
        for width, height in self.sizes():
            take = width * height * bytes_each
            assert len(data) >= take
            pixels = [int.from_bytes(data[i:i + bytes_each], "little") for i in range(0, take, bytes_each)]
            planes.append([pixels[y * width:(y + 1) * width] for y in range(height)])
            data = data[take:]
        return planes, data

    def raw(self):
        bytes_each = 1 if self.depth == 8 else 2
        return [b"".join(p.to_bytes(bytes_each, "little") for plane in f for row in plane for p in row) for f in self.frames]

    def y4m(self):
        line = ("YUV4MPEG2 " + " ".join(self.parameters) + "\n").encode()
        return line + b"".join(b"FRAME\n" + frame for frame in self.raw())

    def resized(self, width, height, frames):
        kept = [f"W{width}", f"H{height}"] + [it for it in self.parameters if it[0] not in "WH"]
        return Video(kept, frames)

    def crop(self, x, y, width, height):
        ratio = RATIOS[self.family] or (1, 1)
        parts = [(x, y, width, height)] + 2 * [(x // ratio[0], y // ratio[1], -(-width // ratio[0]), -(-height // ratio[1]))]
        frames = [[[row[a:a + w] for row in plane[b:b + h]] for plane, (a, b, w, h) in zip(f, parts)] for f in self.frames]
        return self.resized(width, height, frames)

    def half(self):
        """Returns the stream at half the size, rounded up. An odd last column or row counts twice."""
        def halved(plane):
            rows = [row + row[-1:] if len(row) % 2 else row for row in plane]
            rows += rows[-1:] if len(rows) % 2 else []
            return [[(a + b + c + d + 2) // 4 for a, b, c, d in zip(top[::2], top[1::2], low[::2], low[1::2])] for top, low in zip(rows[::2], rows[1::2])]
        width, height = self.size
        return self.resized(-(-width // 2), -(-height // 2), [[halved(plane) for plane in f] for f in self.frames])

    def taken(self, skip, count=None):
        return Video(self.parameters, self.frames[skip:][:count])

    def with_parameter(self, letter, value):
        """Returns the stream with the value of a header parameter replaced: W, H, F, I, A, C or X."""
        order = "WHFIACX"
        kept = [it for it in self.parameters if it[0] != letter] + [letter + value]
        return Video(sorted(kept, key=lambda it: order.index(it[0])), self.frames)

    def converted(self, color):
        """Returns the stream in another chroma format and bit depth. Values are shifted, rounded to the nearest and clamped. Chroma is
        repeated or is the mean of a block, with the last column and row repeated at the edge. New chroma has the middle value."""
        made = Video(self.with_parameter("C", color).parameters, [])
        if color != self.color:    # extensions that repeat the old format
            made.parameters = [it for it in made.parameters if not it.startswith("XYSCSS=")]
        deep, was = made.depth, self.depth

        def moved(value):
            return value << deep - was if deep >= was else min(value + (1 << was - deep >> 1) >> was - deep, 2 ** deep - 1)

        def places(have, want, at, size):
            if want >= have:
                found = range(want // have * at, want // have * (at + 1))
            else:
                found = [at // (have // want)]
            return [min(it, size - 1) for it in found]

        def plane(source, width, height, have, want):
            rows = []
            for y in range(height):
                row = []
                for x in range(width):
                    block = [source[b][a] for b in places(have[1], want[1], y, len(source)) for a in places(have[0], want[0], x, len(source[0]))]
                    row.append(moved((sum(block) + len(block) // 2) // len(block)))
                rows.append(row)
            return rows

        have, want = RATIOS[self.family], RATIOS[made.family]
        for frame in self.frames:
            planes = []
            for place, (width, height) in enumerate(made.sizes()):
                if place == 0:
                    planes.append([[moved(p) for p in row] for row in frame[0]])
                elif have:
                    planes.append(plane(frame[place], width, height, have, want))
                else:
                    planes.append([[1 << deep - 1] * width for _ in range(height)])
            made.frames.append(planes)
        return made

    def semi_planar(self, v_first=False, unused=0):
        """Returns the bytes of each frame: luma, then the interleaved samples of both chroma planes, each sample in the top bits."""
        bytes_each, frames = (1 if self.depth == 8 else 2), []
        for y, u, v in self.frames:
            first, second = (v, u) if v_first else (u, v)
            pairs = [p for a, b in zip(first, second) for pair in zip(a, b) for p in pair]
            frames.append(b"".join((p << unused).to_bytes(bytes_each, "little") for p in sum(y, []) + pairs))
        return frames

    def info(self, file_size=None, header=False, frames=None):
        pairs = [("size", "%dx%d" % self.size), ("format", FORMATS[self.family]), ("bit depth", self.depth)]
        pairs += [("chroma siting", SITES[self.color])] if self.color in SITES else []
        pairs += [("frame rate", self.of("F"))] if self.of("F") else []
        pairs += [("interlacing", FIELDS[self.of("I")])] if self.of("I") else []
        pairs += [("pixel aspect", self.of("A"))] if self.of("A") else []
        pairs += [("extension", it[1:]) for it in self.parameters if it[0] == "X"]
        size = sum(width * height for width, height in self.sizes()) * (1 if self.depth == 8 else 2)
        pairs += [("frame size", f"{size} bytes")] + ([] if file_size is None else [("file size", f"{file_size} bytes")])
        if not header:
            count = len(self.frames) if frames is None else frames
            pairs += [("frames", count)]
            over, under = map(int, (self.of("F") or "0:0").split(":"))
            if over and under:
                spent = count * under * 1000 // over
                pairs += [("duration", f"{spent // 1000}.{spent % 1000:03} s")]
        return "".join(f"{name}: {value}\n" for name, value in pairs)

    def sums(self, planes=False, before=0):
        """Returns the CRC-32 of each frame, or of each plane, by zlib. `passed` frames of the file come before the first one."""
        bytes_each, text = (1 if self.depth == 8 else 2), ""
        for number, frame in enumerate(self.frames, before + 1):
            parts = [b"".join(p.to_bytes(bytes_each, "little") for row in plane for p in row) for plane in frame]
            text += f"{number} " + " ".join(f"{zlib.crc32(it):08x}" for it in (parts if planes else [b"".join(parts)])) + "\n"
        return text

    def statistics(self, full=None):
        """The lines of `stats`: of the range that the header declares, unless another one is given."""
        text, most = "", 2 ** self.depth - 1
        if full is None:
            full = "XCOLORRANGE=FULL" in self.parameters
        for place, name in enumerate("YUV"[:len(self.sizes())]):
            values = [p for frame in self.frames for row in frame[place] for p in row]
            low, high = (0, most) if full else (16 << self.depth - 8, (240 if place else 235) << self.depth - 8)
            outside, above = sum(p <= most and not low <= p <= high for p in values), sum(p > most for p in values)
            text += f"{name}: minimum {min(values)}, maximum {max(values)}, mean {sum(values) / len(values):.2f}, outside the nominal range {outside}"
            text += f", above {most}: {above}\n" if above else "\n"
        return text

    def histogram(self):
        text = "plane,value,count\n"
        for place, name in enumerate("YUV"[:len(self.sizes())]):
            counts = Counter(p for frame in self.frames for row in frame[place] for p in row)
            text += "".join(f"{name},{value},{count}\n" for value, count in sorted(counts.items()))
        return text
