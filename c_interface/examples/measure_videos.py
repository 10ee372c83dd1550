"""Prints PSNR and SSIM of two videos of planar YUV, which PyAV decodes, of each plane and of all: measure_videos.py FILE FILE"""

import math
import re
import sys
from itertools import zip_longest

import av
import v_frame


def frames_of(name):
    """The frames of a video, over the memory that they were decoded into."""
    for frame in av.open(name).decode(video=0):
        found = re.fullmatch(r"yuvj?(4..)p(?:(\d+)le)?|gray(?:(\d+)le)?", frame.format.name)
        if not found:
            sys.exit(f"{name}: {frame.format.name} is not planar YUV")
        depth = int(found[2] or found[3] or 8)
        size = 1 if depth == 8 else 2
        planes = [v_frame.Plane(it, it.width, it.height, it.line_size // size, size) for it in frame.planes]
        yield v_frame.Frame(planes, found[1] or "mono", depth)


errors, similarities = {}, {}
for a, b in zip_longest(*map(frames_of, sys.argv[1:3])):
    if a is None or b is None:
        sys.exit("a video has more frames than the other")
    for name, p, q in [*zip("yuv", a, b), ("all", a, b)]:
        errors.setdefault(name, []).append(v_frame.mse(p, q))
        similarities.setdefault(name, []).append(v_frame.ssim(p, q, a.depth))
for name in errors:
    error, similarity = (sum(it[name]) / len(it[name]) for it in (errors, similarities))
    ratio = 10 * math.log10((2 ** a.depth - 1) ** 2 / error) if error else math.inf
    print(f"{name} PSNR {ratio:.6f} SSIM {similarity:.6f}")
