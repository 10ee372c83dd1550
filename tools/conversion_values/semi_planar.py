"""Bytes of semi-planar layouts."""

from .pictures import entry, weighted

# Each layout, with the luma columns and rows for each chroma pixel, the depth, and whether V comes first.
LAYOUTS = {"Nv12": (2, 2, 8, False), "Nv21": (2, 2, 8, True), "Nv16": (2, 1, 8, False), "Nv24": (1, 1, 8, False),
           "P010": (2, 2, 10, False), "P012": (2, 2, 12, False), "P016": (2, 2, 16, False)}
SIZES = ((7, 5), (131, 9), (64, 6))
LONG = (("Nv12", 131_075, 2), ("P010", 65_539, 3))


def picture_bytes(layout, width, height, factor):
    """Returns the bytes of a picture whose samples are numbered through Y, U and V."""
    across, down, depth, is_v_first = LAYOUTS[layout]
    chroma = -(-width // across) * -(-height // down)
    values = [entry(i, factor) % 2 ** depth for i in range(width * height + 2 * chroma)]
    luma, u, v = values[:width * height], values[width * height:-chroma], values[-chroma:]
    pairs = zip(v, u) if is_v_first else zip(u, v)
    samples = [*luma, *(sample for pair in pairs for sample in pair)]
    if depth == 8:
        return bytes(samples)
    return b"".join((sample << (16 - depth)).to_bytes(2, "little") for sample in samples)


def lines(factors):
    cases = [(layout, *size) for layout in LAYOUTS for size in SIZES] + list(LONG)
    return [f"bytes {layout} {width} {height} = {weighted(picture_bytes(layout, width, height, factors.source))}"
            for layout, width, height in cases] + \
        [f"all_bytes Nv12 5 3 = {' '.join(map(str, picture_bytes('Nv12', 5, 3, factors.source)))}"]
