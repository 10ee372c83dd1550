"""Conversions between Y'CbCr and RGB, by the weights of the standards."""

from fractions import Fraction

from .pictures import clamped, entry, numbers, rounded, weighted

WEIGHTS = {"Bt601": ("0.299", "0.587", "0.114"), "Bt709": ("0.2126", "0.7152", "0.0722"), "Bt2020": ("0.2627", "0.678", "0.0593")}
RANGES = {"Limited": (16, Fraction(219), Fraction(224)), "Full": (0, Fraction(255), Fraction(255))}
ORDERS = {"Rgb": "rgb", "Bgr": "bgr", "Rgba": "rgba", "Bgra": "bgra"}


def rgb_matrix(standard, kind):
    """Returns the level of black, the change of each channel per step of luma, of red per step of Cr, of green per step of Cb and of Cr,
    and of blue per step of Cb, in parts of 16384."""
    red, green, blue = map(Fraction, WEIGHTS[standard])
    black, luma, chroma = RANGES[kind]
    scale = 2 ** 14 * 255
    parts = (scale / luma, scale / chroma * 2 * (1 - red), scale / chroma * 2 * blue * (1 - blue) / green,
             scale / chroma * 2 * red * (1 - red) / green, scale / chroma * 2 * (1 - blue))
    return [black, *map(rounded, parts)]


def yuv_matrix(standard, kind):
    """Returns the level of black, the changes of luma per step of red, green and blue, the changes of Cb, and the changes of Cr, in
    parts of 65536."""
    red, green, blue = map(Fraction, WEIGHTS[standard])
    black, luma, chroma = RANGES[kind]
    by_luma, half = 2 ** 16 * luma / 255, 2 ** 16 * chroma / 255 / 2
    parts = (by_luma * red, by_luma * green, by_luma * blue, half * red / (1 - blue), half * green / (1 - blue), half,
             half, half * green / (1 - red), half * blue / (1 - red))
    return [black, *map(rounded, parts)]


def decoded(standard, kind, y, u, v):
    """Returns red, green and blue."""
    black, luma, red_v, green_u, green_v, blue_u = rgb_matrix(standard, kind)
    base = luma * (y - black)
    sums = base + red_v * (v - 128), base - green_u * (u - 128) - green_v * (v - 128), base + blue_u * (u - 128)
    return [clamped((value + 2 ** 13) >> 14, 255) for value in sums]


def encoded(standard, kind, r, g, b):
    """Returns luma, Cb and Cr."""
    black, y_red, y_green, y_blue, u_red, u_green, u_blue, v_red, v_green, v_blue = yuv_matrix(standard, kind)
    sums = (y_red * r + y_green * g + y_blue * b + black * 2 ** 16, u_blue * b - u_red * r - u_green * g + 2 ** 23,
            v_red * r - v_green * g - v_blue * b + 2 ** 23)
    return [clamped((value + 2 ** 15) >> 16, 255) for value in sums]


def samples(seed):
    """Returns luma, Cb and Cr of a picture of five by three pixels, and bytes of colors."""
    shift = 2 * seed
    return [[(a * i + b) % 256 for i in range(15)] for a, b in ((37 + shift, 11), (53 + shift, 7), (91 + shift, 29))], \
        [((67 + shift) * i + 3) % 256 for i in range(60)]


def matrix_lines():
    for standard in WEIGHTS:
        for kind in RANGES:
            yield f"rgb_matrix {standard} {kind} = {numbers(rgb_matrix(standard, kind))}"
            yield f"yuv_matrix {standard} {kind} = {numbers(yuv_matrix(standard, kind))}"


def wide_lines(factors):
    """Yields the conversions of pictures of 67 by 9 pixels and of their colors, by the sums of whole buffers."""
    planes = [[entry(i, factor) % 256 for i in range(67 * 9)] for factor in (factors.source, factors.target, factors.third)]
    for standard in WEIGHTS:
        for kind in RANGES:
            colors = [decoded(standard, kind, *pixel) for pixel in zip(*planes)]
            samples = [encoded(standard, kind, *pixel) for pixel in zip(*planes)]
            sums = [weighted(value for pixel in colors for value in pixel), *(weighted(channel) for channel in zip(*samples))]
            yield f"wide {standard} {kind} = {numbers(sums)}"


def exact_lines(factors):
    """Yields the conversions of the same pictures at each depth, by fractions that are rounded once."""
    for depth in (8, 9, 10, 12, 16):
        unit, most = 2 ** (depth - 8), 2 ** depth - 1
        planes = [[entry(i, factor) % 2 ** depth for i in range(67 * 9)] for factor in (factors.source, factors.target, factors.third)]
        levels = {"Limited": (16 * unit, 219 * unit, 224 * unit), "Full": (0, most, most)}
        for standard in WEIGHTS:
            red, green, blue = map(Fraction, WEIGHTS[standard])
            for kind, (black, luma, chroma) in levels.items():
                shown = []
                for y, u, v in zip(*planes):
                    y, u, v = Fraction(y - black, luma), Fraction(u - 128 * unit, chroma), Fraction(v - 128 * unit, chroma)
                    r, b = y + 2 * (1 - red) * v, y + 2 * (1 - blue) * u
                    shown += [clamped(rounded(255 * value), 255) for value in (r, (y - red * r - blue * b) / green, b)]
                yield f"exact {standard} {kind} {depth} = {weighted(shown)}"


def stored_lines():
    """Yields the colors after they were converted to luma and chroma and back."""
    for standard in WEIGHTS:
        for kind in RANGES:
            for color in ((200, 30, 77), (0, 0, 0), (255, 255, 255), (1, 254, 128)):
                yield f"stored {standard} {kind} {numbers(color)} = {numbers(decoded(standard, kind, *encoded(standard, kind, *color)))}"


def lines(factors, seed):
    planes, colors = samples(seed)
    found = [factors.line()]
    found += [f"{name} = {numbers(values)}" for name, values in zip(("y", "u", "v", "colors"), (*planes, colors))]
    for standard in WEIGHTS:
        for kind in RANGES:
            for order, letters in ORDERS.items():
                shown = [dict(zip("rgba", (*decoded(standard, kind, *pixel), 255))) for pixel in zip(*planes)]
                found.append(f"decode {standard} {kind} {order} = {numbers(part[c] for part in shown for c in letters)}")
                size = len(letters)
                stored = [dict(zip(letters, colors[size * i:size * i + size])) for i in range(15)]
                channels = zip(*(encoded(standard, kind, *(part[c] for c in "rgb")) for part in stored))
                found.append(f"encode {standard} {kind} {order} = {numbers(value for channel in channels for value in channel)}")
    return [*found, *matrix_lines(), *wide_lines(factors), *exact_lines(factors), *stored_lines()]
