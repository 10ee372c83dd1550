"""A typed program of a user, which `mypy --strict` accepts. Lines that end with `# error` must be rejected."""

import io

import numpy
import v_frame
from numpy.typing import NDArray
from v_frame import Frame, Plane, y4m


def of_planes(plane: Plane) -> float:
    half: Plane = v_frame.half(plane)
    turned: Plane = v_frame.turn(half, "rotate_90")
    counts: list[int] = v_frame.histogram(plane)
    colors: Plane = v_frame.rgb(plane, plane, plane, range="full")
    frame: Frame[Plane] = Frame([plane], "mono")
    luma: Plane = frame.y
    place: tuple[int, int] | None = v_frame.first_difference(plane, luma)
    data: bytes = v_frame.png_bytes(colors) + turned.tobytes()
    return v_frame.psnr(plane, luma) + len(data) + counts[0] + (place[0] if place else 0)


def of_arrays(array: NDArray[numpy.uint8], deep: NDArray[numpy.uint16]) -> float:
    half: NDArray[numpy.uint8] = v_frame.half(array)
    counts: NDArray[numpy.uint64] = v_frame.histogram(deep, 10)
    colors: NDArray[numpy.uint8] = v_frame.rgb(array, array, array)
    frame: Frame[NDArray[numpy.uint8]] = Frame([array, half, half])
    picture: NDArray[numpy.uint8] = frame.to_rgb("bt601")
    return v_frame.ssim(frame, frame) + float(counts[0]) + float(colors[0, 0, 0]) + float(picture[0, 0, 0])


def of_streams(name: str) -> list[float]:
    header, frames = y4m.read_y4m(name)
    stated: str | None = header.range
    extensions: tuple[bytes, ...] = header.extensions
    with y4m.Y4mWriter(io.BytesIO(), header.with_format("444", 10)) as writer:
        for frame in frames:
            writer.write(frame.convert("444", 10))
    return [0.0 if stated is None else float(len(extensions))]


def wrong(plane: Plane) -> None:
    v_frame.psnr("nonsense", 3)  # error
    v_frame.turn(plane, "left")  # error
    v_frame.lay_out(4, 4, "I420")  # error
    y4m.Header(4, 4, range="tv")  # error
    plane.convert("444")  # error
    v_frame.fill(plane, 1.5)  # error
