"""Times what users of numpy write for the calls of the library, and the module `v_frame` on the same arrays: least of 30 runs.

usage: numpy_times.py      with the module on PYTHONPATH and the library on LD_LIBRARY_PATH
"""
import sys
import time

import numpy
import v_frame

SIZES = ((64, 64), (1080, 1920))
RUNS = 30


def least(work):
    """The least time of a call, in nanoseconds."""
    best = None
    for _ in range(RUNS):
        start = time.perf_counter_ns()
        work()
        taken = time.perf_counter_ns() - start
        best = taken if best is None else min(best, taken)
    return best


def cases(a, b):
    """What is compared: a name, the work by numpy, and the same by the module. numpy widens, since its bytes wrap."""
    yield "squared errors", lambda: int(((a.astype(numpy.int64) - b) ** 2).sum()), lambda: v_frame.sse(a, b)
    yield "absolute differences", lambda: int(numpy.abs(a.astype(numpy.int64) - b).sum()), lambda: v_frame.sad(a, b)
    yield "first difference", lambda: numpy.argwhere(a != b)[:1], lambda: v_frame.first_difference(a, b)
    yield "half size", lambda: halved(a.astype(numpy.uint32)).astype(a.dtype), lambda: v_frame.half(a)


def halved(a):
    return (a[::2, ::2] + a[1::2, ::2] + a[::2, 1::2] + a[1::2, 1::2] + 2) // 4


def main():
    print(f"numpy {numpy.__version__}, Python {sys.version.split()[0]}: time by numpy, time by v_frame, ratio")
    numbers = numpy.random.default_rng(2026)
    for height, width in SIZES:
        for kind in (numpy.uint8, numpy.uint16):
            a, b = (numbers.integers(0, numpy.iinfo(kind).max, (height, width), dtype=kind, endpoint=True) for _ in range(2))
            for name, by_numpy, by_module in cases(a, b):
                theirs, ours = least(by_numpy), least(by_module)
                print(f"{name}, {kind.__name__}, {width}x{height}: {theirs / 1000:.1f} us, {ours / 1000:.1f} us, {ours / theirs:.3f}")


main()
