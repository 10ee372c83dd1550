"""Calls on video planes and frames, over numpy arrays or any buffer.

A plane is a two-dimensional numpy array of uint8, or of uint16 in the byte order of the machine, with the shape (height, width). An
array whose rows are not next to each other is used without a copy. Without numpy, `Plane` makes a plane of any buffer. A subclass of
ndarray counts as the array that it is; a masked array is rejected.

The calls on planes, and the parsing and writing of header lines, are made by `libv_frame` and `libv_frame_y4m`, whose contracts the
prover has checked: what a call returns, what it writes, and that the rest of a buffer is unchanged. The libraries that cargo builds
are translated from the proved sources and are tested. The code of this module is tested, as are the reading and writing of files,
`Frame.convert`, and PNG files, which Python's zlib compresses. Sums are exact integers.

A call that makes a plane returns a new array if its first argument is an array, and otherwise a new `Plane` over a bytearray whose
stride is its width. `copy`, `copy_clipped`, `fill`, `blend`, `blend_with_mask` and `difference` write their target in place. What is
between the rows of a target is unchanged, and a target may overlap the other planes.

Each error is an `Error` and one of Python's own classes, and its text names the parameter, what was found and what is allowed. A call
on planes that raises an error has written nothing.

Any number of threads may call the module at the same time, and the calls on planes release the interpreter's lock while they run.
While a call writes a plane, no other thread may write it or rely on its samples. `y4m.Frames` and `y4m.Y4mWriter` have a lock each.

>>> a = Plane(bytes([1, 2, 3, 0, 4, 5, 6]), 3, 2, stride=4)
>>> b = Plane(bytes([1, 2, 4, 4, 5, 8]), 3, 2)
>>> sse(a, b), sad(a, b), first_difference(a, b)
(5, 3, (2, 0))
"""

from ._calls import FORMATS, Part, copy, copy_clipped, fill, first_difference, half, lay_out, pad, sad, sse
from ._conversions import (COMPONENTS, blend, blend_with_mask, count_between, difference, downscale_to_edge, halve_columns,
                           histogram, resize_area, resize_nearest, to_full_range, to_limited_range, yuv)
from ._errors import (AccessError, Error, KindError, NumberError, RowsError, SizesError, StatusError, StreamError, Y4mError,
                      Y4mStreamError)
from ._frames import Frame
from ._library import VERSION
from ._measures import Greatest, count_above, greatest_difference, mse, psnr, ssim
from ._pictures import (ORDERS, RANGES, STANDARDS, TURNS, PairStatistics, Statistics, convert_depth, deinterleave, interleave,
                        pair_statistics, rgb, statistics, turn, upscale)
from ._planes import Plane
from ._png import png_bytes, write_png

__version__ = VERSION
__all__ = ["AccessError", "COMPONENTS", "Error", "FORMATS", "Frame", "Greatest", "KindError", "NumberError", "ORDERS",
           "PairStatistics", "Part", "Plane", "RANGES", "RowsError", "STANDARDS", "SizesError", "Statistics", "StatusError",
           "StreamError", "TURNS", "VERSION", "Y4mError", "Y4mStreamError", "blend", "blend_with_mask", "convert_depth", "copy", "copy_clipped", "count_above",
           "count_between", "deinterleave", "difference", "downscale_to_edge", "fill", "first_difference", "greatest_difference",
           "half", "halve_columns", "histogram", "interleave", "lay_out", "mse", "pad", "pair_statistics", "png_bytes", "psnr",
           "resize_area", "resize_nearest", "rgb", "sad", "sse", "ssim", "statistics", "to_full_range", "to_limited_range", "turn", "upscale",
           "write_png", "yuv"]
