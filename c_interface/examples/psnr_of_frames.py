"""Prints the PSNR of each frame of two YUV4MPEG2 files, and of each of its planes: psnr_of_frames.py FILE FILE"""

import sys
from itertools import zip_longest

import v_frame
from v_frame import y4m

(header, frames), (other, others) = (y4m.read_y4m(name) for name in sys.argv[1:3])
if (header.sizes(), header.bit_depth) != (other.sizes(), other.bit_depth):
    sys.exit("the streams have different formats")
for number, (first, second) in enumerate(zip_longest(frames, others)):
    if first is None or second is None:
        sys.exit("one stream has more frames than the other")
    values = [v_frame.psnr(a, b, header.bit_depth) for a, b in zip(first, second)]
    print(number, *(f"{value:.4f}" for value in [v_frame.psnr(first, second), *values]))
