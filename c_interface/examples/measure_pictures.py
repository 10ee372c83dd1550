"""Prints PSNR and SSIM of each frame of two videos, which OpenCV decodes to colors: measure_pictures.py FILE FILE"""

import sys
from itertools import zip_longest

import cv2
import v_frame


def frames_of(name):
    """The blue, green and red planes of each frame of a video."""
    video = cv2.VideoCapture(name)
    if not video.isOpened():
        sys.exit(f"{name}: OpenCV cannot read it")
    while (found := video.read())[0]:
        yield v_frame.Frame(cv2.split(found[1]), "444")


for number, (a, b) in enumerate(zip_longest(*map(frames_of, sys.argv[1:3])), 1):
    if a is None or b is None:
        sys.exit("one video has more frames than the other")
    print(number, f"PSNR {v_frame.psnr(a, b):.2f} SSIM {v_frame.ssim(a, b):.6f}")
