"""Tests the examples of c_interface/examples that take frames from a decoder. The clips come from ffmpeg, and the expected values
from ffmpeg and dav1d.

A test is skipped, with a line of output, if the machine lacks a program: ffmpeg with its libraries, libdav1d with the program dav1d,
PyAV or OpenCV for Python (Debian: ffmpeg libavcodec-dev libavformat-dev libavutil-dev, libdav1d-dev dav1d, python3-av, python3-opencv).
"""
import os
import re
import shutil
import struct
import subprocess
import sys
from pathlib import Path

EXAMPLES = Path(__file__).resolve().parent.parent / "c_interface/examples"
STRICT = ["-Wall", "-Wextra", "-Werror", "-pedantic"]
# Formats and sizes of clips. The second clip of a pair has noise.
CLIPS = [("yuv420p", "65x49"), ("yuv420p10le", "67x35"), ("yuv422p", "66x50"), ("yuv444p12le", "41x43"), ("gray", "64x48"), ("gray10le", "33x31")]
AV1 = [("yuv420p", "65x49"), ("yuv420p10le", "67x71"), ("yuv444p", "64x64"), ("gray", "64x48"), ("yuv422p12le", "65x47")]


def run(*command, status=0, **how):
    """Runs a command and returns its output. Ends the test with the output if the exit status is another one."""
    done = subprocess.run([str(it) for it in command], capture_output=True, text=True, **how)
    if done.returncode != status:
        sys.exit(f"{' '.join(map(str, command))}: status {done.returncode}\n{done.stdout}{done.stderr}")
    return done.stdout + done.stderr


def ffmpeg(*words):
    """Runs ffmpeg in one thread and without its vector code, which adds the sums of SSIM in another order."""
    return run("ffmpeg", "-nostdin", "-nostats", "-hide_banner", "-y", "-cpuflags", "0", "-filter_complex_threads", "1", *words)


def clip(path, format, size, *words):
    ffmpeg("-f", "lavfi", "-i", f"testsrc=size={size}:rate=25", "-frames:v", "3", "-pix_fmt", format, *words, path)
    return path


def pairs(room):
    """Returns pairs of clips: one without loss and one with noise, and one decoded from a codec with B-frames."""
    for format, size in CLIPS:
        one, other = clip(room / f"{format}.mkv", format, size, "-c:v", "ffv1"), room / f"{format}_noise.mkv"
        ffmpeg("-i", one, "-vf", "noise=alls=20:allf=t", "-pix_fmt", format, "-c:v", "ffv1", other)
        yield one, other
    one, other = clip(room / "lossless.mkv", "yuv420p", "66x50", "-c:v", "ffv1"), room / "lossy.mkv"
    ffmpeg("-i", one, "-c:v", "mpeg4", "-bf", "2", "-q:v", "20", other)
    yield one, other


def measured(one, other):
    """Returns the measures that ffmpeg's filters print for two videos, in the format of the examples."""
    said = ffmpeg("-i", one, "-i", other, "-lavfi", "[0][1]psnr;[0][1]ssim", "-f", "null", "-")
    ratios = re.search(r"PSNR (.*?) min:", said)[1].replace("average", "all").split()
    similarities = re.search(r"SSIM (.*)", said)[1].split()[::2]
    return "".join(f"{ratio.replace(':', ' PSNR ')} SSIM {similarity.split(':')[1]}\n" for ratio, similarity in zip(ratios, similarities))


def measured_colors(one, other):
    """Returns the measures of each frame as a color picture."""
    filters = "[0]format=gbrp,split[a][b];[1]format=gbrp,split[c][d];[a][c]psnr=stats_file=-;[b][d]ssim=stats_file=-"
    said = ffmpeg("-i", one, "-i", other, "-lavfi", filters, "-f", "null", "-")
    ratios, similarities = re.findall(r"psnr_avg:(\S+)", said), re.findall(r"^n:.* All:(\S+)", said, re.M)
    return "".join(f"{number} PSNR {ratio} SSIM {similarity}\n" for number, (ratio, similarity) in enumerate(zip(ratios, similarities), 1))


def upside_down():
    """Writes an AVI file of one frame. ffmpeg's decoder returns its rows from the bottom up, with negative line sizes."""
    def chunk(name, data):
        return name + struct.pack("<I", len(data)) + data + bytes(len(data) % 2)
    frame = bytes(16 * 16 * 3 // 2)
    avih = struct.pack("<10I", 40000, 0, 0, 0, 1, 0, 1, 0, 16, 16) + bytes(16)
    strh = b"vidsI420" + struct.pack("<10I", 0, 0, 0, 1, 25, 0, 1, 0, 0, 0) + bytes(8)
    strf = struct.pack("<IiiHH4sIiiII", 49, 16, 16, 1, 12, b"I420", len(frame), 0, 0, 0, 0) + b"BottomUp\0"
    head = b"hdrl" + chunk(b"avih", avih) + chunk(b"LIST", b"strl" + chunk(b"strh", strh) + chunk(b"strf", strf))
    return chunk(b"RIFF", b"AVI " + chunk(b"LIST", head) + chunk(b"LIST", b"movi" + chunk(b"00dc", frame)))


def same(what, found, wanted):
    if found != wanted:
        sys.exit(f"{what}: found {found!r}, expected {wanted!r}")


class Installed:
    """The programs and modules of a machine, and the environment for programs over the libraries in a folder."""

    def __init__(self, prefix):
        paths = {"PKG_CONFIG_PATH": "lib/pkgconfig", "LD_LIBRARY_PATH": "lib", "PYTHONPATH": "lib/python"}
        self.environment = {**os.environ, **{name: str(prefix / path) for name, path in paths.items()}, "PYTHONDONTWRITEBYTECODE": "1"}
        self.packages = [it for it in (sys.executable, "/usr/bin/python3") if Path(it).exists()]

    def has(self, *libraries):
        return not subprocess.run(["pkg-config", "--exists", *libraries]).returncode

    def python(self, module):
        """Returns a Python interpreter with a module and numpy."""
        return next((it for it in self.packages if not subprocess.run([it, "-c", f"import {module}, numpy"], capture_output=True).returncode), None)

    def built(self, room, name, *libraries):
        """Builds an example in C as a user would build it."""
        flags = run("pkg-config", "--cflags", "--libs", "v_frame", "v_frame_y4m", *libraries, env=self.environment).split()
        run("gcc", *STRICT, EXAMPLES / f"{name}.c", *flags, "-lm", "-o", room / name)
        return room / name

    def refused(self, command, *words):
        """Returns the message of a program that rejects its arguments."""
        return run(*command, *words, status=2, env=self.environment)


def test_measures(installed, room, command, couples):
    for one, other in couples:
        same(f"{command[-1].name} of {one.name}", run(*command, one, other, env=installed.environment), measured(one, other))
    print(f"{command[-1].name}: equal to ffmpeg for {len(couples)} pairs of videos")


def test_refusals(installed, room, program, couples):
    """Checks the message and the exit status 2 for inputs that are not planar YUV, have rows from the bottom up, or differ in kind."""
    (room / "upside_down.avi").write_bytes(upside_down())
    raw = {it: clip(room / f"{it}.nut", it, "64x48", "-c:v", "rawvideo") for it in ("nv12", "p010le", "yuva420p", "rgb24")}
    longer = room / "longer.mkv"
    ffmpeg("-f", "lavfi", "-i", "testsrc=size=66x50:rate=25", "-frames:v", "4", "-pix_fmt", "yuv422p", "-c:v", "ffv1", longer)
    not_planar, small = "the format is not planar YUV", clip(room / "small.mkv", "yuv420p", "14x14", "-c:v", "ffv1")
    for words, wanted in [((raw[it], raw[it]), not_planar) for it in raw] + [
            ((room / "upside_down.avi",) * 2, "a line size is negative: the rows go from the bottom up"),
            ((couples[0][0], couples[1][0]), "the videos have different formats or sizes"), ((couples[2][0], longer), "one video has more frames than the other"),
            ((small, small), "a side is below 8, so that no window of SSIM fits"), ((room / "none", small), "a file cannot be read"),
            ((small,), "usage: measure_videos FILE FILE")]:
        same(f"measure_videos {words}", installed.refused([program], *words), f"measure_videos: {wanted}\n")


def test_av1(installed, room):
    """A stream by libdav1d and libv_frame_y4m is the one that dav1d writes, byte for byte, with the range of the video in its header."""
    encoders = [it for it in ("libaom-av1", "libsvtav1") if it in ffmpeg("-encoders")]
    if not encoders:
        return print("av1_to_y4m is skipped: ffmpeg has no AV1 encoder")
    program, count = installed.built(room, "av1_to_y4m", "dav1d"), 0
    for format, size in AV1 if encoders[0] == "libaom-av1" else [("yuv420p", "66x66"), ("yuv420p10le", "66x66")]:
        coded = clip(room / f"{format}.obu", format, size, "-c:v", encoders[0], "-f", "obu")
        run("dav1d", "--quiet", "--input", coded, "--output", room / "of_dav1d.y4m")
        found = subprocess.run([program, coded], stdout=subprocess.PIPE, env=installed.environment, check=True).stdout
        line, end, frames = (room / "of_dav1d.y4m").read_bytes().partition(b"\n")
        asked = ["-v", "error", "-show_entries", "stream=color_range", "-of", "csv=p=0", coded]
        range_of = b" XCOLORRANGE=" + (b"FULL" if run("ffprobe", *asked).strip() == "pc" else b"LIMITED")
        wanted = line + range_of * (b" XCOLORRANGE=" not in line) + end + frames
        same(f"av1_to_y4m of {format}", found == wanted, True)
        count += 1
    (room / "no.obu").write_bytes(b"no AV1 here")
    for words in ([room / "no.obu"], [room / "none"], []):
        installed.refused([program], *words)
    print(f"av1_to_y4m: equal to dav1d for {count} streams of {encoders[0]}")


def test(prefix, folder):
    """Runs the examples whose programs and modules exist on the machine."""
    installed, room = Installed(prefix), folder / "decoded"
    room.mkdir()
    if not shutil.which("ffmpeg"):
        return print("the examples over decoders are skipped: there is no ffmpeg (Debian: ffmpeg)")
    couples = list(pairs(room))
    if installed.has("libavformat", "libavcodec", "libavutil"):
        program = installed.built(room, "measure_videos", "libavformat", "libavcodec", "libavutil")
        test_measures(installed, room, [program], couples)
        test_refusals(installed, room, program, couples)
    else:
        print("measure_videos.c is skipped (Debian: libavcodec-dev libavformat-dev libavutil-dev)")
    if installed.has("dav1d") and shutil.which("dav1d"):
        test_av1(installed, room)
    else:
        print("av1_to_y4m is skipped (Debian: libdav1d-dev dav1d)")
    if python := installed.python("av"):
        test_measures(installed, room, [python, EXAMPLES / "measure_videos.py"], couples)
    else:
        print("measure_videos.py is skipped: no Python has PyAV and numpy (Debian: python3-av python3-numpy)")
    if python := installed.python("cv2"):
        colors = clip(room / "colors.mkv", "bgr0", "65x49", "-c:v", "ffv1"), room / "colors_noise.mkv"
        ffmpeg("-i", colors[0], "-vf", "noise=alls=20:allf=t", "-pix_fmt", "bgr0", "-c:v", "ffv1", colors[1])
        found = run(python, EXAMPLES / "measure_pictures.py", *colors, env=installed.environment)
        same("measure_pictures.py", found, measured_colors(*colors))
        print("measure_pictures.py: equal to ffmpeg for color frames")
    else:
        print("measure_pictures.py is skipped: no Python has OpenCV and numpy (Debian: python3-opencv python3-numpy)")
