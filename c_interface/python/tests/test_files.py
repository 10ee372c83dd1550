"""Tests files that write_y4m writes. Each is complete or unchanged, even if writing fails: test_files.py [--without-numpy]"""

import set_up

import contextlib
import errno
import os
import resource
import signal
import subprocess
import sys
import threading
import unittest
from unittest import mock

from rooms import GOOD, HEADER, LINE, OTHER, Room, frames_of, stream_of
from v_frame import Frame, Plane, write_png, y4m


class Names(Room):
    def test_onto_itself_by_every_name(self):
        names = ("work/a.y4m", "./work/../work/a.y4m", os.path.abspath("work/a.y4m"), b"work/a.y4m", "work/link.y4m", "work/second.y4m",
                 "work/hard.y4m")
        for source in names:
            for target in names:
                self.put("work/a.y4m", GOOD)
                for name in ("link", "second", "hard"):
                    with contextlib.suppress(FileNotFoundError):
                        os.unlink(f"work/{name}.y4m")
                os.symlink("a.y4m", "work/link.y4m")
                os.symlink("link.y4m", "work/second.y4m")
                os.link("work/a.y4m", "work/hard.y4m")
                header, frames = y4m.read_y4m(source)
                y4m.write_y4m(target, header, (Frame(it) for number, it in enumerate(frames) if number != 1))
                self.assertHas(target, stream_of((1, 3)))
                # The file gets a new name entry, so another hard link keeps the old frames.
                self.assertHas("work/hard.y4m" if target != "work/hard.y4m" else "work/a.y4m", GOOD)
                self.assertTrue(os.path.islink("work/link.y4m") and os.path.islink("work/second.y4m"))
                self.assertNothingBeside()

    def test_links(self):
        os.mkdir("work/folder")
        os.symlink("folder/new.y4m", "work/dangling.y4m")
        y4m.write_y4m("work/dangling.y4m", HEADER, frames_of((7, 8)))
        self.assertHas("work/folder/new.y4m", OTHER)
        self.assertTrue(os.path.islink("work/dangling.y4m"))
        os.symlink("round.y4m", "work/round.y4m")
        self.assertRaises(OSError, y4m.write_y4m, "work/round.y4m", HEADER, frames_of((7, 8)))
        self.assertTrue(os.path.islink("work/round.y4m"))
        os.symlink("a.y4m", "work/link1")
        for number in range(2, 40):
            os.symlink(f"link{number - 1}", f"work/link{number}")
        y4m.write_y4m("work/link39", HEADER, frames_of((7, 8)))
        self.assertHas("work/a.y4m", OTHER)
        self.assertTrue(os.path.islink("work/link39"))
        self.assertNothingBeside()
        for name in ("", "work/none/", "work/none/new.y4m", "work"):
            self.assertRaises(OSError, y4m.write_y4m, name, HEADER, frames_of((7, 8)))
        self.assertFalse([it for it in os.listdir(".") if it != "work"])

    def test_permissions(self):
        for mode in (0o600, 0o640, 0o755, 0o222):
            self.put("work/b.y4m", GOOD)
            os.chmod("work/b.y4m", mode)
            y4m.write_y4m("work/b.y4m", HEADER, frames_of((7, 8)))
            self.assertEqual(os.stat("work/b.y4m").st_mode & 0o7777, mode)
            os.chmod("work/b.y4m", 0o600)
            self.assertHas("work/b.y4m", OTHER)
            os.unlink("work/b.y4m")
        os.umask(0o027)
        y4m.write_y4m("work/b.y4m", HEADER, frames_of((7, 8)))
        self.assertEqual(os.stat("work/b.y4m").st_mode & 0o7777, 0o640)
        os.chmod("work/a.y4m", 0o444)
        self.assertRaises(PermissionError, y4m.write_y4m, "work/a.y4m", HEADER, frames_of((7, 8)))
        self.assertHas("work/a.y4m", GOOD)
        self.assertNothingBeside()

    def test_names_that_are_taken(self):
        names = [f"work/b.y4m.partial{number or ''}" for number in range(100)]
        for name in names[:99]:
            self.put(name, b"taken")
        y4m.write_y4m("work/b.y4m", HEADER, frames_of((7, 8)))
        self.assertHas("work/b.y4m", OTHER)
        self.assertFalse(os.path.exists(names[99]))
        os.unlink("work/b.y4m")
        # A dangling link has the name too, and nothing is written through it.
        os.symlink("elsewhere", names[99])
        self.assertRaises(FileExistsError, y4m.write_y4m, "work/b.y4m", HEADER, frames_of((7, 8)))
        self.assertFalse(os.path.exists("work/b.y4m") or os.path.exists("work/elsewhere"))
        for name in names[:99]:
            self.assertHas(name, b"taken")

    def test_a_folder_is_refused(self):
        self.assertRaises(IsADirectoryError, y4m.write_y4m, "work", HEADER, frames_of((7, 8)))

    def test_a_target_that_becomes_a_folder_meanwhile(self):
        def frames():
            yield from frames_of((7, 8))
            os.mkdir("work/b.y4m")

        self.assertRaises(OSError, y4m.write_y4m, "work/b.y4m", HEADER, frames())
        self.assertNothingBeside()
        os.rmdir("work/b.y4m")


class Failures(Room):
    def test_frames_that_fail(self):
        def short():
            self.put("short.y4m", GOOD[:-1])
            return y4m.read_y4m("short.y4m")[1]

        def stops(error):
            yield frames_of((7,))[0]
            raise error

        self.fails(y4m.Y4mError, lambda name: y4m.write_y4m(name, HEADER, short()), "expected 12 bytes of a frame, found 11")
        for error in (RuntimeError, KeyboardInterrupt, OSError):
            self.fails(error, lambda name: y4m.write_y4m(name, HEADER, stops(error())))
        self.fails(TypeError, lambda name: y4m.write_y4m(name, HEADER, None))
        self.fails(FileNotFoundError, lambda name: y4m.write_y4m(name, *y4m.read_y4m("missing.y4m")))

    def test_a_file_that_may_not_grow(self):
        most = resource.getrlimit(resource.RLIMIT_FSIZE)
        before = signal.signal(signal.SIGXFSZ, signal.SIG_IGN)
        resource.setrlimit(resource.RLIMIT_FSIZE, (1024, most[1]))
        try:
            with self.assertRaises(OSError) as found:
                y4m.write_y4m("work/a.y4m", HEADER, frames_of([7] * 100))
            self.assertRaises(OSError, y4m.write_y4m, "work/new.y4m", HEADER, frames_of([7] * 10000))
        finally:
            resource.setrlimit(resource.RLIMIT_FSIZE, most)
            signal.signal(signal.SIGXFSZ, before)
        self.assertEqual(found.exception.errno, errno.EFBIG)
        self.assertHas("work/a.y4m", GOOD)
        self.assertEqual(os.listdir("work"), ["a.y4m"])

    def test_a_full_device(self):
        for count in (1, 10000):
            with self.assertRaises(OSError) as found:
                y4m.write_y4m("/dev/full", HEADER, frames_of([7] * count))
            self.assertEqual(found.exception.errno, errno.ENOSPC)
        self.assertRaises(OSError, write_png, "/dev/full", Plane(bytes(16), 4, 4))
        self.assertTrue(os.path.exists("/dev/full") and not os.path.isfile("/dev/full"))

    def test_a_target_is_replaced_by_what_is_on_the_disk(self):
        steps = []

        def replaces(new, old):
            self.assertHas(new, OTHER)
            steps.append("replace")

        with mock.patch("os.fsync", lambda _: steps.append("fsync")), mock.patch("os.replace", replaces):
            y4m.write_y4m("work/a.y4m", HEADER, frames_of((7, 8)))
        self.assertEqual(steps, ["fsync", "replace"])
        os.unlink("work/a.y4m.partial")
        for step in ("fsync", "replace"):
            with mock.patch(f"os.{step}", side_effect=OSError(errno.EIO, "no")):
                self.fails(OSError, lambda name: y4m.write_y4m(name, HEADER, frames_of((7, 8))))


PROGRAM = '''
import os, sys
from v_frame import Plane, y4m
HEADER = y4m.Header(4, 2, "420", siting="mpeg2")
def frames(numbers):
    return [[Plane(bytes([it] * 8), 4, 2), Plane(bytes([it] * 2), 2, 1), Plane(bytes([it] * 2), 2, 1)] for it in numbers]
'''


class Devices(Room):
    """Targets that are not regular files are written directly."""

    def test_devices_and_pipes(self):
        y4m.write_y4m("/dev/null", HEADER, frames_of((7, 8)))
        self.assertFalse(os.path.isfile("/dev/null"))
        os.mkfifo("work/pipe")
        found = []

        def read():
            with open("work/pipe", "rb") as pipe:
                found.append(pipe.read())

        reader = threading.Thread(target=read)
        reader.start()
        y4m.write_y4m("work/pipe", HEADER, frames_of((7, 8)))
        reader.join(20)
        self.assertEqual(found, [OTHER])
        self.assertFalse(os.path.isfile("work/pipe"))
        writer = threading.Thread(target=lambda: self.put("work/pipe", GOOD))
        writer.start()
        self.assertEqual(len(list(y4m.read_y4m("work/pipe")[1])), 3)
        writer.join(20)


# Continues as the user nobody after all modules are loaded. PR_SET_DUMPABLE keeps /proc/self accessible to the program.
WITHOUT_RIGHTS = '''
if os.geteuid() == 0:
    import ctypes
    os.setuid(65534)
    ctypes.CDLL(None).prctl(4, 1, 0, 0, 0)
'''


class Runs(Room):
    """Runs separate programs. Files that are already open are written directly."""

    as_nobody = False

    def setUp(self):
        super().setUp()
        os.chmod("work", 0o777)

    def run_in_shell(self, words, program):
        """Runs a line of shell code, in which $0 is Python and $1 is a program that writes frames."""
        # The output of a program is buffered, unless the user's environment turns this off.
        environment = {name: value for name, value in os.environ.items() if name != "PYTHONUNBUFFERED"}
        return subprocess.run(["timeout", "60", "sh", "-c", words, sys.executable, PROGRAM + WITHOUT_RIGHTS + program],
                              capture_output=True, text=True, env=environment)

    def test_a_run_that_is_killed(self):
        os.chmod("work/a.y4m", 0o666)
        program = PROGRAM + WITHOUT_RIGHTS + '''
def endless():
    yield from frames((7, 8))
    os.kill(os.getpid(), 9)
y4m.write_y4m("work/a.y4m", HEADER, endless())
'''
        self.assertEqual(subprocess.run([sys.executable, "-c", program]).returncode, -9)
        self.assertHas("work/a.y4m", GOOD)

    def test_a_full_disk(self):
        os.mkdir("disk")
        program = PROGRAM + '''
for name in ("disk/a.y4m", "disk/new.y4m"):
    try:
        y4m.write_y4m(name, HEADER, frames([7] * 2000))
    except OSError as error:
        assert error.errno == 28, error
    else:
        raise SystemExit("a full disk is not told")
'''
        run = subprocess.run(["unshare", "-rm", "sh", "-c", 'mount -t tmpfs -o size=8k tmpfs disk || exit 9; cp work/a.y4m disk/a.y4m; '
                              '"$0" -c "$1" && cmp disk/a.y4m work/a.y4m && [ "$(ls disk)" = a.y4m ]', sys.executable, program],
                             capture_output=True, text=True)
        if run.returncode == 9 or run.stderr.startswith("unshare"):
            self.skipTest("no disk can be made here")
        self.assertEqual((run.returncode, run.stderr), (0, ""))

    @unittest.skipUnless(os.path.exists("/proc/self/comm"), "there is no /proc")
    def test_a_file_of_proc(self):
        program = 'y4m.write_y4m("/proc/self/comm", HEADER, frames((7, 8)))'
        self.assertEqual(self.run_in_shell('"$0" -c "$1"', program).stderr, "")

    @unittest.skipUnless(os.path.exists("/dev/stdout"), "there is no /dev/stdout")
    def test_open_files(self):
        """Other programs write to the same file before and after the call, and so does the program itself."""
        os.symlink("/proc/self/fd/3", "work/third")
        os.symlink("/proc/self/fd", "work/folder")
        program = 'print("before"); y4m.write_y4m("{}", HEADER, frames((7, 8))); print("after")'
        wanted = b"first\nbefore\n" + OTHER + b"after\nlast\n"
        for name in ("/dev/stdout", "/dev/fd/1", "/proc/self/fd/1", "work/folder/1"):
            for words in ('(echo first; "$0" -c "$1"; echo last) > work/told', '(echo first; "$0" -c "$1"; echo last) | cat > work/told'):
                run = self.run_in_shell(words, program.format(name))
                self.assertEqual((run.returncode, run.stderr), (0, ""))
                self.assertHas("work/told", wanted)
        for name in ("/dev/fd/3", "work/third"):
            self.put("work/told", b"first\n")
            run = self.run_in_shell('"$0" -c "$1" 3>> work/told', f'y4m.write_y4m("{name}", HEADER, frames((7, 8)))')
            self.assertEqual((run.returncode, run.stderr), (0, ""))
            self.assertHas("work/told", b"first\n" + OTHER)
        self.assertNothingBeside()
        for name in ("/dev/fd/99", "/proc/self/fd/99"):
            self.assertRaises(OSError, y4m.write_y4m, name, HEADER, frames_of((7, 8)))

    def test_what_is_read_does_not_grow(self):
        os.link("work/a.y4m", "work/hard.y4m")
        os.symlink("a.y4m", "work/link.y4m")
        for name in ("a", "hard", "link"):
            for target, words in (("/dev/stdout", ">> work/a.y4m"), ("/dev/fd/3", "3>> work/a.y4m")):
                program = f'y4m.write_y4m("{target}", *y4m.read_y4m("work/{name}.y4m"))'
                run = self.run_in_shell(f'"$0" -c "$1" {words}', program)
                self.assertIn("cannot be read and written at once", run.stderr)
                self.assertHas("work/a.y4m", GOOD)
        with open("work/a.y4m", "ab") as stream:
            header, frames = y4m.read_y4m("work/a.y4m")
            self.assertRaises(y4m.Y4mError, y4m.write_y4m, stream, header, (it for it in frames))
            frames.close()
            y4m.write_y4m(stream, header, [])
        self.assertHas("work/a.y4m", GOOD + LINE)

    def test_closed_standard_streams(self):
        for closed in ("<&-", ">&-", "2>&-", "<&- >&-", "<&- 2>&-", ">&- 2>&-", "<&- >&- 2>&-"):
            self.put("work/b.y4m", GOOD)
            os.chmod("work/b.y4m", 0o666)
            program = 'print("words"); print("more", file=sys.stderr); y4m.write_y4m("work/b.y4m", HEADER, frames((7, 8)))'
            subprocess.run(["sh", "-c", f'"$0" -c "$1" {closed}', sys.executable, PROGRAM + WITHOUT_RIGHTS + program], stdout=subprocess.DEVNULL,
                           stderr=subprocess.DEVNULL, stdin=subprocess.DEVNULL)
            self.assertHas("work/b.y4m", OTHER)
            self.assertNothingBeside()


if __name__ == "__main__":
    set_up.main()
