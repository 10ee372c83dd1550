"""Builds the wheel: the module, the library for C beside it, and the program `yuv` with its manual page.

Cargo builds the library and the program from the folder rust of this checkout, as `tools/install --cargo` does. They need no Python, so
a wheel is for each version from 3.10 on, on the system and the processor where it was built. A source distribution has a copy of what
cargo builds from, in a folder `checkout`.
"""
import os
import shutil
import subprocess
import sys
from pathlib import Path

from setuptools import Distribution, setup
from setuptools.command.build_py import build_py
from setuptools.command.sdist import sdist

try:
    from setuptools.command.bdist_wheel import bdist_wheel
except ImportError:
    from wheel.bdist_wheel import bdist_wheel

HERE = Path(__file__).resolve().parent
#: The folder of the sources of the library: that of a source distribution, or the checkout.
OWN = HERE / "checkout"
TOP = OWN if OWN.is_dir() else HERE.parents[1]
#: What a build reads of it.
PARTS = ("rust", "docs/PYTHON.md", "docs/yuv.1", "LICENSE")
TARGET = Path(os.environ.get("CARGO_TARGET_DIR", TOP / "rust/target"))
BUILT = TARGET / os.environ.get("CARGO_BUILD_TARGET", "")


def by_cargo(profile, package):
    if not (TOP / "rust/Cargo.toml").exists():
        sys.exit(f"there is no {TOP}/rust: install from the folder c_interface/python of a checkout, or from a source distribution")
    if not shutil.which("cargo"):
        sys.exit("there is no cargo on the path, which builds the library: https://www.rust-lang.org/tools/install")
    command = ["cargo", "build", "--locked", "--profile", profile, "--package", package, "--target-dir", TARGET]
    subprocess.run(command, cwd=TOP / "rust", check=True)


class BuildWithCargo(build_py):
    """Puts the library into a folder of the module, and names what is installed beside Python's own files."""

    def run(self):
        shutil.rmtree(self.build_lib, ignore_errors=True)
        super().run()
        by_cargo("c-library", "v_frame_c")
        by_cargo("release", "yuv")
        suffix = "dylib" if sys.platform == "darwin" else "so"
        package = self.get_package_dir("v_frame") if self.editable_mode else f"{self.build_lib}/v_frame"
        os.makedirs(f"{package}/lib", exist_ok=True)
        shutil.copy(BUILT / f"c-library/libv_frame.{suffix}", f"{package}/lib/libv_frame.so")
        page = os.path.relpath(TOP / "docs/yuv.1")
        self.distribution.data_files = [("bin", [os.path.relpath(BUILT / "release/yuv")]), ("share/man/man1", [page])]


class WithSources(sdist):
    """Adds what cargo builds from."""

    def make_release_tree(self, base_dir, files):
        super().make_release_tree(base_dir, files)
        for part in PARTS:
            source, target = TOP / part, Path(base_dir) / "checkout" / part
            target.parent.mkdir(parents=True, exist_ok=True)
            if source.is_dir():
                shutil.copytree(source, target, ignore=shutil.ignore_patterns("target", "__pycache__"))
            else:
                shutil.copy(source, target)


class AnyPython(bdist_wheel):
    def get_tag(self):
        return "py3", "none", super().get_tag()[2]


class WithLibrary(Distribution):
    def has_ext_modules(self):
        return True


setup(
    distclass=WithLibrary,
    cmdclass={"build_py": BuildWithCargo, "bdist_wheel": AnyPython, "sdist": WithSources},
    long_description=(TOP / "docs/PYTHON.md").read_text(encoding="utf-8"),
    long_description_content_type="text/markdown",
)
