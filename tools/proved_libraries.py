"""The libraries that `rt ci` and `rt lib` leave in crates/NAME/out, and the arguments by which the toolchain finds them."""
import re
import shutil
import sys
from pathlib import Path

TOP = Path(__file__).resolve().parent.parent
KIT = Path(shutil.which("rt") or sys.exit("rt is not on the path")).resolve().parent.parent
CRATES = {name: words.split() for name, words in re.findall(r"^(\w+)(?: staticlib)?:(.*)$", (TOP / "crates.txt").read_text(), re.M)}
PARTS = ("src", "specs", "proofs")


def below(name):
    """Returns the crates of the repository below a crate, the lowest first."""
    found = []
    for dep in CRATES[name]:
        if dep in CRATES:
            found += [it for it in [*below(dep), dep] if it not in found]
    return found


def files_of(name):
    """Returns the files that a proof of a crate reads."""
    return [it for part in PARTS for it in (TOP / f"crates/{name}/{part}").rglob("*") if it.is_file()]


def library(name):
    return TOP / f"crates/{name}/out/rlib/{name}.rlib"


def first_old(names):
    """Returns the first of these libraries, given lowest first, that is missing, or older than a file of it or of one below.

    The time of the folder is the time when the library was put there. Its files may be links to files of an earlier run.
    """
    newest = 0
    for name in names:
        newest = max(newest, *(it.stat().st_mtime for it in files_of(name)))
        folder = library(name)
        if not (folder / "format").exists() or folder.stat().st_mtime < newest:
            return name
    return None


def words_for(name):
    """Returns the arguments with which a command finds the libraries below a crate."""
    kits = [it for it in ["std", *CRATES[name]] if it not in CRATES]
    return [
        "--links", f"{name}=",
        *(word for it in kits for word in ("--extern", f"{it}={KIT}/rlibs/{it}.rlib")),
        *(word for it in CRATES[name] if it in CRATES for word in ("--extern", f"{it}={library(it)}")),
        *(word for it in [KIT / "rlibs", *(library(it).parent for it in below(name))] for word in ("-L", f"dependency={it}")),
        "--antt-project", KIT / "rattle/logic/antt-project.json", "--logic-built", KIT / "logic_built"]
