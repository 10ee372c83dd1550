"""Builds programs of `original` with cargo: over the crate `v_frame` 0.7.0, and over rust/v_frame_proved.

The second build differs only in the dependency line of Cargo.toml. It is made in a folder below out/over_proved, with the changed
Cargo.toml and a link to the same sources. Cargo takes the original from the registry. If V_FRAME_SOURCE names a folder with its
source, cargo takes it from there and needs no network.

The address of a loop can change its running time by half, and any code before it changes the address. On request, both builds align
all loops to multiples of 64 bytes.
"""
import os
import re
import subprocess
import sys
from pathlib import Path

TOP = Path(__file__).resolve().parent.parent
ALIGNED = "-C llvm-args=-align-loops=64"
PROVED = 'v_frame = {{ package = "v_frame_proved", path = "{path}", features = ["padding_api"] }}'


def stop(message):
    """Ends the program with a message and status 2, because something is missing and nothing was compared."""
    print(f"{sys.argv[0]}: {message}", file=sys.stderr)
    sys.exit(2)


def check_source(project):
    """Checks, before any build, that the original can be built. No folder is needed if cargo has the crate or can fetch it."""
    source = os.environ.get("V_FRAME_SOURCE")
    if source:
        if not (Path(source) / "Cargo.toml").is_file():
            stop(f"there is no Cargo.toml in {source}, the folder of V_FRAME_SOURCE")
        return
    once = {"CARGO_NET_RETRY": "1", **os.environ}
    try:
        fetched = subprocess.run(["cargo", "fetch", "--quiet"], cwd=TOP / project, env=once, capture_output=True)
    except FileNotFoundError:
        stop("cargo is not on the path")
    if fetched.returncode:
        stop("cargo cannot fetch v_frame 0.7.0: set V_FRAME_SOURCE to a folder with its source, or use the network")


def build(folder, target, words, aligned):
    target = target / "aligned" if aligned else target
    flags = {"RUSTFLAGS": f"{os.environ.get('RUSTFLAGS', '')} {ALIGNED}"} if aligned else {}
    command = ["cargo", "build", "--release", "--quiet", "--target-dir", str(target), *words]
    if subprocess.run(command, cwd=folder, env={**os.environ, **flags}).returncode:
        stop(f"cargo can't build {folder}")
    return target / "release"


def over_original(project, aligned=False):
    """Returns the folder of the programs of a project, built over the original crate."""
    source = os.environ.get("V_FRAME_SOURCE")
    words = ["--offline", "--config", f'patch.crates-io.v_frame.path="{Path(source).resolve()}"'] if source else []
    return build(TOP / project, TOP / "out/original", words, aligned)


def over_proved(project, features=(), aligned=False):
    """Returns the folder of the programs of a project, built over rust/v_frame_proved."""
    folder = TOP / "out/over_proved" / Path(project).name
    folder.mkdir(parents=True, exist_ok=True)
    line = PROVED.format(path=TOP / "rust/v_frame_proved")
    text, changed = re.subn(r"^v_frame = .*$", line, (TOP / project / "Cargo.toml").read_text(), flags=re.MULTILINE)
    if changed != 1:
        raise SystemExit(f"{project}/Cargo.toml has {changed} lines with the dependency on v_frame, not one")
    (folder / "Cargo.toml").write_text(text)
    sources = folder / "src"
    if not sources.is_symlink():
        sources.symlink_to(TOP / project / "src")
    words = ["--offline"] + [f"--features={','.join(features)}"] * bool(features)
    return build(folder, TOP / "out/over_proved/target", words, aligned)
