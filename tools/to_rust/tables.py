"""The tables of the translation: the Rust crate of each source crate, and the Rust names of items of Rattle's `std`.

A name that no table has is rejected. This module also reads the tables of the page `tables.md`.
"""

import pathlib
import re


def page(name):
    """Returns the text of a page beside this file."""
    return pathlib.Path(__file__).with_name(name).read_text(encoding="utf-8")


def rows_of(name, head):
    """Returns the cells of each row of the table with this head. Of a cell that is one piece of code, it returns the code."""
    table = page(name).split(f"\n| {head} |\n")[1].split("\n\n")[0]
    rows = [row.removeprefix("| ").removesuffix(" |").split(" | ") for row in table.splitlines()[1:]]
    return [[re.sub(r"^`([^`]*)`$", r"\1", cell).replace("\\|", "|") for cell in row] for row in rows]


LIBRARY = "v_frame_proved"

# The source crates of each Rust crate. A source crate becomes the module `generated::NAME`.
HOMES = {home: crates.split() for home, crates in rows_of("tables.md", "Rust crate | source crates")}
# The Rust crates that pass on a handle of the system, and the names of the handle.
WITH_HANDLES = {"yuv"}
HANDLES = {"rt", "HostRuntime"}
# The crates of the library with the public names of their modules. Other crates re-export the items of the unnamed ones.
UNNAMED = {"v_frame_raster", "v_frame_plane"}
PUBLIC_NAMES = {name: name.replace("v_frame_", f"{LIBRARY}::") for name in HOMES[LIBRARY] if name not in UNNAMED}
PUBLIC_NAMES["v_frame"] = LIBRARY
# The crates for C. Only these may have exports, or structs with the layout of C.
FOR_C = {"v_frame_slices", "v_frame_c", "v_frame_png_c", "v_frame_y4m_c"}
# Crates that are written by hand in Rust, because they use raw memory in Rattle, and the modules that replace them.
BY_HAND = {"v_frame_buffer": "crate::buffer"}
# The names of Rattle's `std` that imports may use, with their Rust names. None: the import is removed.
STD_NAMES = {f"{old}::{name}": f"{new}::{name}" for old, new, names in rows_of("tables.md", "module | in Rust | names")
             for name in names.split()}
STD_NAMES["std::ops::DerefSlice"] = "core::ops::Deref"
STD_NAMES |= dict.fromkeys(("std::alloc::Global", "std::convert::AsSlice", "std::marker::Model", "thiserror::Error",
                            "std::os::unix::fs::OpenOptionsExt"))
# Traits of Rust that are imported for their methods only.
STD_TRAITS = {"Read", "Write", "BufRead", "DerefSlice", "MetadataExt", "OpenFile", "PermissionsExt"}
# Names that need no import in Rattle, but need one in Rust without `std`, with their paths.
PRELUDE = {"Vec": "alloc::vec::Vec", "String": "alloc::string::String"}
# The traits and functions of the support module, by the names that require them.
SUPPORT = {name: path for path, names in rows_of("tables.md", "import | names that require it") for name in names.split()}
# Frequent functions, which the library calls without tests, and those of them that are not methods.
HOT = {(crate, name) for crate, names in rows_of("tables.md", "crate | functions") for name in names.split()}
HOT_FUNCTIONS = {"encode_row"}
# Functions whose preconditions are not tested: functions without a body, by trait, and laws.
WITHOUT_TESTS = {trait: names.split() for trait, names in rows_of("tables.md", "trait | functions")}
# Private functions whose loops are faster if the compiler knows their preconditions.
FACTS = {("v_frame_turn", "write_reversed"), ("v_frame_semi_planar", "deinterleave_pixels")}
# The additional bounds of the original's `Pixel`, and the head of the hidden trait.
PIXEL_BOUNDS = page("tables.md").split("```rust\n")[1].split("\n```")[0]
# The iterators that get hand-written versions of provided methods, by trait, and the methods of each trait.
FAST_ITERATORS = {trait: names.split() for trait, names in rows_of("tables.md", "trait | iterators")}
FAST_CALLS = {trait: page("tables.md").split(f"The methods of `{trait}`:\n\n```rust\n")[1].split("\n```")[0]
              for trait in FAST_ITERATORS}
# The crates whose functions write visible pixels of every type that has some, and the methods by which they do so.
WITH_TARGETS = {f"v_frame_{name}" for name in "ops convert turn resize rgb semi_planar".split()}
TARGET_CALLS = {"width", "height", "visible_mut", "visible_region_mut"}
# The names of a pixel type in front of `::`, and its members in the source.
PIXEL_TYPES = {"T", "S", "u8", "u16", "Pixel"}
PIXEL_CALLS = {"BYTES", "ZERO", "into_u16", "try_into_u8", "from_u8", "try_from_u16", *WITHOUT_TESTS["Pixel"]}
# Items that only contracts use, or that are kept although no code uses them.
KEPT_FOR_CONTRACTS = {"DepthChange", "SAMPLES_AT_ONCE", "ENTRIES"}
# Errors that may get more variants: the errors that the original does not have.
OWN_ERRORS = set("PlanarError PngError SemiPlanarError TurnError HeaderError Y4mError Problem SendError WriteFault".split())
# The additional derives of types.
DERIVES = {name: derives for derives, names in rows_of("tables.md", "derives | types") for name in names.split()}
# The doc comments and the visibility of fields, and the numbers of variants.
PART_TEXTS = {(kind, part): text for kind, part, text in rows_of("tables.md", "type | field or variant | text")}
# Patterns of sentences that are about proofs.
PROOF_WORDS = (
    r"\b([Cc]ontracts?|[Cc]lauses?|[Pp]roofs?|[Pp]rovers?|[Pp]roves?|proved|[Ll]aws?|ghosts?|toolchain|Rattle|specs)\b",
    r"\b(requires|ensures)`",
    r"^Of the (readers|writers) over memory\b",
    r"^(Our own|The module is our own|Its functions and constants are our own)\b",
    r"^Not part of `v_frame` 0\.7\.0\b",
)
# The paragraphs that are added to the documentation of modules.
DOC_ADDED = {tuple(path.split()): text for path, text in rows_of("tables.md", "module | added paragraph")}
