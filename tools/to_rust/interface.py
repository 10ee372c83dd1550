"""The public interface in Rust: attributes, derives, views as parameters, and the original's `Pixel`.

Each public function gets `#[inline]`, as in the original. Short private functions get it, too, because other crates could
not inline them otherwise. A function that only returns a result gets `#[must_use]`.
"""

from . import tables
from .items import functions_of, items_of, parameters_of

SHORT = 40
RESULTS = ("Result<", "io::Result<", "slice::Iter<", "!")  # These types are `must_use` themselves.
# The tokens of a parameter before the type of its pixels, and the trait and its method that replace them.
TARGET = ": & mut Plane <"  # The tokens of a parameter before the type of the pixels that are written.
VIEWS = {": & PlaneRef < '_ ,": ("AsPlaneRef", "as_plane_ref"), ": & RowsRef < '_ ,": ("AsRowsRef", "as_rows_ref")}


def rewrite_functions(source):
    """Adds the attributes of functions."""
    for item in reversed(functions_of(source)):
        if item.body is None:
            continue
        present = {source[start + 2] for start, _ in item.attributes}
        result = source.words(item.result[0] + 1, item.result[1]) if item.result else "!"
        writes = any(source[at] == "&" and "mut" in (source[at + 1], source[at + 2]) for at in range(*item.params))
        if item.is_public() and not result.startswith(RESULTS) and not writes and "must_use" not in present:
            source.insert_line(item.head, "must-use", "#[must_use]")
        short = item.body[1] - item.body[0] < SHORT
        inlined = short and not item.generics and not (item.owner is not None and item.owner.generics)
        if item.visible or item.owner is not None and item.owner.trait:
            inlined = item.name != "fmt" and (item.visible is None or item.is_public() or short)
        if inlined and "inline" not in present:
            source.insert_line(item.head, "inline", "#[inline]")


def take_views(source, reach):
    """Makes public functions that read accept planes and views, and those that write visible pixels accept every type that has
    some. The body takes the views first."""
    for item in reversed(functions_of(source)):
        if item.body is None or "laws" in source.module or not reach.is_public(source, item):
            continue
        names = [at for _, at, _ in parameters_of(source, item)]
        found = [(at, *VIEWS[form]) for at in names for form in VIEWS if source.matches(at + 1, form)]
        targets = [(at, "AsRowsMut", None) for at in names if is_target(source, item, at)]
        if found:
            lead = source.line_start(item.head) + "    "
            lines = [f"let {source[at]} = &{source[at]}.{call}();" for at, _, call in found]
            source.insert(item.body[0] + 1, "view-taken", lead.join(lines), lead)
        for at, trait, call in sorted(found + targets, reverse=True):
            opening = at + (4 if call else 5)
            closing = source.closing(opening)
            text = f"impl {trait}<Pixel = {source.words(opening + (3 if call else 1), closing)}>"
            if call:
                source.replace(at + 2, closing + 1, "view-parameter", text)
            else:
                source.replace(at + 4, closing + 1, "target-parameter", text)


def is_target(source, item, at):
    """Returns whether the function writes only visible pixels of the plane that is its parameter at `at`."""
    if source.crate not in tables.WITH_TARGETS or item.owner is not None or not source.matches(at + 1, TARGET):
        return False
    uses = [k for k in range(*item.body) if source[k] == source[at] and source[k + 1] == "."]
    return {source[k + 2] for k in uses} <= tables.TARGET_CALLS


def rewrite_types(source):
    """Adds the attributes and doc comments of the tables to types, and hides laws, which are for proofs, from the documentation."""
    for item in reversed(items_of(source)):
        if item.kind in ("struct", "enum", "const") and item.name in tables.KEPT_FOR_CONTRACTS:
            source.insert_line(item.head, "kept-for-contracts", "#[allow(dead_code)]")
        if item.kind == "mod" and item.name == "laws":
            source.insert_line(item.head, "hidden", "#[doc(hidden)]")
        if item.kind == "impl" and item.trait == "Pixel":
            source.insert(item.end, "pixel-parts", f"impl Pixel for {item.subject} {{}}", "\n\n")
            source.replace(item.keyword + 1, item.keyword + 2, "pixel-parts", "PixelCalls")
        if item.kind == "impl" and item.subject.split("<")[0] in tables.FAST_ITERATORS.get(item.trait, ()):
            source.insert(item.body[1], "iterator-call", tables.FAST_CALLS[item.trait].strip(), "\n\n    ")
        if item.kind == "trait" and item.name == "Pixel":
            source.insert(item.body[0], "pixel-parts", tables.PIXEL_BOUNDS, "\n    ")
        if item.kind not in ("struct", "enum"):
            continue
        if item.name in tables.OWN_ERRORS:
            source.insert_line(item.head, "non-exhaustive", "#[non_exhaustive]")
        for at in reversed(range(*item.body) if item.body else ()):
            text = tables.PART_TEXTS.get((item.name, source[at + 1]), "")
            if text.startswith("= "):
                source.insert(at + 2, "variant-number", text, " ")
            elif text == "pub(crate)":
                source.replace(at + 1, at + 2, "field-visible", f"{text} {source[at + 1]}")
            elif text and source[at] == "pub" and source.kind(at - 1) != "doc":
                source.insert(at, "field-text", f"/// {text}\n", source.tokens[at].lead)
        names = tables.DERIVES.get(item.name)
        ends = [end for start, end in item.attributes if source[start + 2] == "derive"]
        if names and ends:
            source.insert(ends[0] - 2, "derive", ", " + names, "")
        elif names:
            source.insert_line(item.head, "derive", f"#[derive({names})]")


def rename_pixel_calls(source):
    """Gives the members of the hidden trait unique names, so that they cannot clash with a user's trait."""
    inside = {at for item in items_of(source) if "PixelCalls" in (item.trait, item.name) for at in range(*item.body)}
    for at in source.places(*tables.PIXEL_CALLS):
        owner = source[at - 2] if source[at - 1] == "::" else ""
        of_type = owner in tables.PIXEL_TYPES or owner == "Self" and source.module == ("pixel",)
        if of_type or source[at - 1] == "." or at in inside and source[at - 1] in ("fn", "const"):
            source.replace(at, at + 1, "pixel-call", ("PIXEL_" if source[at].isupper() else "pixel_") + source[at])


def add_arms(source):
    """Adds an arm to each exhaustive `match` of another crate over an error that may get more variants. The arm is never
    reached, because the crates are built together and the sources have an arm for each variant."""
    for at in source.places("match"):
        opening = source.following(at, "{")
        closing = source.closing(opening)
        names = [source[k] for k in range(opening, closing) if source[k + 1] == "=>"]
        if source[opening + 1] in tables.OWN_ERRORS and not any(name == "_" or name.islower() for name in names):
            if source[closing - 1] not in (",", "}"):
                source.refuse(closing, "the last arm has no comma")
            arm = '_ => unreachable!("an error that the sources do not know"),'
            source.insert(closing, "error-arm", arm, source.tokens[closing].lead + "    ")
