"""Exports: the functions that C calls. References become pointers, and slices become pointers and lengths.

An export becomes an unsafe function. Its body begins by converting each pointer back to a reference or a slice, and returns a
status if a pointer is null or misaligned; the rest is the body of the source. The conversions are in the hand-written file
`foreign`. An export with a precondition or with another form of parameter is rejected.
"""

import re

from . import tables
from .items import functions_of, parameters_of

MARK = "# [ unsafe ( no_mangle ) ]"
HEAD = 'extern "C" fn'
RESULT = "-> u32"
BEFORE = "///\n/// # Safety\n///\n/// Each pointer must meet the conditions of the header.\n#[allow(unsafe_code)]"
SCALAR = r"u8|u16|u32|u64|usize|isize|f64"
# The type of a parameter: a scalar, or a reference to a value or a slice, which may be `mut`.
TYPE = re.compile(rf"{SCALAR}|&(?P<writes>mut )?(?:(?P<one>[A-Z]\w*|{SCALAR})|\[(?P<many>{SCALAR})\])")


def is_form(source, at):
    """Returns whether a token belongs to a form of the crates for C: an export, or a struct with the layout of C."""
    forms = source.matches(at, HEAD) or source.matches(at - 2, MARK) or source.matches(at - 2, "# [ repr ( C ) ]")
    return source.crate in tables.FOR_C and forms


def rewrite(source):
    """Rewrites the exports of a source."""
    for item in reversed(functions_of(source)):
        marked = any(source.matches(start, MARK) for start, _ in item.attributes)
        if marked != (source[item.keyword - 2] == "extern"):
            source.refuse(item.keyword, "unsupported form of an export")
        if marked:
            rewrite_export(source, item)


def rewrite_export(source, item):
    """Rewrites one export, from its end to its beginning, and rejects a function that C cannot call within its contract."""
    if source.clauses_of(item, "requires"):
        source.refuse(item.keyword, "an export with a precondition, which C cannot prove")
    if not item.is_public() or item.owner or item.generics or not item.result or source.words(*item.result) != RESULT:
        source.refuse(item.keyword, "unsupported form of an export")
    taken, pointers, status = [], [], f"crate::foreign::POINTER_OF_{source.crate.upper()}"
    for start, at, end in parameters_of(source, item):
        found, name = TYPE.fullmatch(source.words(at + 2, end)), source[at]
        if not found or start != at:
            source.refuse(start, "unsupported form of a parameter of an export")
        if not found["one"] and not found["many"]:
            continue
        pointer = f"*{'mut' if found['writes'] else 'const'} {found['one'] or found['many']}"
        call, arguments = "slice" if found["many"] else "reference", name
        if found["many"]:
            arguments += f", {name}_length"
            pointer += ",\n    " if "\n" in source.tokens[start].lead else ", "
            pointer += f"{name}_length: usize"
            if f"{name}_length" in [source[k] for k in range(item.keyword, item.end)]:
                source.refuse(start, "the name for the length of a slice is already in use")
        call += "_mut" if found["writes"] else ""
        taken.append(f"let Some({name}) = (unsafe {{ crate::foreign::{call}({arguments}) }}) else {{\n        return {status};\n    }};")
        pointers.append((at + 2, end, pointer))
    if taken:
        source.insert(item.body[0] + 1, "foreign-taken", "\n    ".join(taken), "\n    ")
    for start, end, pointer in reversed(pointers):
        source.replace(start, end, "foreign-parameter", pointer)
    source.insert(item.keyword - 2, "foreign-unsafe", "unsafe", " ")
    start = item.attributes[0][0]
    source.insert(start, "foreign-unsafe", BEFORE, source.tokens[start].lead)
