"""Removes models, laws with their calls, and unused names and values. `forms` removes short forms.

A law is a function with an empty body, whose contract states a fact.
"""

from . import forms
from .strict import KNOWN
from .items import KEYWORDS, functions_of, items_of, parameters_of
from .paths import leaves_of

# Marks without an effect. They and calls of the kind `reading` may occur in a statement whose value is unused, and in a
# condition of `prove!`.
READING_MARKS = set(". , ( ) & + - * && || == != < <= > >=".split())


def erase_proofs(source):
    """Removes the parts that only proofs need. The clauses of functions are recorded, because tests are made from them."""
    for at in source.places("ghost"):
        end = source.following(at, ";") if source[at + 1] == "use" else at
        if KEYWORDS & {source[k] for k in range(at + 2, end)}:
            source.refuse(at, "a `ghost use` without an end")
    forms.rewrite(source, forms.GHOSTS)
    for item in reversed(items_of(source)):
        if item.kind == "impl" and item.trait == "Model":
            source.erase(item.start, item.end, "model")
        elif any(source.matches(start, "# [ cfg ( test ) ]") for start, _ in item.attributes):
            source.erase(item.start, item.end, "test-module")
        elif item.clauses:
            source.clauses[source.tokens[item.keyword]] = item.clauses
    forms.rewrite(source, forms.PROOFS)


def only_reads(source, start, end):
    """Returns whether the tokens from `start` to `end` are names, numbers, and calls without an effect."""
    plain = [k for k in range(start, end) if source[k] not in READING_MARKS and source.kind(k) != "number"]
    words = all(source.is_word(k) and source[k] not in KNOWN["keywords"] - {"self"} for k in plain)
    return words and {source[k] for k in plain if source[k + 1] == "("} <= KNOWN["reading"] \
        and not any(source[k] == ")" and source[k + 1] == "(" for k in range(start, end))


def erase_unread(source):
    """Removes `let _name = ..;`, whose value is unused, or rejects it if it may have an effect. A condition of `prove!`, which
    Rust tests only in some builds, must not have an effect either."""
    for at in source.places("let", "prove"):
        if source.matches(at, "prove !") and not only_reads(source, at + 2, source.closing(at + 2)):
            source.refuse(at, "a condition that may have an effect")
        if source[at + 1].startswith("_") and source[at + 1] not in {"_", *KNOWN["unread"]} and source[at + 2] == "=":
            end = source.following(at, ";")
            if not only_reads(source, at + 3, end):
                source.refuse(at, "an unused value whose computation may have an effect")
            source.erase(at, end + 1, "unread-value")


def erase_laws(sources):
    """Removes laws and their calls until no law is left, because a function that only calls laws is a law, too.

    Returns the sources with remaining items. The module of an empty source is removed, too."""
    while laws := {item.name for source in sources for item in laws_of(source)}:
        for source in sources:
            for item in reversed(laws_of(source)):
                source.erase(item.start, item.end, "law")
            for item in functions_of(source):
                if item.name in laws:
                    source.refuse(item.keyword, "a function with the name of a law")
            erase_calls(source, laws)
            for item in reversed(items_of(source)):
                if item.kind == "use":
                    erase_names(source, item, laws, "law-import")
    kept = []
    for source in sources:
        if not source.module or any(item.kind != "use" or item.visible for item in items_of(source)):
            kept.append(source)
            continue
        parents = [it for it in sources if (it.crate, it.module) == (source.crate, source.module[:-1])]
        named = [(parent, item) for parent in parents for item in items_of(parent)
                 if (item.kind, item.name) == ("mod", source.module[-1])]
        if not named:
            source.refuse(0, "a file that no `mod` declares")
        named[0][0].erase(named[0][1].start, named[0][1].end, "law-module")
    return kept


def laws_of(source):
    """Returns the functions of a source that have a contract and an empty body."""
    empty = [item for item in functions_of(source) if item.body and item.body[0] + 1 == item.body[1]
             and not (item.owner and item.owner.trait)]
    return [item for item in empty if not item.result and source.clauses_of(item, "ensures")]


def erase_calls(source, laws):
    """Removes statements that call a law, `path::name::<T>(arguments);`, and each `if let` that is empty afterwards."""
    for start in source.places(*laws):
        end = start + 1
        while source[start - 1] == "::":
            start -= 2
        if source.matches(end, ":: <"):
            end = source.closing(end + 1) + 1
        if source[end] == "(" and source[start - 1] in ("{", "}", ";"):
            opening, end = end, source.closing(end) + 1
            if source[end] == ";":
                if not only_reads(source, opening, end):
                    source.refuse(opening, "a call of a law with arguments that may have an effect")
                source.erase(start, end + 1, "law-call")
    forms.rewrite(source, [("law-call", "if let Some ( _ ) = _ { }")])


def erase_names(source, item, names, rule):
    """Removes names from an import, or the whole import if it has no other name."""
    at = item.keyword
    while source[at] != ";":
        if source[at] not in names or source[at + 1] not in (",", "}", ";"):
            at += 1
        elif source[at + 1] == ";":
            source.erase(item.start, at + 2, rule)
            return
        else:
            source.erase_listed(at, at + 1, rule)
            at = item.keyword
    opening = source.following(item.keyword, "{", ";")
    parts = source.elements(opening) if source[opening] == "{" else None
    if parts == []:
        source.erase(item.start, source.following(opening + 2, ";") + 1, rule)
    elif parts == [(opening + 1, opening + 2)] and source[opening + 1] != "self":
        source.erase(opening + 2, source.closing(opening) + 1, rule)
        source.erase(opening, opening + 1, rule)


def erase_imports(source, traits):
    """Removes unused names from private imports. Traits are kept, because their methods may be called."""
    imports = [item for item in items_of(source) if item.kind == "use" and not item.visible]
    inside = {at for item in imports for at in range(item.keyword, item.end)}
    used = {token.text for at, token in enumerate(source.tokens) if at not in inside} | traits | {"_"}
    for item in reversed(imports):
        leaves = leaves_of(source, item.keyword + 1, item.end - 1)
        names = {name or path.rpartition("::")[2]: path for path, name in leaves}
        unused = {name: path for name, path in names.items() if name not in used}
        source.left_imports.update(unused)
        if unused:
            erase_names(source, item, unused, "import-unused")


def rename_unread(source):
    """Puts a `_` in front of parameters and loop variables that the body and its format strings do not use."""
    variables = [(at, item.body) for item in functions_of(source) if item.body
                 for _, at, _ in parameters_of(source, item) if source[at + 1] == ":"]
    for at in source.places("for"):
        if source[at + 2] == "in":
            opening = source.following(at, "{")
            variables.append((at + 1, (opening, source.closing(opening))))
    for at, body in variables:
        name, shown = source[at], "{" + source[at]
        named = any(source[k] == name or source.kind(k) == "string" and shown in source[k] for k in range(*body))
        if not named and not name.startswith("_"):
            source.replace(at, at + 1, "parameter-unread", "_" + name)
