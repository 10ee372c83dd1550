"""Rejects unknown names: each macro, attribute, type, method, call, path and format must be defined by a source or be in
`known.md`."""

import re

from . import exports, tables
from .items import KEYWORDS, Item, items_of, skip_attributes
from .paths import STD, home_of, leaves_of
from .tables import rows_of
from .tokens import Refused

KNOWN = {kind: set(words.split()) for kind, words in rows_of("known.md", "kind | words")}
# The allowed neighbors: marks and keywords by their text, all other tokens by their kind.
PAIRS = {before: set(words.split()) for before, words in rows_of("known.md", "token | behind it")}
WRITING = {"eprintln", "format", "unreachable", "write", "writeln"}
FORMAT = re.compile(r"\{[^{}]*:([^{}]*)\}")
LITERALS = ("number", "string", "char")
LEFT_OVER = {"ghost", "requires", "ensures", "Drop", "Model", "Global", "alloc", "_alloc", "rt", "HostRuntime", "prove",
             "thiserror", "std_alloc", "Rattle", "AsSlice", "DerefSlice", "AllocFailed"}


class Names:
    """The known names, including the names that the sources define. An unknown path of `std` is rejected."""

    def __init__(self, sources):
        self.functions, self.others, self.called = set(), KNOWN["keywords"] | set(tables.BY_HAND), set(KNOWN["calls"])
        for source in sources:
            self.others.update((source.crate, *source.module))
            for item in items_of(source):
                self.add_import(source, item) if item.kind == "use" else \
                    (self.functions if item.kind == "fn" else self.others).add(item.name)
                places = range(*item.body) if item.kind in ("enum", "trait", "impl") and item.body else ()
                self.others.update(source[at] for at in places if source[at - 1] in ("type", "const"))
                variants = source.elements(item.body[0], types=True) if item.kind == "enum" and item.body else ()
                self.others.update(source[skip_attributes(source, start, Item(start))] for start, _ in variants)
        methods = {item.name for source in sources for item in items_of(source) if item.owner}
        self.methods, self.types = KNOWN["methods"] | methods, KNOWN["types"] | KNOWN["derives"] | self.others
        self.called |= KNOWN["attributes"] | self.functions | self.types

    def add_import(self, source, item):
        """Adds the names of an import. A name of `std` may be called, but its members are not known."""
        for path, name in leaves_of(source, item.keyword + 1, item.end - 1):
            if path.split("::")[0] not in STD:
                self.others.update([name] if name else [])
            elif path in tables.STD_NAMES:
                self.called.add(name or path.rpartition("::")[2])
            else:
                source.refuse(item.keyword, f"unknown path of `std`: {path}")


def check(source, names):
    """Rejects unknown forms. Ghosts and contracts are already removed."""
    imports = {item.keyword: item.end for item in items_of(source) if item.kind == "use"}
    here = {source[at] for at in range(len(source)) if source[at + 1] == ":" or source[at - 1] == "let"}
    bodies = {at for item in items_of(source) if item.kind == "fn" and item.body for at in range(*item.body)}
    end = 0
    for at in range(len(source)):
        if source[at] in KEYWORDS - {"fn", "use", "const", "type"} and at in bodies:
            source.refuse(at, f"an item inside a function body, at `{source[at]}`")
        if source[at] == "use":
            end = imports.get(at, at)
            if at == end or source[at + 1] not in (*STD, *names.others):
                source.refuse(at, f"unknown import: {source[at + 1]}")
        if at < end:
            continue
        if source[at] == "#" and source[at + 1] in ("[", "!"):
            check_attribute(source, at)
        elif source.is_word(at) and not exports.is_form(source, at):
            check_word(source, at, names, here)
        elif source.kind(at) in ("mark", "strange"):
            check_mark(source, at)
    strange = [at for at in range(len(source)) if class_of(source, at) not in PAIRS.get(class_of(source, at - 1), ())]
    # Other errors are more specific, so this error waits.
    source.strange = [Refused(source.tokens[at].place, f"`{source[at]}` may not follow `{source[at - 1]}`") for at in strange]


def class_of(source, at):
    """Returns the class of a token in the table of neighbors: a mark or a keyword itself, or the kind of another token."""
    form = next((form for form in ("pub ( crate )", "pub (") if source.matches(at - form.count(" "), form)), None)
    if form:
        return form.replace(" ", "")
    named = source.kind(at) in ("mark", "strange") or source[at] in KNOWN["keywords"]
    return source[at] if named else source.kind(at) or "start"


def check_mark(source, at):
    """Rejects a mark in an unknown place: a strange mark, or a mark before a path or after a range."""
    mark, before, after = source[at], source[at - 1], source[at + 1]
    ends = source.kind(at - 1) in LITERALS or before in (")", "]", "?", ">", "self") \
        or source.is_word(at - 1) and before not in KNOWN["keywords"]
    if mark == "::" and not ends and before not in ("Self", "crate", "super"):
        source.refuse(at, f"unknown path: ::{after}")
    if mark == "<" and not ends and before not in ("<", "::", "impl", "for", "fn"):
        member = f"<>::{source[source.closing(at) + 2]}"
        if member not in KNOWN["members"]:
            source.refuse(at, f"unknown path: {member}")
    last = source.closing(at) - 1 if mark == "[" and not ends else at
    ranges = source[last] == ".." and (ends if last == at else source[last - 1] not in ("[", ",", "@"))
    if ranges and source[last + 1] in (")", ",", ";", "{", "}") + ("]",) * (last != at):
        source.refuse(at, "a range without an end, which in Rattle ends below the maximum of its type")
    base = range(at, source.following(at, "}", ")", "]") if mark == ".." and before == "," else at)
    if "[" in [source[k] for k in base] and (source.is_word(at + 1) or after == "("):
        source.refuse(at, "a struct base at an index, which Rattle does not read if all fields are given")


def check_word(source, at, names, here):
    """Rejects a word in an unknown place: as a part of a path, a call, a macro or a type, or next to another word."""
    word, before, after = source[at], source[at - 1], source[at + 1]
    plain = word not in KNOWN["keywords"] | KNOWN["reserved"]
    if word in KNOWN["reserved"] or word == "mut" and before == "static":
        source.refuse(at, f"unknown word: {word}")
    if after == "!" and (plain or source[at + 2] in ("(", "[", "{")) and word not in KNOWN["macros"]:
        source.refuse(at, f"unknown macro: {word}!")
    if after == "!" and word in WRITING:
        for k in range(at, source.closing(at + 2)):
            forms = FORMAT.findall(source[k]) if source.kind(k) == "string" else []
            if set(forms) - KNOWN["formats"]:
                source.refuse(k, f"unknown format: {' '.join(forms)}")
    if before == "." and after in ("(", "::"):
        if word not in names.methods:
            source.refuse(at, f"unknown method: {word}")
    elif after == "::":
        end = source.closing(at + 2) if source[at + 2] == "<" else at
        member = source[end + 2] if source[end + 1] == "::" else "<"
        own = word in names.others or len(word) == 1 and word.isupper()
        own = own or source[at + 2] == "<" and word in names.functions
        if not own and f"{word}::{member}" not in KNOWN["members"]:
            source.refuse(at, f"unknown path: {word}::{member}")
    elif before != "::" and word[0].isupper() and not word.isupper() and word not in names.types:
        source.refuse(at, f"unknown type: {word}")
    elif after == "(" and before not in ("::", "fn") and plain and word not in names.called and word not in here:
        source.refuse(at, f"unknown call: {word}")


def check_attribute(source, at):
    """Rejects an unknown attribute or derive."""
    name = at + (3 if source[at + 1] == "!" else 2)
    if source[name] not in KNOWN["attributes"] and not exports.is_form(source, name):
        source.refuse(at, f"unknown attribute: {source[name]}")
    for k in range(name + 2, source.closing(name + 1)) if source[name] == "derive" else ():
        if source.is_word(k) and source[k] not in KNOWN["derives"]:
            source.refuse(k, f"unknown derive: {source[k]}")


def check_output(source):
    """Rejects terms that only Rattle has in the output. A program that opens files keeps its handle of the system."""
    left_over = LEFT_OVER - tables.HANDLES if home_of(source.crate) in tables.WITH_HANDLES else LEFT_OVER
    for at, token in enumerate(source.tokens):
        made_path = source.matches(at, "alloc ::") and token.edit is not None
        if token.kind == "strange" or token.kind == "word" and token.text in left_over and not made_path:
            source.refuse(at, f"`{token.text}` is left in the output")
    if source.strange:
        raise source.strange[0]
