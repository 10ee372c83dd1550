"""Paths: the Rust paths of items of other crates and of Rattle's `std`, and the items that users can name.

A crate becomes a module, so `crate::` or the name of a crate at the beginning of a path becomes the path of the module.
The names of an import of `std` are looked up one by one.
"""

from . import tables
from .items import items_of

STD = ("std", "std_alloc", "thiserror", "core")


def home_of(crate):
    """Returns the Rust crate that contains a source crate."""
    return next((home for home, group in tables.HOMES.items() if crate in group), None)


def module_of(source, crate):
    """Returns the Rust path by which this source names a source crate, or None."""
    if crate in tables.BY_HAND:
        return tables.BY_HAND[crate]
    if home_of(crate) == home_of(source.crate):
        return f"crate::generated::{crate}"
    return tables.PUBLIC_NAMES.get(crate)


def leaves_of(source, start, end):
    """Returns the paths of a tree of imports, each with its new name or None."""
    at = next((at for at in range(start, end) if source[at] in ("{", "as")), end)
    prefix = "::".join(source[k] for k in range(start, at) if source[k] != "::")
    if at == end or source[at] == "as":
        return [(prefix, source[at + 1] if at < end else None)]
    if source.closing(at) + 1 != end:
        source.refuse(at, "unknown import: something follows its names")
    leaves = [leaf for part in source.elements(at) for leaf in leaves_of(source, *part)]
    return [(prefix if path == "self" else f"{prefix}::{path}", name) for path, name in leaves]


def rewrite_imports(source):
    """Rewrites the imports of Rattle's `std`. Imports that Rust does not need are removed."""
    for item in reversed(items_of(source)):
        start = item.keyword + 1
        if item.kind == "use" and source[start] in STD:
            leaves = [(tables.STD_NAMES[path], name) for path, name in leaves_of(source, start, item.end - 1)]
            named = [(from_here(source, path), name) for path, name in leaves if path]
            text = import_text(path + (f" as {name}" if name else "") for path, name in named)
            if text != source.words(item.keyword, item.end):
                source.replace(item.keyword, item.end, "std-import" if text else "import-left-out", text)


def from_here(source, path):
    """Returns the path by which a source names an item of the library or of the support module of a program."""
    home = home_of(source.crate)
    if path.startswith(home + "::"):
        return path.replace(home, "crate", 1)
    return path if home == tables.LIBRARY else path.replace("crate::", tables.LIBRARY + "::", 1)


def import_text(paths):
    """Returns the imports of these paths, one import for each module."""
    groups = {}
    for path in paths:
        module, _, name = path.rpartition("::")
        groups.setdefault(module, []).append(name)
    return "\n".join(f"use {module}::{names[0] if len(names) == 1 else '{' + ', '.join(names) + '}'};"
                     for module, names in groups.items())


def rewrite_roots(source):
    """Replaces `crate`, or the name of a crate, at the beginning of a path by the path of the crate's module."""
    for at in source.places("::"):
        at -= 1
        crate = source.crate if source[at] == "crate" else source[at]
        if source[at - 1] == "::" or source.tokens[at].edit is not None:
            continue
        if crate in STD and source[at - 1] != "use":
            source.refuse(at, "a path of `std` outside of an import")
        if home_of(crate) or crate in tables.PUBLIC_NAMES or crate in tables.BY_HAND:
            path = module_of(source, crate)
            if path is None:
                source.refuse(at, f"the crate {crate} has no public name in Rust")
            source.replace(at, at + 1, "crate-root", path)


def add_imports(source):
    """Imports the names that Rattle provides without an import, and the traits of renamed calls."""
    wanted = set()
    for at, token in enumerate(source.tokens):
        word, target = token.text, source[at + 3]
        if word in tables.PRELUDE and source[at - 1] != "::" and home_of(source.crate) == tables.LIBRARY:
            wanted.add(tables.PRELUDE[word])
        if word in tables.SUPPORT and (token.edit is not None or word == "HostRuntime"):
            wanted.add(tables.SUPPORT[word])
        # The target of `write!` is a stream, a `String`, or a formatter, which is `f` everywhere.
        if word in ("write", "writeln") and source[at + 1] == "!" and target != "f":
            wanted.add("std::io::Write as _" if target == "std" else "crate::support::memory::TryString")
        if word == "write_char" and source[at - 1] == ".":
            wanted.add("core::fmt::Write as _")
    if wanted:
        items = items_of(source)
        uses = [item.keyword for item in items if item.kind == "use" and not item.visible]
        place = uses[0] if uses else items[0].start
        lead = source.tokens[place].lead
        text = import_text(sorted(from_here(source, path) for path in wanted))
        end = source.insert(place, "import-added", text, lead)
        source.tokens[end].lead = "\n" if uses else lead


class Reach:
    """The items that users of a Rust crate can name: the public names of modules and items by crate and path."""

    def __init__(self, sources):
        self.sources = {(source.crate, source.module): source for source in sources}
        self.names, self.modules = {}, set()
        for crate, name in tables.PUBLIC_NAMES.items():
            if (crate, ()) in self.sources:
                self.note(crate, (), name.replace(tables.LIBRARY, "crate", 1))
        self.types = {(crate, path[-1]) for crate, path in self.names if path}

    def note(self, crate, path, name):
        """Records the first public name of an item. For a module, it continues with the items of the module."""
        source = self.sources.get((crate, path))
        if (crate, path) in self.names:
            return
        self.names[crate, path] = name
        self.modules.update([name] if source else [])
        for item in items_of(source) if source else ():
            if item.owner is not None or not item.is_public():
                continue
            if item.kind in ("type", "static") or item.kind == "mod" and item.body:
                source.refuse(item.keyword, f"a public `{item.kind}`, through which functions could be called without their tests")
            elif item.kind == "use":
                for leaf, alias in leaves_of(source, item.keyword + 1, item.end - 1):
                    self.follow(source, item, leaf.split("::"), f"{name}::{alias or leaf.rpartition('::')[2]}")
            else:
                self.note(crate, (*path, item.name), f"{name}::{item.name}")

    def follow(self, source, item, parts, name, passed=()):
        """Follows a public import, also through other imports, to a module or to an item of a module."""
        crate, path = source.crate, (*source.module, *parts)
        if parts[0] == "crate" or (parts[0], ()) in self.sources:
            crate, path = crate if parts[0] == "crate" else parts[0], tuple(parts[1:])
        home = self.sources.get((crate, path[:-1]))
        items = [it for it in items_of(home) if it.owner is None] if home else []
        known = (crate, path) in self.sources or parts[0] in tables.BY_HAND
        if known or path[-1] in [it.name for it in items if it.kind != "use"]:
            self.note(crate, path, name)
            return
        for it in (it for it in items if it.kind == "use" and it.is_public() and (crate, path) not in passed):
            for leaf, alias in leaves_of(home, it.keyword + 1, it.end - 1):
                if path[-1] == (alias or leaf.rpartition("::")[2]):
                    self.follow(home, it, leaf.split("::"), name, (*passed, (crate, path)))
                    return
        source.refuse(item.keyword, f"a public import of an unknown item: {'::'.join(parts)}")

    def is_public(self, source, item):
        """Returns whether users can call a function."""
        if not item.is_public():
            return item.owner is not None and item.owner.kind == "trait" and self.is_type(source, item.owner.name)
        if item.owner is None:
            return (source.crate, (*source.module, item.name)) in self.names
        return item.owner.kind == "impl" and self.is_type(source, item.owner.subject)

    def is_type(self, source, subject):
        """Returns whether users can name a type of a crate."""
        return (source.crate, subject.split("<")[0]) in self.types
