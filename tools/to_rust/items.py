"""The items of a source: functions with their clauses, types, traits, implementations and modules.

This module reads only the text outside of function bodies. An unknown form of an item is rejected.
"""

from collections import namedtuple

KEYWORDS = {"fn", "struct", "enum", "trait", "impl", "mod", "use", "const", "static", "type"}
QUALIFIERS = {"const", "unsafe", "final", "extern"}
CLAUSE_WORDS = ("requires", "ensures")

# A `requires` or an `ensures`: its keyword, its text, and its place.
Clause = namedtuple("Clause", "word text place")


class Item:
    """An item: its kind, its name, and the token numbers of its parts. `head` is its beginning after its doc comment and
    its attributes. `subject` is the type of an `impl`, and `trait` is its trait."""

    def __init__(self, start, owner=None):
        self.start, self.owner = start, owner
        self.kind = self.name = self.subject = self.trait = ""
        self.docs, self.attributes, self.clauses = [], [], []
        self.visible = self.generics = self.params = self.result = self.body = None
        self.head = self.keyword = self.end = start

    def is_public(self):
        """Returns whether the item is `pub` without a restriction."""
        return self.visible is not None and self.visible[1] - self.visible[0] == 1


def items_of(source, start=0, end=None, owner=None):
    """Returns the items between two places. Each item comes before the items inside it."""
    found, at = [], start
    while at < (len(source) - 1 if end is None else end):
        if source[at].startswith("//!"):
            at += 1
        elif source.matches(at, "# !"):
            at = source.closing(at + 2) + 1
        else:
            item = item_at(source, at, owner)
            at = item.end
            found.append(item)
            if item.kind in ("impl", "trait", "mod") and item.body:
                found.extend(items_of(source, item.body[0] + 1, item.body[1], item))
    return found


def functions_of(source):
    """Returns the functions, including the functions of implementations and traits."""
    return [item for item in items_of(source) if item.kind == "fn"]


def parameters_of(source, item):
    """Returns the beginning, the place of the name, which may be `self`, and the end of each parameter of a function."""
    parts = source.elements(item.params[0], types=True)
    names = [[at for at in range(start, end) if source.is_word(at) and source[at] != "mut"]
             if source.words(start, end).count(" = ") == 0 else [] for start, end in parts]
    if [] in names:
        source.refuse(parts[names.index([])][0], "unsupported form of a parameter")
    return [(start, name[0], end) for (start, end), name in zip(parts, names)]


def item_at(source, at, owner):
    """Returns the item that begins at `at`."""
    item = Item(at, owner)
    at = item.head = skip_attributes(source, at, item)
    if source[at] == "pub":
        item.visible = (at, source.closing(at + 1) + 1 if source[at + 1] == "(" else at + 1)
        at = item.visible[1]
    while source[at] in QUALIFIERS and source[at + 2] != ":":
        at += 2 if source[at] == "extern" else 1
    if source[at] not in KEYWORDS:
        source.refuse(at, f"unknown item at `{source[at]}`")
    item.kind, item.keyword = source[at], at
    if item.kind != "impl":
        at += 1
        item.name = source[at]
    if item.kind not in ("fn", "struct", "enum", "trait", "impl") and (item.kind != "mod" or source[at + 1] != "{"):
        item.end = source.following(at, ";") + 1
        return item
    at += 1
    if source[at] == "<":
        item.generics = (at, source.closing(at))
        at = item.generics[1] + 1
    (read_function if item.kind == "fn" else read_block)(source, at, item)
    return item


def skip_attributes(source, at, item):
    """Skips doc comments and attributes, and records them in the item."""
    while source.kind(at) == "doc" or source[at] == "#":
        end = source.closing(at + 1) + 1 if source[at] == "#" else at + 1
        if source[at] == "#":
            item.attributes.append((at, end))
        else:
            item.docs.append(at)
        at = end
    return at


def read_function(source, at, item):
    """Reads a function, beginning with its parameters."""
    if source[at] != "(":
        source.refuse(at, "a function without a parameter list")
    item.params = (at, source.closing(at))
    at = item.params[1] + 1
    if source[at] == "->":
        item.result = (at, source.following(at, "{", ";", "where", *CLAUSE_WORDS))
        at = item.result[1]
        for k in range(item.result[0] + 1, at):
            before = source[k - 1]
            behind = source.is_word(k - 1) and before not in ("dyn", "impl", "mut") or before in (">", ")", "]")
            if source.is_word(k) and behind:
                source.refuse(k, f"unknown clause at `{source[k]}`")
    if source[at] == "where":
        at = source.following(at, "{", ";", *CLAUSE_WORDS)
    while source[at] in CLAUSE_WORDS:
        start = at + 1 + (source[at + 1] == "*")
        start += source.is_word(start)
        if source[start] != "{":
            source.refuse(start, f"unknown form of `{source[at]}`")
        end = source.closing(start)
        item.clauses.append(Clause(source[at], source.words(start + 1, end), source.tokens[at].place))
        at = end + 1
    if source[at] == "{":
        item.body = (at, source.closing(at))
        at = item.body[1]
    elif source[at] != ";":
        source.refuse(at, f"unknown clause at `{source[at]}`")
    item.end = at + 1


def read_block(source, at, item):
    """Reads an `impl`, a trait, a struct, an enum or a module after its type parameters, without its body."""
    head, where = at, None
    while source[at] not in ("{", ";") and (source[at] != "(" or item.kind == "impl"):
        if source[at] == "<":
            at = source.closing(at)
        elif source[at] == "where":
            where = at
        elif source[at] == "for":
            item.trait, head = source.words(head, at), at + 1
        elif at >= len(source) - 1:
            source.refuse(item.keyword, "an item without an end")
        at += 1
    item.subject = source.words(head, where or at)
    if source[at] != ";":
        item.body = (at, source.closing(at))
        at = item.body[1] + (source[at] == "(")
    item.end = at + 1
