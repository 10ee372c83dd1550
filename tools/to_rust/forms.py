"""Short forms: tables of patterns in the sources, and of their replacements in Rust.

A row has a rule, a pattern, and replacements. In a pattern, `_` stands for any word, `@` for an allocator, and `..` for
all tokens before the next token of the pattern, outside of brackets. The replacements are for the parts between `«` and
`»`, or for the whole pattern if no part is marked. Without replacements, the parts are removed. If a part is empty, its
replacement is put in. The replacement None rejects the pattern.
"""

from .source import CLOSING

# An allocator has no content in Rattle, so it is removed everywhere.
ALLOCATORS = ("alloc", "_alloc", "rt . alloc ( )", "self . alloc", "system . rt . alloc ( )")

# Ghosts: imports for clauses, and members and fields without memory and value.
GHOSTS = [
    ("ghost-use", "ghost use .. ;"),
    *[("ghost-member", f"{front} ghost _ {kind} {value} {proof} {end}") for front in ("pub ( _ )", "pub", "")
      for kind, value in ((": { .. }", "= { .. }"), (": { .. }", ""), ("", "= { .. }"))
      for proof in ("", "by { .. }") for end in ";,"],
]

# Other forms that only proofs need. In Rattle, a type can be dropped if it is `Drop`; in Rust, every type can be dropped.
PROOFS = [
    *[("clause-requires", f"requires {form} {{ .. }}") for form in ("", "*", "_", "* _")],
    *[("clause-ensures", f"ensures {form} {{ .. }}") for form in ("", "*", "_", "* _")],
    *[("tactic", f"{mark} [ tactic .. ]") for mark in ("# !", "#")],
    ("drop-bound", "+ Drop"),
    ("drop-bound", "« : Drop » >"),
    ("drop-bound", "« where » « _ : Drop , » {"),
    ("drop-bound", "« where » « _ :: Item : Drop , » {"),
    *[("drop-derive", f"{before} « Drop , »") for before in "(,"],
    ("drop-derive", "« , Drop » ) ]"),
    ("drop-derive", "derive ( « Drop » ) ]"),
    ("drop-derive", "# [ derive ( ) ]"),
]

# Memory: `Vec` and `String` are Rust's. A call that creates or extends one reserves memory first, by traits of
# `support::memory`.
MEMORY = [
    ("memory-macro", "« vec ! [ » « in @ ; » .. « ; » .. « ] »", "repeated(", "", ",", ")"),
    ("memory-macro", "« format ! ( » « in @ ; » .. « ) »", "try_format(format_args!(", "", "))"),
    *[("memory-macro", f"{name} !", None) for name in ("vec", "format")],
    ("allocator-variable", "let alloc = @ ;"),
    *[("allocator-bound", bound) for bound in ("+ AllocGlobal", "AllocGlobal +")],
    *[("allocator-parameter", f"{before} « @ : Global , »") for before in "({,"],
    ("allocator-parameter", "( « @ : Global » )"),
    ("allocator-parameter", "« , @ : Global » )"),
    ("memory-call", "Vec :: « from_slice » ( @", "try_from_slice"),
    ("memory-call", "Vec :: « with_capacity » ( @", "with_room_for"),
    ("memory-call", "BufReader :: « new » ( @", "try_new"),
    ("memory-call", ". « to_string » ( @", "try_to_string"),
    ("memory-call", ". « collect » ( @", "try_collect_vec"),
    *[("memory-call", form, None) for form in ("Vec :: from_slice", "Vec :: with_capacity", "BufReader :: new",
                                               "Vec :: <", "BufReader :: <", ". to_string (", ". collect (",
                                               ". collect ::")],
    ("clone", ". « clone » ( @", "try_clone"),
    ("clone", "pub fn « clone » (", "try_clone"),
    *[("clone", f"{mark} clone (", None) for mark in (".", "::")],
    ("clone", "fn clone ( & self ) -> _ {", None),
    ("clone", "fn clone ( & self ) -> « Result < » _ « , AllocError > » { « Ok ( » .. « ) » }"),
    ("clone", "fn clone ( & self ) -> Result", None),
    *[("allocator-argument", f"{before} « @ , »") for before in "({,"],
    ("allocator-argument", "( « @ » )"),
    *[("memory-call", f". « {name} » (", f"try_{name}") for name in "push push_str extend_from_slice resize".split()],
]

# Forms that Rattle and Rust write differently. A condition of `prove!` becomes a debug assertion.
OTHERS = [
    ("formatter", "Formatter < « W » >", "'_"),
    ("formatter", "fn fmt (", None),
    ("formatter", "fn _ « < W : fmt :: Write > » ( .. Formatter < '_ >"),
    ("formatter", "Formatter < _ >", None),
    ("formatter", "fn fmt <", None),
    ("debug-of-field", "self . items . fmt ( f )", "fmt::Debug::fmt(&self.items, f)"),
    ("prove", "« prove » !", "debug_assert"),
    ("unstable-kind", "io :: Error :: from ( ErrorKind :: FilesystemLoop )", "fs::too_many_links()"),
    ("file-lock", "self . try_lock ( )", "crate::support::fs::try_lock(self)"),
    ("file-lock", ". try_lock (", None),
    ("slice-trait", "impl < T > AsSlice < T > for _ < T > { .. }"),
    ("slice-trait", "« DerefSlice » for _ < T > { type « Elem » = « T » ;", "Deref", "Target", "[T]"),
    ("handle", "« eprintln » ! ( « rt ; »", "writeln", "std::io::stderr(),"),
    ("handle", "eprintln !", None),
    ("handle", "« » fn main ( rt : HostRuntime )", "pub"),
]

# Uses of the handle of the system in a program that does not pass it on.
HANDLES = [
    ("handle", "rt . stdout ( )", "std::io::stdout()"),
    ("handle", "fn main ( « rt : HostRuntime » )"),
]


def rewrite(source, table):
    """Rewrites the forms of a table, row by row."""
    present, changes = set(), None
    for rule, pattern, *texts in table:
        if changes != len(source.edits):
            present, changes = {token.text for token in source.tokens}, len(source.edits)
        first = next(word for word in pattern.split() if word not in "«»")
        for at in source.places(first) if first in present else ():
            parts = parts_at(source, at, pattern.split())
            if parts and texts == [None]:
                source.refuse(at, f"unknown form: {pattern}")
            for (start, end), text in zip(reversed(parts), reversed(texts or [""] * len(parts))):
                if start < end:
                    source.replace(start, end, rule, text)
                else:
                    source.insert(start, rule, text, source.tokens[start].lead)
                    source.tokens[start + 1].lead = " "


def parts_at(source, at, pattern):
    """Returns the beginning and the end of each marked part of a pattern, if it matches at `at`, or an empty list."""
    parts, start, begin = [], at, at
    for k, word in enumerate(pattern):
        if word == "«":
            begin = at
        elif word == "»":
            parts.append((begin, at))
        elif word == "..":
            text = next(word for word in pattern[k + 1:] if word not in "«»")
            while source[at] not in (text, ")", "]", "}", ""):
                at = source.closing(at) + 1 if source[at] in CLOSING else at + 1
        elif word == "@":
            length = next((len(form.split()) for form in ALLOCATORS if source.matches(at, form)), 0)
            if not length:
                return []
            at += length
        elif source[at] != word and not (word == "_" and source.is_word(at)):
            return []
        else:
            at += 1
    return parts or [(start, at)]
