"""Writes out the implementations that `thiserror` derives, so that the Rust crates have no dependencies."""

import re

from .items import Item, items_of, skip_attributes

# The attributes of variants and fields that `thiserror` reads.
MARKED = ("error", "source", "from")


class Variant:
    """A variant of an error: its name, the names of its fields, its message, and the field with its cause."""

    def __init__(self, source, at, kind):
        noted = Item(at)
        at = skip_attributes(source, at, noted)
        self.name, self.form, self.fields = f"{kind}::{source[at]}", source[at + 1], []
        self.cause = self.made_from = None
        messages = [at for at, end in noted.attributes if source.matches(at, "# [ error (") and end - at == 7]
        if not len(messages) == len(noted.attributes) == 1:
            source.refuse(at, "a variant of an error must have exactly one attribute, its message")
        self.message = source[messages[0] + 4]
        for start, end in source.elements(at + 1, types=True) if self.form in ("(", "{") else ():
            noted = Item(start)
            start = skip_attributes(source, start, noted)
            number = f"_{len(self.fields)}" if self.fields else ""
            self.fields.append(source[start] if self.form == "{" else f"value{number}")
            for place, behind in noted.attributes:
                word = source.words(place + 2, behind - 1)
                if word not in ("source", "from") or word == "from" and self.form != "(" or self.cause:
                    source.refuse(place, f"unknown attribute of a field: {word}")
                self.cause, self.made_from = self.fields[-1], source.words(start, end) if word == "from" else None
        shown = self.fields if self.form == "{" else [str(number) for number in range(len(self.fields))]
        text = re.sub(r"\{(\w+)\}", lambda found: "" if found[1] in shown else found[0], self.message)
        if self.message != "transparent" and not re.fullmatch(r'"[^{}]*"', text) or \
                self.message == "transparent" and self.fields != ["value"]:
            source.refuse(messages[0], f"unsupported message of an error: {self.message}")

    def pattern(self, used):
        """Returns a pattern that binds the used fields."""
        if self.form == "{":
            kept = [field for field in self.fields if field in used]
            return f"{self.name} {{ {', '.join(kept + ['..'] * (len(kept) < len(self.fields)))} }}"
        if self.form == "(":
            return f"{self.name}({', '.join(field if field in used else '_' for field in self.fields)})"
        return self.name

    def arms(self):
        """Returns the arm of `Display`, and the arm of `source` or an empty value."""
        if self.message == "transparent":
            front = f"{self.pattern(self.fields)} => core::"
            return f"{front}fmt::Display::fmt(value, f),", f"{front}error::Error::source(value),"
        message, used = self.message, set()
        for number, field in enumerate(self.fields):
            shown = "{" + (field if self.form == "{" else str(number)) + "}"
            if shown in message:
                used.add(field)
                message = message.replace(shown, "{" + field + "}")
        call = f"write!(f, {message})" if used else f"f.write_str({message})"
        return f"{self.pattern(used)} => {call},", self.cause and f"{self.pattern([self.cause])} => Some({self.cause}),"


def write_errors(source):
    """Writes `Display`, `Error` and `From` for each type that derives an error."""
    for item in reversed(items_of(source)):
        derives = [range(start, end) for start, end in item.attributes if source[start + 2] == "derive"]
        derived = [at for places in derives for at in places if source[at] == "Error"]
        if not derived:
            continue
        if item.kind != "enum" or not item.body:
            source.refuse(item.keyword, "an error must be an enum")
        variants = [Variant(source, at, item.name) for at, _ in source.elements(item.body[0], types=True)]
        source.insert(item.end, "error-derive", impls_text(item.name, variants), "\n\n")
        for at in reversed([at for at in range(*item.body) if source[at + 1] in MARKED and source[at] == "["]):
            source.erase(at - 1, source.closing(at) + 1, "error-derive")
        source.erase_listed(derived[0], derived[0] + 1, "error-derive")
    for at in source.places(*MARKED):
        if source[at - 1] == "[" and source[at - 2] == "#":
            source.refuse(at, f"unknown attribute: {source[at]}")


def impls_text(name, variants):
    """Returns the implementations."""
    shown, causes = zip(*(variant.arms() for variant in variants))
    functions = {"fmt(&self, f: &mut core::fmt::Formatter<'_>) -> core::fmt::Result": shown}
    if any(causes):
        arms = [*filter(None, causes), "_ => None,"]
        functions["source(&self) -> Option<&(dyn core::error::Error + 'static)>"] = arms
    bodies = [f"\n    fn {head} {{\n        match self {{\n            {arms}\n        }}\n    }}\n" for head, arms in
              ((head, "\n            ".join(arms)) for head, arms in functions.items())]
    made = [f"impl From<{it.made_from}> for {name} {{\n    fn from(value: {it.made_from}) -> Self {{\n"
            f"        {it.name}(value)\n    }}\n}}\n\n" for it in variants if it.made_from]
    shown, cause = f"impl core::fmt::Display for {name} {{{bodies[0]}}}", "".join(bodies[1:])
    return f"{shown}\n\n{''.join(made)}impl core::error::Error for {name} {{{cause}}}"
