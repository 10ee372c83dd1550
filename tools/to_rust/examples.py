"""Hand-written Rust examples of public items, from `rust/v_frame_proved/doc_examples`.

A line `## PATH` names an item of the library by its public path. The block of code after it goes to the end of the
item's doc comment. `missing` lists the public items that no example of their module shows.
"""

import re

from .items import items_of
from .tokens import Refused

FOLDER = "rust/v_frame_proved/doc_examples"
BY_HAND = "rust/v_frame_proved/src/by_hand"
SECTION = re.compile(r"^## (\S+)\n\n```\n(.*?)^```\n", re.M | re.S)
FENCE = re.compile(r"^ *//[/!] ```(?:no_run)?\n(.*?)^ *//[/!] ```\n", re.M | re.S)
PUBLIC = re.compile(r"^\s*pub (?:const )?(?:fn|struct|enum|trait) (\w+)", re.M)
HIDDEN = {"Pixel", "PixelCalls", "laws"}


class Examples:
    """The examples by the paths of their items, and the public items without an example."""

    def __init__(self, root):
        self.root, self.code, self.place_of, self.modules, self.used, self.missing = root, {}, {}, set(), set(), []
        for path in sorted((root / FOLDER).glob("*.md")):
            text = path.read_text(encoding="utf-8")
            sections = SECTION.findall(text)
            for name, code in sections:
                if name in self.code:
                    raise Refused(str(path), f"two examples of {name}")
                self.code[name], self.place_of[name] = code, str(path)
            if text.count("\n## ") + text.startswith("## ") != len(sections):
                raise Refused(str(path), "a heading without a block of code")

    def add(self, source, reach):
        """Adds the examples of a source to the doc comments of its items, and records items that no example shows."""
        self.modules = {name.partition("::")[2] for name in reach.modules}
        for item in reversed(items_of(source)):
            path = path_of(source, reach, item)
            if path and not HIDDEN & set(path.split("::")):
                if not self.shows(path):
                    self.missing.append(f"{source.tokens[item.head].place}: no example shows {path}")
                self.put(source, path, "///", item.docs)
        module = reach.names.get((source.crate, source.module), "crate").partition("::")[2]
        self.put(source, module, "//!", [at for at in range(len(source)) if source[at].startswith("//!")])

    def shows(self, path):
        """Returns whether an item has an example, or an example of its module has its name and the name of its type."""
        module, (around, name) = self.module_of(path), path.split("::")[-2:] if "::" in path else ("", path)
        names = [name, around] if module != path.rpartition("::")[0] else [name]
        near = [f"{place}\n{code}" for place, code in self.code.items() if self.module_of(place) == module]
        return path in self.code or any(all(re.search(rf"\b{name}\b", text) for name in names) for text in near)

    def module_of(self, path):
        """Returns the module of an item, or a module itself. The name of a type begins with a capital letter."""
        parts = path.split("::")
        length = len(parts) - (path not in self.modules)
        return "::".join(parts[:next((k for k, part in enumerate(parts) if part[0].isupper()), length)])

    def put(self, source, path, mark, docs):
        """Adds an example to a doc comment."""
        if path in self.code and docs:
            self.used.add(path)
            lines = ["", "# Examples", "", "```", *self.code[path].splitlines(), "```"]
            lead = source.line_start(docs[-1])
            text = lead.join(f"{mark} {line}".rstrip() for line in lines)
            source.insert(docs[-1] + 1, "doc-example", text, lead)

    def finish(self):
        """Rejects examples of unknown items, and records hand-written items that no example shows."""
        for path in sorted(set(self.code) - self.used):
            raise Refused(self.place_of[path], f"an example of {path}, which is not a public item with a doc comment")
        files = {path: path.read_text(encoding="utf-8") for path in sorted((self.root / BY_HAND).rglob("*.rs"))}
        shown = "\n".join([*self.code.values(), *(code for text in files.values() for code in FENCE.findall(text))])
        for path, text in files.items():
            names = [name for name in PUBLIC.findall(text) if not re.search(rf"\b{name}\b", shown)]
            self.missing += [f"{path.relative_to(self.root)}: no example shows {name}" for name in names]


def path_of(source, reach, item):
    """Returns the public path of a function or a type, without the crate, or an empty value."""
    place = None
    if item.kind in ("fn", "struct", "enum", "trait") and item.owner is None and item.is_public():
        place = reach.names.get((source.crate, (*source.module, item.name)))
    elif item.kind == "fn" and item.owner is not None and reach.is_public(source, item):
        owner = (source.crate, (item.owner.name or item.owner.subject).split("<")[0])
        place = next((name for (crate, path), name in reach.names.items() if (crate, *path[-1:]) == owner), None)
        place = place and f"{place}::{item.name}"
    return place and place.removeprefix("crate::")
