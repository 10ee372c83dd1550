"""Reads the public items of a crate: their doc comments, definitions, signatures and clauses."""
import re
from pathlib import Path

TOP = Path(__file__).resolve().parent.parent
LISTED = re.findall(r"^(\w+)", (TOP / "crates.txt").read_text(), re.M)
HEAD = re.compile(r"(?P<pub>pub )?(?:const |unsafe |extern \"C\" )*(?P<kind>fn|struct|enum|trait|impl|mod|use)\b(?P<rest>.*)")
CLAUSE = re.compile(r"^\s+(?:ensures|requires)")


def items_of(lines, indent):
    """Returns the items at this indentation, each as its doc comment and its other lines, without attributes."""
    pad, doc, item, in_body = " " * indent, [], [], False
    for line in lines:
        if not item:
            if line.startswith(pad + "///"):
                doc.append(line.strip()[3:].removeprefix(" "))
                continue
            if not line.startswith(pad) or line[indent:indent + 1] in ("", " ", "/", "#", "}", ")", "{", "]"):
                doc = doc if line.startswith(pad + "#") or line[:indent + 1].strip() == "" and line.strip() else []
                continue
        item.append(line)
        opens = line == pad + "{" or line.endswith("{") and (len(item) == 1 or re.match(rf"{pad}( *\+|\))", line))
        closes = line.startswith(pad + "}") or line == pad + "{}" or not in_body and re.search(r"(;|\{\})$", line)
        in_body = in_body or opens
        if closes:
            yield doc, item
            doc, item, in_body = [], [], False


def signature(lines, indent):
    """Returns the signature and the clauses of a function."""
    pad, taken = " " * indent, []
    for line in lines:
        if line in (pad + "{", pad + "{}"):
            break
        if not any(map(CLAUSE.match, [*taken, line])) and re.search(r" \{(\})?$", line):
            taken.append(re.sub(r" \{(\})?$", "", line))
            break
        taken.append(line)
        if line.endswith(";"):
            break
    return taken


def body_start(item):
    """Returns the number of the line that opens the body of a type or an `impl`."""
    return next((k for k, line in enumerate(item) if line.endswith("{")), len(item))


class File:
    """A source file: its public functions and types, and the `impl` blocks of types."""

    def __init__(self, path):
        self.path, self.text = path, path.read_text()
        self.items = list(items_of(self.text.splitlines(), 0))

    def doc(self):
        """Returns the doc comment of the module."""
        return [line[3:].removeprefix(" ") for line in self.text.splitlines() if line.startswith("//!")]

    def heads(self):
        for doc, item in self.items:
            found = HEAD.match(item[0])
            if found:
                yield doc, item, found

    def names(self):
        """Returns the public names that the file itself defines."""
        return {name_in(it) for _, _, it in self.heads() if it["pub"] and it["kind"] in ("fn", "struct", "enum", "trait")}

    def types(self):
        return {name_in(it) for _, _, it in self.heads() if it["pub"] and it["kind"] in ("struct", "enum")}


def name_in(head):
    return re.match(r"\W*(\w+)", head["rest"])[1]


def definition(item, kind):
    """Returns the definition of a type with the doc comments of its public parts, and the texts of errors."""
    start = body_start(item)
    if start == len(item):
        return item
    if kind == "trait":
        return trait_members(item, start)
    if kind == "enum":
        return [line for line in item if not re.match(r"\s*#\[(?!error\()", line)]
    fields = [(doc, it) for doc, it in items_of(field_lines(item[start + 1:-1]), 4)]
    kept = [line for doc, it in fields if it[0].startswith("    pub ")
            for line in [*(f"    /// {text}".rstrip() for text in doc), *it]]
    hidden = [] if all(it[0].startswith("    pub ") for _, it in fields) else ["    // private fields"]
    return [*item[:start + 1], *(line.replace(",;", ",") for line in kept), *hidden, "}"]


def field_lines(lines):
    """Returns fields as items. An item ends with its comma."""
    return [re.sub(r",$", ",;", line) if line.startswith("    ") and not line.startswith("     ") else line for line in lines]


def trait_members(item, start):
    kept = []
    for doc, member in items_of(item[start + 1:-1], 4):
        if not re.match(r"\s+ghost use", member[0]):
            kept += [*(f"    /// {line}".rstrip() for line in doc), *signature(member, 4)]
    return [*item[:start + 1], *kept, "}"]


def owner_of(item):
    """Returns the trait and the type of an `impl`."""
    found = re.match(r"impl(?:<.*?>)? (?:(?P<trait>[\w:]+)(?:<.*>)? for )?&?(?:'\w+ )?(?P<type>\w+)", item[0])
    return (found["trait"], found["type"]) if found else (None, None)


def methods(item):
    """Returns the public methods of an `impl` of a type: name, doc comment, signature with clauses."""
    for doc, member in items_of(item[body_start(item) + 1:-1], 4):
        if re.match(r"\s+pub (const )?fn ", member[0]):
            told = [line[4:] for line in signature(member, 4)]
            yield re.search(r"fn (\w+)", told[0])[1], doc, told


def trait_block(item):
    """Returns the clauses of the `impl` of a trait."""
    kept = []
    for _, member in items_of(item[body_start(item) + 1:-1], 4):
        told = signature(member, 4)
        if re.match(r"\s+ghost \w*gives = ", told[0]) or any(map(CLAUSE.match, told)) and " fn " in " " + told[0]:
            kept += told
    return [*item[:body_start(item) + 1], *kept, "}"] if kept else []


def reexports(text):
    """Returns the paths of the `pub use` lines of a text, each as a list of names."""
    for path, braced, last in re.findall(r"^pub use ([\w:]+::)(?:\{([^}]*)\}|(\w+));", text, re.M):
        for name in re.findall(r"\w+", braced) or [last]:
            yield [*path.removesuffix("::").split("::"), name]


def file_of(crate, module, words):
    """Returns the file of a path, seen from a module of a crate, or None."""
    if words and words[0] == "crate":
        base, words = TOP / f"crates/{crate}/src", words[1:]
    elif words and words[0] in LISTED:
        base, words = TOP / f"crates/{words[0]}/src", words[1:]
    else:
        base = TOP / f"crates/{crate}/src" / "/".join(module)
    path = base.joinpath(*words).with_suffix(".rt") if words else base
    return path if path.is_file() else None


def module_files(crate, module, path):
    """Returns the files of a module, each with its public names."""
    own = File(path)
    wanted = {path: own.names()}
    for *words, name in reexports(own.text):
        words = words[:-1] if words and file_of(crate, module, words) is None and words[-1:] else words
        target = file_of(crate, module, words)
        if target and target != path:
            wanted.setdefault(target, set()).add(name)
    return wanted


def modules_of(crate):
    """Returns the public modules of a crate: the public path, the doc comment, and the files with their public names. Single items of
    another crate are on the page of that crate."""
    root = TOP / f"crates/{crate}/src/lib.rt"
    lib, at_root, modules = root.read_text(), {}, []
    for name in re.findall(r"^pub mod (\w+);", lib, re.M):
        path = TOP / f"crates/{crate}/src/{name}.rt"
        modules.append((f"{crate}::{name}", File(path).doc(), module_files(crate, [name], path)))
    for *words, name in reexports(lib):
        if words[0] in LISTED:
            path = TOP / f"crates/{words[0]}/src/{name}.rt"
            if path.is_file():
                modules.append((f"{crate}::{name}", File(path).doc(), module_files(words[0], [name], path)))
        else:
            at_root.setdefault(file_of(crate, [], words), set()).add(name)
    first = [(crate, [], at_root)] if at_root else []
    return [*first, *sorted(modules, key=lambda it: it[0].endswith("::laws"))]


def root_of(path):
    """Returns the folder `src` of a file."""
    return next(it for it in path.parents if it.name == "src")
