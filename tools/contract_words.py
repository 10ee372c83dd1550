"""Finds the terms that clauses use, their definitions and their explanations, and writes the glossary."""
import re
from collections import defaultdict

from source_items import TOP

GLOSSARY = TOP / "docs/api/words.md"
LONGEST = 200  # characters of the equations in a row
DEFINED = r"^( *)(?:abbrev |unfoldable )*pub (?:record )?{}(?= .*:|\n| )"


def general_words():
    """Returns the anchor of each term of the standard library that the hand-written part of the glossary explains."""
    return {word: anchor for anchor, cell in re.findall(r'^\| <a id="(word-[^"]*)"></a>(.*?) \|', GLOSSARY.read_text(), re.M)
            for word in re.findall(r"`(\w+)", cell)}


def model_rows():
    """Returns the anchor of the row of MODEL for each term and file that a comment at the end of the row names."""
    rows = {}
    for idea, named in re.findall(r'^\| <a id="([\w-]+)"></a>.*<!-- (.*) --> \|$', (TOP / "docs/MODEL.md").read_text(), re.M):
        for file, words in re.findall(r"(\w+): ([^;]*)", named):
            rows.update({(word, file): f"../MODEL.md#{idea}" for word in words.split()})
    return rows


GENERAL, MODEL = general_words(), model_rows()


def unknown_ideas():
    """Returns the terms of MODEL that no file of this name defines."""
    texts = {file: "\n".join(it.read_text() for it in TOP.glob(f"crates/*/specs/{file}.antt")) for _, file in MODEL}
    return [(word, file) for word, file in MODEL if not re.search(DEFINED.format(re.escape(word)), texts[file], re.M)]


def imported(text):
    """Returns the terms that a file imports for its clauses, with their modules."""
    return {it.split(" as ")[-1].strip(): (module, it.split(" as ")[0].strip())
            for module, names in re.findall(r"use ([\w.]+)\.\{([^}]*)\}", text) for it in names.split(",")}


def file_of(module, word):
    """Returns the file that defines a term of a module. The module may re-export it."""
    parts = module.split(".")
    path = TOP.joinpath("crates", parts[1], *parts[2:]).with_suffix(".antt") if len(parts) > 2 else TOP
    if not path.is_file():
        return None
    text = path.read_text()
    if re.search(DEFINED.format(re.escape(word)), text, re.M):
        return path
    handed = imported("\n".join(re.findall(r"^pub use .*", text, re.M))).get(word)
    return file_of(*handed) if handed else None


def meaning_of(path, word):
    """Returns the comment above the definition of a term or of its group, or the definition or its beginning."""
    text = path.read_text()
    found = re.search(DEFINED.format(re.escape(word)), text, re.M)
    above = text[:found.start()].splitlines()
    own = trailing_comment(above)
    while not own and above and above.pop().strip():
        own = trailing_comment(above)
    return (" ".join(own) or f"`{equations_of(text[found.start():], word)}`").replace("|", "\\|")


def equations_of(text, word):
    """Returns the equations of the definition at the beginning of a text on one line, or the fields of a record."""
    if re.match(r" *pub record", text):
        return "; ".join(re.findall(r"^    pub (.*)", re.match(r"(?:[^\n]+\n)+", text)[0], re.M))
    block = re.match(r".*\n(?:(?! *(?:abbrev |unfoldable )*pub )[^\n]+\n)*", text)[0]
    equations = [" ".join(it.split()) for it in re.split(rf"^ *(?={re.escape(word)}\b)", block, flags=re.M)[1:]]
    told = "; ".join(equations)
    return told if len(told) <= LONGEST else told[:LONGEST].rsplit("; " if "; " in told[:LONGEST] else " ", 1)[0] + " .."


def trailing_comment(lines):
    """Returns the comment at the end of some lines."""
    count = next((k for k, line in enumerate(reversed(lines)) if not line.strip().startswith("--")), len(lines))
    return [line.strip().lstrip("- ") for line in lines[len(lines) - count:]]


class Words:
    """The terms that pages use, each with a row of the glossary."""

    def __init__(self):
        self.used = defaultdict(set)

    def link(self, module, word):
        """Returns the link from a page of the reference to the row of a term, or None."""
        path = file_of(module, word)
        if path is None:
            return f"words.md#{GENERAL[word]}" if module.startswith("Rattle.std.") and word in GENERAL else None
        crate = path.relative_to(TOP / "crates").parts[0]
        self.used[crate].add((word, path))
        return f"words.md#{crate}.{path.stem}.{word}"

    def line(self, code, text):
        """Returns links to the terms in the clauses of some lines of a file."""
        clauses = re.sub(r"//.*", "", "\n".join(code))
        clauses = "\n".join(re.findall(r"(?:ensures|requires)\*?(?: \w+)? \{((?:[^{}]|\{[^{}]*\})*)\}", clauses))
        taken = imported("\n".join(re.findall(r"ghost use .*", text)))
        used = [it for it in dict.fromkeys(re.findall(r"(?<![\w.])[A-Za-z]\w+", clauses)) if it in taken]
        links = [f"[`{it}`]({link})" for it in used if (link := self.link(*taken[it]))]
        return [f"Terms: {', '.join(links)}.", ""] if links else []

    def table(self):
        """Returns the rows of the glossary, crate by crate."""
        told = []
        for crate, words in sorted(self.used.items()):
            told += [f"## Terms of `{crate}`", "", "| term | meaning | defined in |", "|---|---|---|"]
            for word, path in sorted(words, key=lambda it: (it[0].lower(), it)):
                home = path.relative_to(TOP)
                idea = f", [MODEL]({MODEL[word, path.stem]})" if (word, path.stem) in MODEL else ""
                told.append(f'| <a id="{crate}.{path.stem}.{word}"></a>`{word}` | {meaning_of(path, word)} | '
                            f"[`{path.name}`](../../{home}){idea} |")
            told.append("")
        return told
