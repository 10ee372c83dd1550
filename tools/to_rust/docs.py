"""Documentation: paths are changed to the Rust paths, and sentences about proofs are removed.

The lines of a paragraph are filled again if a sentence was removed from it. All other paragraphs keep their lines.
"""

import re
import textwrap

from . import paths, tables

WRAP = {"width": 110, "break_long_words": False, "break_on_hyphens": False}
PROOF_WORDS = re.compile("|".join(tables.PROOF_WORDS))
SENTENCE_END = re.compile(r"(?<=[.:!?])\s+(?=[A-Z`\[(])")
LINK = re.compile(r"\]\(([A-Za-z_][A-Za-z0-9_:]*)(\(\))?\)")
BARE = re.compile(r"\[`([a-z_0-9]+(?:::\w+)+)`\](?!\()")
# Names of Rattle for the number of bytes of a pixel, which Rust writes as `size_of`.
BYTES = re.compile(r"\[`BYTES`\]\(Pixel::BYTES\)|\[`Pixel::BYTES`\]|`([TS])::BYTES`")
CRATE = re.compile(r"`(v_frame_[a-z0-9_]+)`")


def without_proofs(text):
    """Returns a text without its sentences about proofs, and these sentences. A part after `;` counts as a sentence."""
    kept, left_out = [], []
    for sentence in SENTENCE_END.split(text):
        front, _, back = sentence.partition("; ")
        if not PROOF_WORDS.search(sentence):
            kept.append(sentence)
        elif back and not PROOF_WORDS.search(front):
            kept.append(front + ".")
            left_out.append(back)
        else:
            left_out.append(sentence)
    return " ".join(kept), left_out


def shortened(lines):
    """Returns the lines of a text without sentences about proofs, and these sentences."""
    new, left_out, fenced, at = [], [], False, 0
    while at < len(lines):
        end = at + 1
        fenced = fenced != lines[at].strip().startswith("```")
        stays = fenced or re.match(r"\s*($|#|\||```)", lines[at])  # A blank line, or a line that is not prose.
        while not stays and end < len(lines) and not re.match(r"\s*($|#|\||```)|- ", lines[end]):
            end += 1
        item = "- " if lines[at].startswith("- ") else ""
        words = "" if stays else " ".join(line.strip() for line in lines[at:end])
        text, sentences = without_proofs(words.removeprefix(item))
        filled = textwrap.wrap(text, initial_indent=item, subsequent_indent=" " * len(item), **WRAP)
        new += filled if sentences else lines[at:end]
        left_out += sentences
        at = end
    kept = [line for k, line in enumerate(new) if line.strip() or k and new[k - 1].strip()]
    return kept[:-1] if kept and not kept[-1].strip() else kept, left_out


class Links:
    """The targets of the links of one source."""

    def __init__(self, source, reach):
        self.source, self.reach, self.imports = source, reach, source.left_imports

    def path(self, path):
        """Returns the Rust path for a path. For an item of the same crate, this is its shortest public path."""
        root, *parts = path.split("::")
        crate = self.source.crate if root == "crate" else root
        if (crate, ()) not in self.reach.sources:
            return self.path("::".join([self.imports[root], *parts])) if root in self.imports else path
        for length in range(len(parts), -1, -1) if paths.home_of(crate) == paths.home_of(self.source.crate) else ():
            name = self.reach.names.get((crate, tuple(parts[:length])))
            if name is not None:
                return "::".join([name, *parts[length:]])
        return "::".join([paths.module_of(self.source, crate) or crate, *parts])

    def line(self, line):
        """Returns a line with the Rust paths and the Rust names."""
        line = LINK.sub(lambda found: f"]({self.path(found[1])}{found[2] or ''})", line)
        for name, path in self.imports.items():
            named = re.compile(rf"\[`({name})((?:::\w+)*)`\](?!\()")
            line = named.sub(lambda found: f"[`{found[1]}{found[2]}`]({self.path(path + found[2])})", line)
        line = BARE.sub(self.bare, line)
        line = CRATE.sub(lambda found: f"`{tables.PUBLIC_NAMES.get(found[1], found[1]).rpartition('::')[2]}`", line)
        return BYTES.sub(lambda found: f"`size_of::<{found[1] or 'T'}>()`", line)

    def bare(self, found):
        """Returns a link whose text is its target, with the Rust path for both."""
        path = self.path(found[1])
        shown = path.removeprefix("crate::")
        return f"[`{shown}`]({path})" if path != shown else f"[`{path}`]"


def rewrite(source, links):
    """Rewrites each doc comment of a source, and adds the paragraph of the table to the documentation of a module."""
    at = 0
    while at < len(source):
        end = at
        while source.kind(end) == "doc" and source[end][:3] == source[at][:3]:
            end += 1
        added = tables.DOC_ADDED.get((source.crate, *source.module)) if at == 0 else None
        at = rewrite_text(source, at, end, links) if end > at else at + 1
        if added:
            lines = textwrap.wrap(added, initial_indent="//! ", subsequent_indent="//! ", **WRAP)
            at = source.insert(at, "doc-added", "\n".join(["//!", *lines]), "\n")


def rewrite_text(source, start, end, links):
    """Rewrites the doc comment of one item, and returns its end. Unchanged lines remain tokens of the source."""
    mark, old = source[start][:3], [source[k][3:].removeprefix(" ") for k in range(start, end)]
    new, left_out = shortened(old)
    for sentence in left_out:
        source.note("doc-proofs", start, sentence)
    new = [links.line(line) for line in (new if left_out else old)]
    front = back = 0
    while front < min(len(old), len(new)) and old[front] == new[front]:
        front += 1
    while back < min(len(old), len(new)) - front and old[-1 - back] == new[-1 - back]:
        back += 1
    lines = [f"{mark} {line}".rstrip() for line in new[front:len(new) - back]]
    text = source.line_start(start + front).join(lines)
    if lines or front < len(old) - back:
        source.replace(start + front, end - back, "doc-filled" if left_out else "doc-path", text)
    return start + len(new)


def rewrite_comments(source):
    """Removes comments about proofs."""
    for at, token in enumerate(source.tokens):
        for comment in re.findall(r"(?:[ \t]*//[^\n]*\n)+", token.lead):
            text = " ".join(line.strip(" /") for line in comment.splitlines())
            if PROOF_WORDS.search(text):
                source.note("comment-proofs", at, text)
                token.lead = token.lead.replace(comment, "", 1)
