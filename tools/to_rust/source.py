"""A source during its translation: its tokens, and the changes to them.

Only two functions change tokens, `Source.replace` and `Source.erase`, and each change names its rule. Each token of the
output is therefore either a token of the source or belongs to a change.
"""

import re
from collections import namedtuple

from .rules import RULES
from .tokens import Refused, tokens_of, words_of

CLOSING = {"(": ")", "[": "]", "{": "}"}

# One change: its rule, the old text and the new text.
Edit = namedtuple("Edit", "rule old new")


class Source:
    """One file of one crate. `source[k]` is the text of token `k`."""

    def __init__(self, crate, module, path, text):
        self.crate, self.module, self.path, self.original = crate, module, path, text
        self.tokens, self.edits = tokens_of(text, path), []
        self.clauses, self.left_imports = {}, {}

    def __getitem__(self, at):
        return self.tokens[at].text if 0 <= at < len(self.tokens) else ""

    def __len__(self):
        return len(self.tokens)

    def kind(self, at):
        """Returns the kind of a token, or an empty text outside of the source."""
        return self.tokens[at].kind if 0 <= at < len(self.tokens) else ""

    def is_word(self, at):
        """Returns whether a token is a word."""
        return self.kind(at) == "word"

    def matches(self, at, words):
        """Returns whether the tokens at `at` are these texts, which are separated by blanks."""
        return all(self[at + k] == word for k, word in enumerate(words.split()))

    def places(self, *texts):
        """Returns the places of these texts, the last one first, because a change does not move the places before it."""
        return [at for at in reversed(range(len(self))) if self.tokens[at].text in texts]

    def clauses_of(self, item, word):
        """Returns the preconditions (`requires`) or the postconditions (`ensures`) of a function."""
        return [clause for clause in self.clauses.get(self.tokens[item.keyword], ()) if clause.word == word]

    def refuse(self, at, message):
        """Raises an error with the place of this token."""
        raise Refused(self.tokens[min(at, len(self) - 1)].place, message)

    def replace(self, start, end, rule, text, lead=None):
        """Replaces the tokens from `start` to `end` by a text, and returns the end of the new tokens. The first new token gets
        the lead of the first old token, unless a lead is given. An empty text removes the tokens."""
        if not text:
            return self.erase(start, end, rule)
        near, edit = self.tokens[start], self.note(rule, start, self.words(start, end), text)
        new = tokens_of(text, near.place, edit)[:-1]
        for token in new:
            token.place = near.place
        new[0].lead = near.lead if lead is None else lead
        self.tokens[start:end] = new
        return start + len(new)

    def insert(self, at, rule, text, lead):
        """Inserts a text in front of the token at `at`."""
        return self.replace(at, at, rule, text, lead)

    def insert_line(self, at, rule, text):
        """Inserts a line in front of the line that begins at `at`."""
        end = self.insert(at, rule, text, self.tokens[at].lead)
        self.tokens[end].lead = self.line_start(end)

    def line_start(self, at):
        """Returns the lead of a new line with the indentation of the line that begins at `at`."""
        return "\n" + self.tokens[at].lead.rpartition("\n")[2]

    def erase(self, start, end, rule):
        """Removes the tokens from `start` to `end`."""
        self.note(rule, start, self.words(start, end))
        lead = lead_after(self[start - 1], self.tokens[start].lead, self.tokens[end])
        del self.tokens[start:end]
        self.tokens[start].lead = lead

    def erase_listed(self, start, end, rule):
        """Removes an element of a list, with the comma after it or before it."""
        self.erase(start - (self[end] != "," and self[start - 1] == ","), end + (self[end] == ","), rule)

    def note(self, rule, at, old, new=""):
        """Records a change, and returns it. The old text may be a part of a doc comment or of a comment."""
        if rule not in RULES:
            self.refuse(at, f"the table has no rule {rule}")
        self.edits.append(Edit(rule, old, new))
        return self.edits[-1]

    def following(self, at, *texts):
        """Returns the first place of one of these texts from `at` on, outside of brackets."""
        start = at
        while self[at] not in texts:
            if at >= len(self):
                self.refuse(start, f"no {' or '.join(texts)} follows")
            at = self.closing(at) + 1 if self[at] in CLOSING else at + 1
        return at

    def closing(self, at):
        """Returns the place of the closing bracket for the bracket at `at`, or of the `>` for a `<` at `at`."""
        closing = CLOSING.get(self[at], ">")
        end = at + 1
        while (text := self[end]) != closing:
            if text in (")", "]", "}", "") or closing == ">" and text == ";":
                self.refuse(at, "an unclosed bracket")
            opens = text in CLOSING or closing == ">" and text == "<"
            end = self.closing(end) + 1 if opens else end + 1
        return end

    def elements(self, opening, types=False):
        """Returns the beginning and the end of each element of a list in brackets. In a list of types, `<` counts as a bracket."""
        parts, start, at, closing = [], opening + 1, opening + 1, self.closing(opening)
        while at <= closing:
            if at == closing or self[at] == ",":
                parts += [(start, at)] if start < at else []
                start = at + 1
            elif self[at] in CLOSING or types and self[at] == "<":
                at = self.closing(at)
            at += 1
        return parts

    def words(self, start, end):
        """Returns the tokens from `start` to `end` on one line."""
        return words_of(self.tokens[start:end])

    def text(self):
        """Returns the text of the translation, after two checks. The tokens outside of changes must be the tokens of the
        source, which is read again, in order. And the text must be read back as the same tokens."""
        tidy(self.tokens)
        text = "".join(token.lead + token.text for token in self.tokens)
        for token, read in zip(self.tokens, tokens_of(text, self.path)):
            if token.text != read.text:
                raise Refused(token.place, f"`{token.text}` is read back as `{read.text}`")
        left = iter(token.text for token in tokens_of(self.original, self.path))
        for token in self.tokens:
            if token.edit is None and token.text not in left:
                raise Refused(token.place, f"`{token.text}` is not the next token of the source")
        return text


def lead_after(before, lead, after):
    """Returns the lead of a token after the tokens before it were removed; `lead` is the lead of the first of these. The
    result is the lead with more lines, or on one line the lead that rustfmt would use."""
    closes = after.text in (",", ";", ")", "]", ">", ":", "}", "?", ".", "")
    if after.text == ";":
        return ""
    if after.text == "{" and before not in (",", "}"):
        return " "
    if "\n" in after.lead:
        blank = not (lead + after.lead).strip() and not closes and lead.count("\n") > after.lead.count("\n")
        return lead if blank else after.lead
    return lead if before in CLOSING or not closes and ("\n" in lead or not after.lead) else after.lead


def tidy(tokens):
    """Removes the blank lines that removed tokens left behind, as rustfmt would."""
    before = ""
    for token in tokens:
        if not token.lead.strip() and "\n" in token.lead and (before == "{" or token.text == "}"):
            token.lead = "" if before == "{" and token.text == "}" else "\n" + token.lead.rpartition("\n")[2]
        if not before:
            token.lead = token.lead.lstrip("\n")
        token.lead = re.sub(r"\n[ \t]*\n([ \t]*\n)+", "\n\n", token.lead)
        before = token.text
