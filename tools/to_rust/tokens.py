"""Tokens of a source: words, marks, numbers, strings, lifetimes and doc comment lines.

The blanks and comments between two tokens are the `lead` of the second token. All tokens in order, each after its lead,
are the text of the source.
"""

import re


class Refused(Exception):
    """An unknown form in a source."""

    def __init__(self, place, message):
        super().__init__(f"{place}: {message}")


class Token:
    """One token. `edit` is the change that made it, and None for a token of the source."""

    __slots__ = ("kind", "text", "lead", "place", "edit")

    def __init__(self, kind, text, lead, place, edit=None):
        self.kind, self.text, self.lead, self.place, self.edit = kind, text, lead, place, edit


LEAD = re.compile(r"(?:\s+|//(?![/!])[^\n]*|////[^\n]*)*")
MARKS = r"\.\.=|<<=|::|->|=>|==|!=|<=|>=|&&|\|\||\.\.|[-+*/%^&|]=|[-+*/%^!&|=<>@.,;:#$?~()\[\]{}]"
FORM = re.compile("|".join([
    r"(?P<doc>///(?!/)[^\n]*|//![^\n]*)",
    r'(?P<string>b?"(?:[^"\\]|\\.)*"|b?r(?P<fence>#*)".*?"(?P=fence))',
    r"(?P<char>b?'(?:[^'\\\n]|\\x[0-9a-fA-F]{2}|\\u\{[0-9a-fA-F_]+\}|\\.)')",
    r"(?P<lifetime>'[A-Za-z_][A-Za-z0-9_]*)",
    r"(?P<word>[A-Za-z_][A-Za-z0-9_]*)",
    r"(?P<number>[0-9][0-9_]*(?:\.[0-9][0-9_]*)?(?:[eE][+-]?[0-9]+)?[A-Za-z0-9_]*)",
    rf"(?P<mark>(?!/\*)(?:{MARKS}))",
    r"(?P<strange>/\*|.)",
]), re.DOTALL)


def tokens_of(text, path, edit=None):
    """Returns the tokens of a text. The last token, of kind `end`, has an empty text and the lead at the end of the file."""
    tokens, at, line = [], 0, 1
    while True:
        start = LEAD.match(text, at).end()
        line += text.count("\n", at, start)
        place = f"{path}:{line}"
        if start == len(text):
            tokens.append(Token("end", "", text[at:], place, edit))
            return tokens
        found = FORM.match(text, start)
        tokens.append(Token(found.lastgroup, found[0], text[at:start], place, edit))
        at = found.end()
        line += found[0].count("\n")


def words_of(tokens):
    """Returns these tokens on one line, without comments. A blank separates two tokens that were separated."""
    return "".join((" " if token.lead and k else "") + token.text for k, token in enumerate(tokens))
