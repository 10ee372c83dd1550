"""The rules by which a token changes, and the list of changes. `rules.md` has the rules.

The list is computed from the tokens that were written and from the changes that they belong to. It does not depend on the
intention of a rule.
"""

import hashlib
import re
from collections import Counter
from itertools import groupby

from .tables import page, rows_of
from .tokens import words_of

# The description of each rule.
RULES = dict(rows_of("rules.md", "rule | description"))
# The beginning of the page.
HEAD = page("rules.md").split("```md\n")[1].split("```")[0]
# The titles of the two parts of the list.
LEFT_OUT, PUT_IN = "Removed", "Put in"
# Examples of at most this many characters are shown whole.
LONGEST = 100


class Changes:
    """All changes of some sources: for each part and each rule, how often each pair of old and new text occurs."""

    def __init__(self, sources):
        self.kept, self.parts = 0, {LEFT_OUT: {}, PUT_IN: {}}
        for source in sources:
            for edit in source.edits:
                if not edit.new:
                    self.count(LEFT_OUT, edit.rule, edit.old, "")
            for run in (list(run) for _, run in groupby(source.tokens, key=lambda token: id(token.edit))):
                edit = run[0].edit
                if edit is None:
                    self.kept += sum(token.kind != "end" for token in run)
                else:
                    self.count(PUT_IN, edit.rule, edit.old, words_of(run))

    def count(self, part, rule, old, new):
        """Counts one change."""
        self.parts[part].setdefault(rule, Counter())[" ".join(old.split()), " ".join(new.split())] += 1

    def rules(self, part):
        """Returns the rules of a part in the order of the table, each with its changes, the frequent ones first."""
        used = {rule: self.parts[part][rule] for rule in RULES if rule in self.parts[part]}
        return {rule: sorted(forms.items(), key=lambda form: (-form[1], form[0])) for rule, forms in used.items()}

    def listing(self, wanted=()):
        """Returns every change, or every change of the wanted rules: how often, the old text, and the new text."""
        lines = []
        for part in self.parts:
            for rule, forms in self.rules(part).items():
                if not wanted or rule in wanted:
                    lines += [f"## {part}: `{rule}`", "", RULES[rule], ""]
                    lines += [f"- {count} × {shown(pair)}" if count > 1 else f"- {shown(pair)}" for pair, count in forms]
                    lines.append("")
        return "\n".join(lines)

    def page(self):
        """Returns the text of the page."""
        listing = self.listing()
        checksum = hashlib.sha256(listing.encode("utf-8")).hexdigest()
        lines = [HEAD.format(kept=self.kept, lines=listing.count("\n") + 1, checksum=checksum)]
        for part in self.parts:
            lines += [f"## {part}", "", "| rule | changes | different | description | example |", "|---|---:|---:|---|---|"]
            for rule, forms in self.rules(part).items():
                times = sum(count for _, count in forms)
                lines.append(f"| `{rule}` | {times} | {len(forms)} | {RULES[rule]} | {example(forms)} |")
            lines.append("")
        return "\n".join(lines)


def shown(pair):
    """Returns the old and the new text of a change as code."""
    return " → ".join(f"`` {text} ``" if "`" in text else f"`{text}`" for text in pair if text)


def example(forms):
    """Returns a change for a cell of a table: the most frequent one that is short, or the beginning of the shortest one."""
    short = [pair for pair, _ in forms if len(shown(pair)) <= LONGEST and re.search(r"\w\w", shown(pair))]
    pair = short[0] if short else min((pair for pair, _ in forms), key=lambda pair: len(shown(pair)))
    room = LONGEST // sum(map(bool, pair))
    return shown([text if short or len(text) <= room else text[:room].rsplit(" ", 1)[0] + " .." for text in pair]).replace("|", "\\|")
