"""Preconditions in Rust: each `requires` of a public function becomes a test, and a line of its section `# Panics`.

A function that the library calls often is split in two, because the proofs already show the precondition there: the
public function tests the precondition and calls a function without tests.

A clause is a predicate of the table in `conditions.md`, or a comparison of two numbers. Each number is a plain number, a
half, a sum of two or a product of two. Sums and products are computed in `u128`, where they cannot overflow. The prover
has checked the types of each clause. Every other clause is rejected.
"""

import re
from collections import namedtuple

from . import tables
from .items import functions_of, parameters_of
from .paths import home_of
from .tables import rows_of
from .tokens import Refused

# A Rust test that is true if the condition holds, the text for its failure, and the panic message with values in brackets.
Check = namedtuple("Check", "test words message")

PREDICATES = {row[0].split()[0]: row for row in rows_of("conditions.md", "predicate | test | panics if | message")}
PROVED = "_proved"
SIGNS = {"<": ("<", "is not below"), "≤": ("<=", "is above"), "≡": ("==", "is not"), "≢": ("!=", "is")}
COMPARISON = re.compile(r"([^<≤≡≢]+) ([<≤≡≢]) ([^<≤≡≢]+)")
APPLIED = re.compile(r"(\w+)((?: (?:[^\s()]+|\([^()]+\)))*)")
# Names that stand for several types.
KINDS = {name: set(types.split()) for name, types in rows_of("conditions.md", "name | types")}


class Term(namedtuple("Term", "rust kind words shown noun", defaults=("", ""))):
    """A parameter, a part of one, or a number: its Rust text, its type, its name in documentation and in a message, its noun."""

    def __format__(self, form):
        """Returns its Rust text, its name (`words`), its name with its value (`shown`), or a phrase with `of`."""
        of = "" if self.rust == "self" else f" of {self.words}"
        return {"": self.rust, "words": self.words, "shown": self.shown, "of": of}[form]

    luma = property(lambda self: Term(f"{self}.y_plane", "Plane", f"the luma{self:of}"))
    width = property(lambda self: self.size("width", "width"))
    height = property(lambda self: self.size("height", "height"))
    length = property(lambda self: self.size("len", "length"))
    bytes = property(lambda self: valued(f"{self}.byte_len()", f"`byte_len`{self:of}"))

    def size(self, call, noun):
        """Returns the result of one of its methods, a number."""
        return valued(f"{self}.{call}()", f"the {noun}{self:of}", "usize", "" if self.rust == "self" else noun)

    def wide(self):
        """Returns the number as a `u128`."""
        return self.rust if self.kind in ("literal", "u128") else f"{self} as u128"


def valued(rust, words, kind="usize", noun=""):
    """Returns a term that a message shows with its value."""
    return Term(rust, kind, words, f"{words.replace('`', '')} ([{rust}])", noun)


def pixel_bytes(pixel):
    """Returns the bytes of a pixel. Users know the number as a `size_of` if they choose the pixel type."""
    rust, size = f"{pixel}::BYTES", f"size_of::<{pixel}>()"
    return Term(rust, "usize", f"`{rust}`", f"{size if pixel.rust in tables.PIXEL_TYPES else rust} ([{rust}])")


def half(whole):
    """Returns half of a number, rounded up."""
    form = "half {}, rounded up"
    return Term(f"{whole}.div_ceil(2)", whole.kind, form.format(whole.words), form.format(whole.shown))


def of_two(a, sign, b):
    """Returns the sum or the product of two numbers."""
    form = "twice {1}" if (a.rust, sign) == ("2", "*") else {"+": "{0} plus {1}", "*": "{0} times {1}"}[sign]
    rust = f"{a.wide()} {sign} {b.wide()}"
    return Term(rust, "u128", form.format(a.words, b.words), form.format(a.shown, b.shown))


# The forms of a number, each with a function that builds the number from its parts. Constants are below 2^64.
FORMS = [
    (r"(\d{1,19})", lambda reader, value: Term(value, "literal", value, value)),
    (r"2 \^ ([1-5]?\d|6[0-3])", lambda reader, power: Term(f"1 << {power}", "literal", f"2^{power}", f"2^{power}")),
    (r"([A-Z])\.(?:BYTES|form\.size)", lambda reader, pixel: pixel_bytes(reader.thing(pixel, "type"))),
    (r"length \(byte_list (\w)\.form \(table_of (\S+)\)\)",
     lambda reader, pixel, plane: reader.thing(plane, f"Plane<{pixel}>", f"PlaneRef<'a, {pixel}>").bytes),
    (r"length (\S+)", lambda reader, name: reader.thing(name, "[]").length),
    (r"(\S+)\.width|width_of (\S+)", lambda reader, name: reader.thing(name, "Picture").width),
    (r"(\S+)\.height|height_of (\S+)", lambda reader, name: reader.thing(name, "Picture").height),
    (r"((\w+)\.[012])", lambda reader, place, name: reader.thing(name, "()") and valued(place, f"`{place}`")),
    (r"(\w+)", lambda reader, name: valued(name, f"`{name}`", reader.thing(name, "number").kind)),
    (r"\((.+) \+ 1\) / 2", lambda reader, whole: half(reader.one(whole))),
    (r"([^+]+) (\+) ([^+]+)", lambda reader, a, sign, b: of_two(reader.one(a), sign, reader.one(b))),
    (r"([^*]+) (\*) ([^*]+)", lambda reader, a, sign, b: of_two(reader.one(a), sign, reader.one(b))),
]


class Reader:
    """Reads a clause of a function. `types` has the types of its parameters as texts; a type parameter has the type `type`."""

    def __init__(self, source, item, clause):
        lists = [it.generics for it in (item.owner, item) if it and it.generics]
        self.clause = clause
        self.types = {source[at]: "type" for start, end in lists for at in range(start, end)}
        for start, at, end in parameters_of(source, item):
            behind = source.words(at + 2, end)
            self.known(item.owner or end > at + 1)
            self.types[source[at]] = behind if end > at + 1 else f"{source.words(start, at)} {item.owner.subject}"

    def known(self, found):
        """Returns the argument, or rejects the clause if the argument is empty."""
        if not found:
            raise Refused(self.clause.place, f"unknown clause: `{self.clause.text}`")
        return found

    def check(self):
        """Returns the test of the clause."""
        text = self.clause.text
        applied, comparison = APPLIED.fullmatch(text), COMPARISON.fullmatch(text)
        if applied and applied[1] in PREDICATES:
            return self.of_predicate(PREDICATES[applied[1]], re.findall(r"[^\s()]+|\([^()]+\)", applied[2]))
        a, sign, b = self.known(comparison).groups()
        if sign == "≢" and re.fullmatch(r"[A-Z][a-z]+", b):
            words = f"{self.thing(a, 'Scale'):words} is `Scale::{b}`"
            return Check(f"{a} != Scale::{b}", words, words.replace("`", ""))
        return self.compared(self.number(a), sign, self.number(b))

    def of_predicate(self, row, arguments):
        """Returns the test of a predicate with these arguments, by its row of the table."""
        names, terms = row[0].split(" ")[1:], {}
        self.known(len(names) == len(arguments))
        for name, text in zip(names, arguments):
            name, _, kind = name.partition(":")
            kind, text = kind.format(**terms) or "usize", text.strip("()")
            if kind in ("bytes", "form"):  # A pixel type, named by its number of bytes or by its form.
                terms[name] = self.thing(self.known(re.fullmatch(r"([A-Z])\.(?:BYTES|form)", text))[1], "type")
            elif kind in KINDS["number"]:
                terms[name] = self.number(text)
                self.known(terms[name].kind in (kind, "literal"))
            else:
                terms[name] = self.thing(text, kind)
        return Check(*(text.format(**terms) for text in row[1:]))

    def compared(self, a, sign, b):
        """Returns the comparison of two numbers, in their type if it is the same, and otherwise in `u128`."""
        rust, fails = SIGNS[sign]
        if sign == "<" and a.rust == "0":
            return Check(f"{b} > 0", f"{b:words} is 0", f"{b:words} is 0".replace("`", ""))
        if sign == "≤" and a.kind == "literal":
            return Check(f"{b} >= {a}", f"{b:words} is below {a:words}", f"{b:shown} is below {a:shown}")
        self.known(a.kind != "literal" and (sign != "<" or a.kind != "u128" and b.kind in (a.kind, "literal")))
        test = f"{a} {rust} {b}" if b.kind in (a.kind, "literal") else f"{a.wide()} {rust} {b.wide()}"
        if sign == "≡" and a.noun and a.noun == b.noun:
            names = [text.replace(f"the {a.noun} of ", "", 1) for text in (a.words, b.words, a.shown, b.shown)]
            form = f"the {a.noun}s of {{}} and {{}} are not equal"
            return Check(test, form.format(*names[:2]), form.format(*names[2:]))
        return Check(test, f"{a:words} {fails} {b:words}", f"{a:shown} {fails} {b:shown}")

    def number(self, text):
        """Returns a number."""
        for form, make in FORMS:
            found = re.fullmatch(form, text)
            if found:
                return make(self, *filter(None, found.groups()))
        return self.known(None)

    def one(self, text):
        """Returns a number that is neither a sum nor a product."""
        number = self.number(text)
        return self.known(number.kind != "u128" and number)

    def thing(self, text, *kinds):
        """Returns a parameter of one of these types, or its target. A term about its table is a term about the parameter."""
        path = self.known(re.fullmatch(r"(?:tables?_of |exchanges )?(\w+)(?:\.(now|old))?(\.geometry)?", text))
        reference, unique, whole = re.fullmatch(r" ?(& ?(?:'\w+ )?(mut )?)?(.*)", self.types.get(path[1], "")).groups()
        kind = whole[0] + whole[-1] if re.fullmatch(r"\[[^;]*\]|\(usize, .*", whole) else re.match(r"\w*", whole)[0]
        self.known(kind and path[2] == ((reference or None) and ("old" if unique else "now")))
        self.known(bool(path[3]) == ("Picture" in kinds and kind in KINDS["View"]))
        self.known({whole, kind} & set().union(*(KINDS.get(it, {it}) for it in kinds)))
        return Term(path[1], kind, f"`{path[1]}`")


def checks_of(source, item):
    """Returns the tests of the clauses of a function, in order. A Rust closure can always be called, so it needs no test."""
    clauses = source.clauses_of(item, "requires")
    clauses = [clause for clause in clauses if not re.fullmatch(r"[A-Z]\w*\.IsAlwaysCallable \w+", clause.text)]
    return [Reader(source, item, clause).check() for clause in clauses]


def message_of(check):
    """Returns the arguments of `assert!` after its test: a message with the names in it, and then all other values."""
    parts, behind = re.split(r"\[([^][]*?)(:\?)?\]", check.message), []
    message = parts[0]
    for value, form, text in zip(parts[1::3], parts[2::3], parts[3::3]):
        is_name = value != "self" and re.fullmatch(r"[a-z_]\w*", value)
        behind += [] if is_name else [value]
        message += "{" + (value if is_name else "") + (form or "") + "}" + text
    return ", ".join([f'"{message}"', *behind])


def add_assertions(source, reach):
    """Adds the tests to each function that users can call. A function without a body has no place for them."""
    for item in reversed(functions_of(source)):
        is_law = "laws" in source.module and item.name in tables.WITHOUT_TESTS["laws"]
        if not source.clauses_of(item, "requires") or is_law:
            continue
        if not reach.is_public(source, item):
            if home_of(source.crate) == tables.LIBRARY and item.owner and (item.is_public() or item.owner.trait):
                source.refuse(item.keyword, "a clause of a function that users can reach other than by its name")
            continue
        if item.body is None and item.name not in tables.WITHOUT_TESTS.get(item.owner.name, ()):
            source.refuse(item.keyword, "a clause of a function without a body, which is not in the table")
        checks = checks_of(source, item) if item.body else []
        if checks:
            add_tests(source, item, checks)


def add_facts(source):
    """Adds tests to private functions, although the proofs show that they hold. They tell the compiler that slices have equal
    lengths, so it removes its own tests inside loops. Without them, flipping a row takes three times as long."""
    for item in reversed(functions_of(source)):
        if (source.crate, item.name) in tables.FACTS:
            checks = checks_of(source, item)
            if not checks or item.is_public():
                source.refuse(item.keyword, "a function of the table of facts must be private and have a precondition")
            text = "\n    ".join(f"assert!({check.test});" for check in checks)
            source.insert(item.body[0] + 1, "known-fact", text, "\n    ")


def add_tests(source, item, checks):
    """Writes the tests at the beginning of the body, the section `# Panics`, and the function without tests."""
    lead = source.line_start(item.head)
    inner, start, tests = lead + "    ", item.body[0] + 1, []
    if (source.crate, item.name) in tables.HOT:
        source.insert(start, "hot-call", hot_text(source, item, lead), inner)
    for check in checks:
        message = message_of(check)
        line = f"assert!({check.test}, {message});"
        fits = len(inner + line) <= 101
        tests.append(line if fits else f"assert!({inner}    {check.test},{inner}    {message}{inner});")
    source.insert(start, "assertion", inner.join(tests), inner)
    source.insert(item.head, "track-caller", "#[track_caller]", lead)
    words = [f"if {check.words}" for check in checks]
    lines = ["/// Panics", "///", *(f"/// - {word}," for word in words[:-1]), f"/// - {words[-1]}."]
    text = lead.join(["///", "/// # Panics", "///", *(lines if words[1:] else [f"/// Panics {words[0]}."])])
    source.insert(item.docs[-1] + 1 if item.docs else item.start, "panics-text", text, lead)


def hot_text(source, item, lead):
    """Returns the text that splits the function: a call, and the head of a second function with the rest of the body."""
    names = [source[at] for _, at, _ in parameters_of(source, item)]
    head = source.words(item.keyword, item.body[0]).replace(f"fn {item.name}", f"fn {item.name}{PROVED}", 1)
    text = f"/// `{item.name}` without tests, for calls that are proved to meet its preconditions."
    arguments = ", ".join(name for name in names if name != "self")
    call = f"{'self.' * ('self' in names)}{item.name}{PROVED}({arguments})"
    return f"{call}{lead}}}\n{lead}{text}{lead}#[inline]{lead}pub(crate) {head} {{"


def rename_hot_calls(source):
    """Makes the calls inside the library use the functions without tests."""
    names = {name for _, name in tables.HOT}
    if source.crate not in {crate for crate, _ in tables.HOT}:
        names -= {item.name for item in functions_of(source)}
    for at in source.places(*names):
        named = source[at] in tables.HOT_FUNCTIONS and source[at - 1] != "fn" and source[at + 1] in ("(", ",", "}", ";")
        if named or source[at + 1] == "(" and source[at - 1] == ".":
            source.replace(at, at + 1, "hot-name", source[at] + PROVED)
