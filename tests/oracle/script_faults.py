"""The first fault of a script's text, with its place (docs/LANGUAGE.md, "Text and tokens", "Levels", "Places and faults").

The grammar is the one that stands in the page. What may come next is a set of stacks: each is what is still to come of one
way to read the tokens so far. A text goes on while a stack is left, so the first token that leaves none is one that no script has there.
"""

import os
import re
from collections import namedtuple
from functools import lru_cache

from tokens import MOST, RESERVED

PAGE = os.path.join(os.path.dirname(os.path.abspath(__file__)), "..", "..", "docs", "LANGUAGE.md")
MARK = b"\xef\xbb\xbf"
MOST_BYTES = 2**20
MOST_LEVELS = 64

Fault = namedtuple("Fault", "kind line column")

# ---- Tokens. Inside quotes a doubled quote is always the quote itself: what is not closed begins no shorter token.

# (what separates tokens, and then a token, if one begins there)
PIECE = re.compile(
    rb"""
    (?:[ \t\r\n]+|\#[^\n]*)*
    (?: (?P<word>[A-Za-z_][A-Za-z0-9_-]*)
      | (?P<number>[0-9]+)
      | (?P<string>'(?:[^']|'')*'(?!'))
      | (?P<quoted>"(?:[^"]|"")+"(?!"))
      | (?P<sign>!=|<=|>=|[;,:.()\[\]{}+*/=<>-])
    )?
    """,
    re.VERBOSE,
)
# The words and signs as the grammar writes them.
WORDS = {word.encode(): f'"{word}"' for word in RESERVED}
SIGNS = {sign.encode(): f'"{sign}"' for sign in ("!=", "<=", ">=", *";,:.()[]{}+*/=<>-")}


def tokens_of(text):
    """The tokens as the grammar writes them, each with its place in the text: a kind, or a word or sign in quotes. The last one is
    "end", or the fault of what is no token."""
    place = 0
    while True:
        piece = PIECE.match(text, place)
        kind, place = piece.lastgroup, piece.end()
        if kind is None:
            yield "end" if place == len(text) else "Syntax", place
            return
        spelled, begins = piece[kind], piece.start(kind)
        if kind == "number" and int(spelled) > MOST:
            yield "NumberTooLarge", begins
            return
        if kind == "word":
            yield WORDS.get(spelled, "name"), begins
        elif kind == "sign":
            yield SIGNS[spelled], begins
        else:
            yield "quoted name" if kind == "quoted" else kind, begins


# ---- The grammar

OPENING = ('"("', '"not"', '"if"', '"-"')
WITH_LEVELS = ("neg", "expr", "unary", "primary")
WITHOUT_RULE = ("name", "number", "string", "quoted name")


class Form:
    """A part of the grammar: a "token" or a "rule" of a name, a "row" of forms, "one of" some, "any number" or "at most one" of a form,
    or "nothing"."""

    def __init__(self, kind, of=None):
        self.kind = kind
        self.of = of


# Where this is passed, a level closes.
CLOSE = Form("nothing")


class Grammar:
    """Reads rules from the left."""

    def __init__(self, text):
        self.signs = re.findall(r'"[^"]+"|quoted name|[a-z]+|[=|(){}\[\]]', text)
        self.place = 0

    def peek(self, ahead=0):
        return self.signs[self.place + ahead] if self.place + ahead < len(self.signs) else ""

    def take(self):
        self.place += 1
        return self.signs[self.place - 1]

    def rules(self):
        found = {}
        while self.peek():
            name, _ = self.take(), self.take()
            found[name] = self.choice(name in WITH_LEVELS)
        return found

    def choice(self, has_levels):
        members = [self.row(has_levels)]
        while self.peek() == "|":
            self.take()
            members.append(self.row(has_levels))
        return members[0] if len(members) == 1 else Form("one of", members)

    def row(self, has_levels):
        members = []
        while self.peek() and self.peek() not in "|)}]" and self.peek(1) != "=":
            members.append(self.form(has_levels))
        return Form("row", with_level(members) if has_levels else members)

    def form(self, has_levels):
        sign = self.take()
        if sign in "({[":
            inner = self.choice(has_levels)
            self.take()
            return inner if sign == "(" else Form("any number" if sign == "{" else "at most one", inner)
        return Form("rule" if sign.isalpha() and sign not in WITHOUT_RULE else "token", sign)


def with_level(members):
    """What begins with a token that opens a level closes it where it ends."""
    for place, member in enumerate(members):
        if member.kind == "token" and member.of in OPENING:
            return [*members[:place], Form("row", [*members[place:], CLOSE])]
    return members


@lru_cache(maxsize=None)
def rules():
    with open(PAGE, encoding="utf-8") as page:
        return Grammar("\n".join(re.findall(r"^```ebnf\n(.*?)^```", page.read(), re.DOTALL | re.MULTILINE))).rules()


@lru_cache(maxsize=None)
def may_be_nothing(form):
    if form.kind == "rule":
        return may_be_nothing(rules()[form.of])
    if form.kind in ("row", "one of"):
        return (all if form.kind == "row" else any)(map(may_be_nothing, form.of))
    return form.kind != "token"


@lru_cache(maxsize=None)
def leavings(form):
    """For each token with which a form may begin, what it may leave to come: rows of forms."""
    if form.kind == "token":
        return {form.of: [()]}
    if form.kind == "rule":
        return leavings(rules()[form.of])
    found = {}

    def add(part, behind):
        for token, rows in leavings(part).items():
            found.setdefault(token, []).extend((*row, *behind) for row in rows)

    if form.kind == "row":
        for place, part in enumerate(form.of):
            add(part, form.of[place + 1 :])
            if not may_be_nothing(part):
                break
    elif form.kind == "one of":
        for part in form.of:
            add(part, ())
    elif form.kind in ("any number", "at most one"):
        add(form.of, (form,) if form.kind == "any number" else ())
    return found


# ---- Stacks: None, or a form with the stack below it. Each is made once, so that what follows behind it is worked out once.


class Stack:
    """A form, the stack below it, and how many levels are open in both."""

    def __init__(self, form, below):
        self.form = form
        self.below = below
        self.levels = levels(below) + (form is CLOSE)


def levels(stack):
    return 0 if stack is None else stack.levels


stack_of = lru_cache(maxsize=100_000)(Stack)


def pushed(row, stack):
    for form in reversed(row):
        stack = stack_of(form, stack)
    return stack


@lru_cache(maxsize=100_000)
def behind(stack, token):
    """The stacks that a token leaves of one."""
    found = []
    while stack is not None:
        found += [pushed(row, stack.below) for row in leavings(stack.form).get(token, ())]
        if not may_be_nothing(stack.form):
            break
        stack = stack.below
    return found


def can_end(stack):
    while stack is not None and may_be_nothing(stack.form):
        stack = stack.below
    return stack is None


def fault_in(text):
    """The kind and the place of the first fault of a text in UTF-8."""
    stacks = [pushed([rules()["script"]], None)]
    for token, place in tokens_of(text):
        if token in ("Syntax", "NumberTooLarge"):
            return token, place
        if token == "end":
            return None if any(map(can_end, stacks)) else ("Syntax", place)
        stacks = [after for stack in stacks for after in behind(stack, token)]
        if not stacks:
            return "Syntax", place
        if all(levels(it) > MOST_LEVELS for it in stacks):
            return "TooDeep", place
    return None


def first_fault(data):
    """The first fault of the bytes of a script, or None."""
    if len(data) > MOST_BYTES:
        return Fault("TooLarge", None, None)
    try:
        data.decode("utf-8")
    except UnicodeDecodeError:
        return Fault("NotUtf8", None, None)
    text = data[len(MARK) :] if data.startswith(MARK) else data
    found = fault_in(text)
    if found is None:
        return None
    kind, place = found
    return Fault(kind, text.count(b"\n", 0, place) + 1, place - text.rfind(b"\n", 0, place))
