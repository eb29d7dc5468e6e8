"""The tokens of a script (docs/LANGUAGE.md, "Text and tokens")."""

import re

RESERVED = frozenset(
    """
    load graph nodes edges create view collection on where window from to width step program along out in both start send
    gather update min max sum count run within for rounds round order greedy declared split none every auto keep as append
    show work and or not is absent true false src dst id value gathered outdeg edge node if then else
    form insert remove tree group by aggregate phases changes replay
    """.split()
)

MOST = 2**63 - 1

PIECE = re.compile(
    r"""
      (?P<gap>[ \t\r\n]+|\#[^\n]*)
    | (?P<word>[A-Za-z_][A-Za-z0-9_-]*)
    | (?P<number>[0-9]+)
    | (?P<string>'(?:[^']|'')*')
    | (?P<quoted>"(?:[^"]|"")+")
    | (?P<sign>!=|<=|>=|[;,:.()\[\]{}+*/=<>-])
    """,
    re.VERBOSE,
)


class NotAScript(Exception):
    """The text is no script. Its place is not told here, but by script_faults.py."""


def is_name(text):
    """Whether a property can be written as a name."""
    return re.fullmatch(r"[A-Za-z_][A-Za-z0-9_-]*", text) is not None and text not in RESERVED


def tokens_of(text):
    """The tokens as pairs of a kind (name, word, number, string, quoted, sign, end) and a value."""
    found, place = [], 0
    while place < len(text):
        piece = PIECE.match(text, place)
        if piece is None:
            raise NotAScript(f"no token begins at character {place}")
        place = piece.end()
        kind, spelled = piece.lastgroup, piece.group()
        if kind == "gap":
            continue
        if kind == "word":
            found.append(("word" if spelled in RESERVED else "name", spelled))
        elif kind == "number":
            if int(spelled) > MOST:
                raise NotAScript(f"the number {spelled} is too large")
            found.append(("number", int(spelled)))
        elif kind in ("string", "quoted"):
            mark = spelled[0]
            found.append((kind, spelled[1:-1].replace(mark + mark, mark)))
        else:
            found.append(("sign", spelled))
    found.append(("end", ""))
    return found
