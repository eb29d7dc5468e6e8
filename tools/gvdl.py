"""The tokens and statements of a script, as far as the tools want them (docs/LANGUAGE.md). No command of its own.

A script that `surge` takes is read rightly. Of one that it refuses as much is read as can be: no fault is told here.
"""

import bisect
import re

RESERVED = frozenset(
    """
    load graph nodes edges create view collection on where window from to width step program along out in both start send
    gather update min max sum count run within for rounds round order greedy declared split none every auto keep as append
    show work and or not is absent true false src dst id value gathered outdeg edge node if then else
    form insert remove tree group by aggregate phases changes replay
    """.split()
)
BUILT_IN = ("hops", "dist", "wcc", "pagerank")
MOST_VIEWS = 1024

PIECE = re.compile(
    r"""
      (?P<gap>[ \t\r\n]+|\#[^\n]*)
    | (?P<word>[A-Za-z_][A-Za-z0-9_-]*)
    | (?P<number>[0-9]+)
    | (?P<string>'(?:[^']|'')*')
    | (?P<quoted>"(?:[^"]|"")+")
    | (?P<sign>!=|<=|>=|[;,:.()\[\]{}+*/=<>-])
    | (?P<other>.)
    """,
    re.VERBOSE | re.DOTALL,
)


class Token:
    """A token: its kind (word, number, string, quoted, sign, other), its spelling, and where it begins and ends."""

    __slots__ = ("kind", "text", "begin", "end")

    def __init__(self, kind, text, begin, end):
        self.kind, self.text, self.begin, self.end = kind, text, begin, end

    @property
    def value(self):
        """What it stands for: a text without its quotes, a number as one."""
        if self.kind == "number":
            return int(self.text)
        if self.kind in ("string", "quoted"):
            mark = self.text[0]
            return self.text[1:-1].replace(mark + mark, mark)
        return self.text

    @property
    def is_name(self):
        return self.kind == "word" and self.text not in RESERVED


class Text:
    """A script's text with the places of its lines. Columns count bytes, as `surge` counts them."""

    def __init__(self, data):
        self.has_mark = data.startswith(b"\xef\xbb\xbf")
        self.text = data.decode("utf-8-sig", errors="replace")
        self.begins = [0] + [match.end() for match in re.finditer("\n", self.text)]

    def line(self, number):
        """The line of this number, without its end."""
        if not 1 <= number <= len(self.begins):
            return ""
        end = self.begins[number] if number < len(self.begins) else len(self.text)
        return self.text[self.begins[number - 1] : end].rstrip("\r\n")

    def place(self, offset):
        """Line and column of a character of the text, from its offset."""
        number = bisect.bisect_right(self.begins, offset)
        return number, len(self.text[self.begins[number - 1] : offset].encode("utf-8")) + 1

    def offset(self, line, column):
        """The offset of the character at this place, and the text's length behind its end."""
        if line > len(self.begins):
            return len(self.text)
        end = self.begins[line] if line < len(self.begins) else len(self.text)
        piece = self.text[self.begins[line - 1] : end].encode("utf-8")[: column - 1]
        return self.begins[line - 1] + len(piece.decode("utf-8", errors="ignore"))


def tokens_of(text):
    """The tokens of a text. A character that begins none is one of the kind 'other'."""
    found = []
    for piece in PIECE.finditer(text):
        if piece.lastgroup != "gap":
            found.append(Token(piece.lastgroup, piece.group(), piece.start(), piece.end()))
    return found


def statements_of(tokens):
    """The tokens, cut behind the `;` that ends each statement, or behind the `}` of a program."""
    found, so_far, depth = [], [], 0
    for token in tokens:
        so_far.append(token)
        if token.kind != "sign":
            continue
        depth += (token.text == "{") - (token.text == "}")
        if depth <= 0 and token.text in (";", "}"):
            found.append(so_far)
            so_far, depth = [], 0
    if so_far:
        found.append(so_far)
    return found


class Window:
    """A view that a window made: the property, and the least and the greatest whole number that it takes."""

    __slots__ = ("property", "first", "last")

    def __init__(self, property, first, last):
        self.property, self.first, self.last = property, first, last

    @property
    def label(self):
        """How an axis says it: 2018-2019, and 2018 where it is one number."""
        if self.first == self.last:
            return str(self.first)
        between = "-" if self.first >= 0 else " to "
        return f"{self.first}{between}{self.last}"


class Script:
    """What a script names: its files, collections with their views in declared order, and kept runs."""

    def __init__(self, text):
        self.graph = self.nodes = self.edges = None
        # The views of each collection, by name, in their order: a Window, or None where it is a predicate.
        self.collections = {}
        # What each kept run goes over.
        self.kept = {}
        # The names of the programs and of the single views.
        self.programs, self.views = [], []
        # The files whose edges are inserted, by the numbers of their statements. (The form is no statement.)
        self.inserts = {}
        statements = statements_of(tokens_of(text))
        begun = 0 if statements and statements[0][0].text == "form" else 1
        for number, statement in enumerate(statements, begun):
            self.take(statement)
            if [token.text for token in statement[:2]] == ["insert", "edges"] and len(statement) > 2:
                self.inserts[number] = statement[2].value

    def file_of(self, which):
        """The name of a data file, as `surge` tells of it: nodes, edges or insert 5."""
        return self.inserts.get(int(which.split()[1])) if which.startswith("insert") else getattr(self, which)

    def data_files(self):
        """What the data files are, and their names, in the order in which they are read."""
        yield "nodes file", self.nodes
        yield "edges file", self.edges
        for name in self.inserts.values():
            yield "inserted file", name

    def take(self, statement):
        words = [token.text for token in statement]
        if words[:2] == ["load", "graph"] and len(statement) >= 7:
            self.graph, self.nodes, self.edges = words[2], statement[4].value, statement[6].value
        elif words[:3] == ["create", "view", "collection"] and len(statement) > 6:
            self.collections.setdefault(words[3], {}).update(views_of(statement[6:]))
        elif words[:2] == ["create", "view"] and len(statement) > 2:
            self.views.append(words[2])
        elif words[:2] == ["append", "to"] and len(statement) > 3:
            self.collections.setdefault(words[2], {}).update(views_of(statement[3:]))
        elif words[:1] == ["program"] and len(statement) > 1:
            self.programs.append(words[1])
        elif words[:1] == ["run"] and "on" in words:
            on = len(words) - 1 - words[::-1].index("on")
            if len(words) > on + 1 and words[-4:-2] == ["keep", "as"]:
                self.kept[words[-2]] = words[on + 1]


def views_of(tokens):
    """The views that these items make, by name."""
    found, item = {}, None
    for token in tokens:
        if token.kind == "sign" and token.text == "[":
            item = []
        elif token.kind == "sign" and token.text == "]" and item is not None:
            if len(item) > 2 and item[2].kind == "word" and item[2].text == "window":
                found.update(windows_of(item))
            elif item:
                found[item[0].text] = None
            item = None
        elif item is not None:
            item.append(token)
    return found


def windows_of(item):
    """The views of `NAME: window PROPERTY from INT to INT width N step N`."""
    numbers, sign = [], 1
    for token in item[4:]:
        if token.kind == "number":
            numbers.append(sign * token.value)
            sign = 1
        elif token.text == "-":
            sign = -1
    if len(numbers) != 4 or numbers[3] < 1:
        return {}
    first, last, width, step = numbers
    return {
        f"{item[0].text}-{place}": Window(item[3].value, low, low + width - 1)
        for place, low in enumerate(range(first, last + 1, step), 1)
        if place <= MOST_VIEWS
    } if (last - first) // step < MOST_VIEWS else {}


def script_of(path):
    """What the script in this file names."""
    with open(path, "rb") as file:
        return Script(Text(file.read()).text)
