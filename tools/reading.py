"""What the tools share: reading what `surge` prints, the names of nodes, and the windows of a script. No command of its own."""

import array
import csv
import gzip
import io
import os
import re
import signal
import sys
import zlib

from gvdl import script_of

# COLLECTION.VIEW, the call in its canonical form, and how the run of the view ended; with the mode `summary` what the table holds. With the
# mode `changes` the word `change` begins what holds the rows alone that differ from the table before.
HEAD = re.compile(
    r"(?P<word>view|change) (?P<collection>[A-Za-z_][\w-]*)\.(?P<view>[A-Za-z_][\w-]*) (?P<program>.+?) "
    r"(?P<outcome>settled [0-9]+|after [0-9]+|phases [0-9]+|unsettled)"
    r"(?P<summary> edges (?P<edges>[0-9]+)(?: values (?P<values>[0-9]+) sum (?P<sum>-?[0-9]+))?)?",
    re.ASCII,
)
ORDER = re.compile(r"order (?P<name>[A-Za-z_][\w-]*) (?P<total>[0-9]+)", re.ASCII)
WORK = re.compile(r"work (?P<name>[A-Za-z_][\w-]*)", re.ASCII)
TREE = re.compile(r"tree (?P<name>[A-Za-z_][\w-]*) (?P<total>[0-9]+) (?P<length>[0-9]+)", re.ASCII)
PROPERTY = r'[A-Za-z_][\w-]*|"(?:[^"]|"")+"'
GROUPS = re.compile(
    rf"aggregate (?P<name>[A-Za-z_][\w-]*)\.(?P<view>[A-Za-z_][\w-]*) by (?P<by>{PROPERTY})(?: sum (?P<added>{PROPERTY}))?", re.ASCII
)
HEADS = (("order", ORDER), ("work", WORK), ("tree", TREE), ("aggregate", GROUPS))
CELL = "-|-?[0-9]+|true|false|'(?:[^']|'')*'"
ROWS = {
    "table": re.compile(r"([0-9]+),(-|-?[0-9]+)", re.ASCII),
    "order": re.compile(r"([A-Za-z_][\w-]*) ([0-9]+)", re.ASCII),
    "work": re.compile(r"([A-Za-z_][\w-]*) ([0-9]+) ([0-9]+)", re.ASCII),
    "tree": re.compile(r"([A-Za-z_][\w-]*) (-|[A-Za-z_][\w-]*) ([0-9]+)", re.ASCII),
    "aggregate": re.compile(rf"({CELL}),({CELL}),([0-9]+)(?:,(-?[0-9]+))?", re.ASCII),
}
WRITTEN_BY = {"summary": "the mode summary", "order": "show order", "work": "show work", "tree": "show tree", "aggregate": "aggregate"}
FORMS = {
    "table": "id,value",
    "order": "VIEW EDGES",
    "work": "VIEW SEGMENT WORK",
    "tree": "VIEW PARENT EDGES",
    "aggregate": "GROUP,GROUP,EDGES or GROUP,GROUP,EDGES,SUM",
}

# A field may be as long as a file that surge reads.
csv.field_size_limit(2**28)

# How a held table says that a value is none: no value of `surge` is so low.
NONE = -(2**63)


class BadLine(Exception):
    """What is told in one line, and ends a tool with the status 1."""


def opened(path):
    """A text to be read: a file, also one that gzip made, or standard input as '-'. A byte order mark is skipped."""
    data = sys.stdin.buffer if path == "-" else open(path, "rb")
    if not hasattr(data, "peek"):
        data = io.BufferedReader(data)
    if data.peek(2)[:2] == b"\x1f\x8b":
        data = gzip.GzipFile(fileobj=data)
    return io.TextIOWrapper(data, encoding="utf-8-sig", newline=None)


def named(path):
    return "standard input" if path == "-" else path


def lines_of(file, name):
    """The lines of a text with their numbers."""
    try:
        yield from enumerate(file, 1)
    except UnicodeDecodeError:
        raise BadLine(f"{name}: the text is not UTF-8") from None
    except (EOFError, gzip.BadGzipFile, zlib.error):
        raise BadLine(f"{name}: what gzip made is cut short or damaged") from None


def bare_name(property):
    """A property's name without its quotes."""
    return property[1:-1].replace('""', '"') if property.startswith('"') else property


class Part:
    """One of the things that `surge` prints. Its kind is one of
    table    a view's table: collection, view, position, program, outcome; rows of (id, value), the value None for none
    summary  a line in place of one: the same, edges, and values and sum (None where it is unsettled); no rows
    order    what `show order` prints: name (of the collection), total; rows of (view, edges)
    work     what `show work` prints: name (of the kept run); rows of (view, segment, work)
    tree     what `show tree` prints: name (of the collection), total, length; rows of (view, parent or None, edges)
    aggregate  what an aggregate prints of a view: name (of the collection), view, by, added (the properties of the groups and of the sum,
             None without one); rows of (group, group, edges, sum or None), a group None where it is absent
    The position is the view's place in its collection, from 1. Rows come once, and before the next part is asked for.
    """

    def __init__(self, kind, place, head):
        self.kind, self.place = kind, place
        self.collection = self.view = self.program = self.outcome = self.position = self.name = None
        self.edges = self.values = self.sum = self.total = self.length = self.by = self.added = None
        for key, value in head.groupdict().items():
            if key not in ("summary", "word"):
                is_number = key in ("edges", "values", "sum", "total", "length") and value is not None
                is_property = key in ("by", "added") and value is not None
                setattr(self, key, int(value) if is_number else bare_name(value) if is_property else value)
        self.rows = iter(())

    @property
    def title(self):
        names = (self.collection or self.name, self.view)
        return ".".join(name for name in names if name is not None)


def part_at(place, line):
    """The part that begins with this line."""
    head = HEAD.fullmatch(line)
    if head and not (head["summary"] and head["word"] == "change"):
        return Part("summary" if head["summary"] else "table", place, head)
    for kind, form in HEADS:
        head = form.fullmatch(line)
        if head:
            return Part(kind, place, head)
    raise BadLine(f"{place}: {line!r} is no head of a table, as 'view C.v hops(1) settled 2'")


def whole(line, lines):
    """A line, and with it those over which a text in it goes on."""
    while line.count("'") % 2:
        _, more = next(lines, (None, None))
        if more is None:
            break
        line += more
    return line


def group_of(cell):
    """A group: None where it is absent, else as it is printed, and a text without its quotes."""
    if cell == "-":
        return None
    return cell[1:-1].replace("''", "'") if cell.startswith("'") else cell


def cells_of(row):
    """The cells of a row that is none of a table: numbers as such, None for no parent, an absent group and no sum."""
    if row.re is ROWS["tree"]:
        return (row[1], None if row[2] == "-" else row[2], int(row[3]))
    if row.re is ROWS["aggregate"]:
        return (group_of(row[1]), group_of(row[2]), int(row[3]), row[4] and int(row[4]))
    return (row[1], *map(int, row.groups()[1:]))


def rows_of(part, lines, name):
    """The rows of a part, up to its `end`. Those of a table stand by rising id."""
    is_table, has_texts = part.kind == "table", part.kind == "aggregate"
    form, last = ROWS[part.kind], -1
    for number, line in lines:
        line = (whole(line, lines) if has_texts else line).rstrip("\n")
        if line == "end":
            return
        row = form.fullmatch(line)
        if row is None:
            raise BadLine(f"{name}, line {number}: {line!r} is no row '{FORMS[part.kind]}' of the {part.kind} {part.title}")
        if is_table:
            node, value = row.groups()
            node = int(node)
            if node <= last:
                raise BadLine(f"{name}, line {number}: the id {node} behind {last}: the rows of a table stand by rising id")
            last = node
            yield node, None if value == "-" else int(value)
        else:
            yield cells_of(row)
    raise BadLine(f"{name}: the text ends inside what began at {part.place.rpartition(', ')[2]}")


class Before:
    """The table that was read last, which a change is told against: arrays of ids and values, NONE for none; or none at all."""

    def __init__(self):
        self.ids = self.values = None

    def noted(self, rows):
        """The same rows; once all were read they are the table before."""
        ids, values = array.array("q"), array.array("q")
        for node, value in rows:
            ids.append(node)
            values.append(NONE if value is None else value)
            yield node, value
        self.ids, self.values = ids, values

    def changed(self, part, rows):
        """The rows of the table before with these put in. Each has an id of that table, and another value than there."""
        if self.ids is None or part.outcome == "unsettled":
            raise BadLine(f"{part.place}: a change stands behind a table and is one, and neither is unsettled")
        ids, values, at = self.ids, self.values, 0
        for node, value in rows:
            while at < len(ids) and ids[at] < node:
                yield ids[at], None if values[at] == NONE else values[at]
                at += 1
            if at == len(ids) or ids[at] != node:
                raise BadLine(f"{part.place}: the table before has no node {node}, which the change {part.title} has")
            if values[at] == (NONE if value is None else value):
                raise BadLine(f"{part.place}: the node {node} had this value before, so it is no change")
            yield node, value
            at += 1
        for node, value in zip(ids[at:], values[at:]):
            yield node, None if value == NONE else value


def parts_of(files):
    """All that these files hold, one part after the other, read as it is asked for. A change is told as the table that it makes."""
    positions = {}
    for path in files:
        name, before = named(path), Before()
        with opened(path) as file:
            lines = lines_of(file, name)
            for number, line in lines:
                line = line.rstrip("\n")
                part = part_at(f"{name}, line {number}", line)
                if part.collection is not None:
                    views = positions.setdefault(part.collection, {})
                    part.position = views.setdefault(part.view, len(views) + 1)
                if part.kind != "summary":
                    part.rows = rows_of(part, lines, name)
                if line.startswith("change "):
                    part.rows = before.changed(part, part.rows)
                if part.kind == "table":
                    part.rows = before.noted(part.rows)
                yield part
                for _ in part.rows:
                    pass
                if part.kind != "table" or part.outcome == "unsettled":
                    before = Before()


def bare(call):
    """A call without the blanks that don't matter."""
    return re.sub(r'("(?:[^"]|"")*")|\s+', r"\1", call)


def is_of(call, program):
    """Whether a call is meant by these words: by itself, as hops(1), or by its program's name alone, as hops."""
    return bare(call) == bare(program) or re.split(r"\(", call, maxsplit=1)[0] == program.strip()


class Choice:
    """Which tables are wanted. It notes what is passed over, so that it can be told where none is found."""

    def __init__(self, program=None, collection=None):
        self.program, self.collection = program, collection
        self.programs, self.collections, self.kinds = {}, {}, {}
        self.found = 0

    def takes(self, part):
        """Whether a table or a summary is wanted."""
        self.kinds[part.kind] = None
        if part.collection is None:
            return False
        self.programs[part.program] = self.collections[part.collection] = None
        wanted = self.program is None or is_of(part.program, self.program)
        wanted = wanted and self.collection in (None, part.collection)
        self.found += wanted
        return wanted

    def nothing(self):
        """What is told where nothing is found."""
        if not self.kinds:
            return "there is no table in what was read: it is empty"
        if not self.programs:
            kinds = " and ".join(WRITTEN_BY[kind] for kind in self.kinds)
            return f"there is no table in what was read, but what {kinds} prints"
        if self.program is not None and not any(is_of(call, self.program) for call in self.programs):
            return f"there is no table of the program {self.program}: there are those of {', '.join(self.programs)}"
        if self.collection is not None and self.collection not in self.collections:
            return f"there is no table of the collection {self.collection}: there are those of {', '.join(self.collections)}"
        return f"there is no table of {self.program} on {self.collection}"


class Table:
    """A table that is held: its head, and two arrays: the ids of its nodes and their values, NONE for none."""

    def __init__(self, part, ids, values):
        self.collection, self.view, self.program, self.outcome = part.collection, part.view, part.program, part.outcome
        self.position, self.ids, self.values = part.position, ids, values

    @property
    def name(self):
        return f"{self.collection}.{self.view}"

    @property
    def is_unsettled(self):
        return self.outcome == "unsettled"

    @property
    def rows(self):
        """Pairs of an id and a value, None for none."""
        return [(node, None if value == NONE else value) for node, value in zip(self.ids, self.values)]


def read_tables(files, program=None, collection=None):
    """The tables of these files that are chosen, held: 8 bytes a value, and the ids once where tables have the same."""
    choice, found = Choice(program, collection), []
    ids = array.array("q")
    for part in parts_of(files):
        if part.kind != "table" or not choice.takes(part):
            choice.kinds[part.kind] = None
            continue
        own, values = array.array("q"), array.array("q")
        for node, value in part.rows:
            own.append(node)
            values.append(NONE if value is None else value)
        if own == ids:
            own = ids
        elif own:
            ids = own
        found.append(Table(part, own, values))
    if not found:
        raise BadLine(choice.nothing())
    return found


class Names:
    """What the nodes of a nodes file are called: one of its columns."""

    def __init__(self, path, label=None):
        self.path = path
        self.label, self.names = None, {}
        with opened(path) as file:
            self.read(csv.reader(line for _, line in lines_of(file, path)), label)
        self.ids = None

    def read(self, records, label):
        header = next(records, None)
        if not header or header[0] != "id":
            raise BadLine(f"{self.path} is no nodes file: its first line does not begin with id")
        columns = [cell.rpartition(":")[0] or cell for cell in header]
        wanted = "name" if label is None else label
        if wanted not in columns[1:]:
            there = f": there are {', '.join(columns[1:])}" if columns[1:] else ": it has ids alone"
            raise BadLine(f"{self.path} has no column {wanted!r} to name nodes by (--label){there}")
        column = columns.index(wanted, 1)
        self.label = wanted
        for record in records:
            if record:
                try:
                    self.names[int(record[0])] = record[column]
                except (ValueError, IndexError):
                    raise BadLine(f"{self.path}, line {records.line_num}: it is no node with an id and {wanted}") from None

    def of(self, node):
        """The node's name, and the empty text where it has none."""
        return self.names.get(node, "")

    def title(self, node):
        """The node's name, and its id where it has none."""
        return self.names.get(node) or str(node)

    def id_of(self, text):
        """The node of this name, or of this id."""
        if self.ids is None:
            self.ids = {}
            for node, name in self.names.items():
                self.ids.setdefault(name, []).append(node)
        found = self.ids.get(text, [])
        if len(found) > 1:
            raise BadLine(f"{len(found)} nodes of {self.path} are called {text!r}: say one by its id, as {found[0]}")
        if found:
            return found[0]
        if text.isascii() and text.isdigit() and int(text) in self.names:
            return int(text)
        raise BadLine(f"{self.path} has no node {text!r}{like(text, self.ids)}")


def like(word, known):
    """', did you mean ..', where one of the known words is near."""
    import difflib

    near = difflib.get_close_matches(word, list(known), n=1)
    return f": did you mean {near[0]!r}?" if near else ""


class Windows:
    """The views of a script's collections in their order, and the windows that made them."""

    def __init__(self, path):
        self.path, self.script = path, script_of(path)
        self.positions = {
            name: {view: place for place, view in enumerate(views, 1)} for name, views in self.script.collections.items()
        }

    def collection_of(self, kept):
        """The collection that a kept run goes over."""
        return self.script.kept.get(kept)

    def views(self, collection):
        """The names of a collection's views, in their order."""
        return list(self.script.collections.get(collection, ()))

    def position(self, collection, view):
        """The place of a view in its collection, from 1."""
        try:
            return self.positions[collection][view]
        except KeyError:
            raise BadLine(f"the script {self.path} has no view {collection}.{view}: is it another script's output?") from None

    def window(self, collection, view):
        """The Window (property, first, last, label) of a view, and None where it is a predicate."""
        self.position(collection, view)
        return self.script.collections[collection][view]

    def label(self, collection, view):
        """How an axis calls a view: 2018-2019 in place of y-1, and a predicate's view by its name."""
        window = self.window(collection, view)
        return view if window is None else window.label


def told(tool, work):
    """Does a tool's work. What goes wrong is told in one line, with the status 1."""
    # (a reader that stops, as head does, ends this too)
    if hasattr(signal, "SIGPIPE"):
        signal.signal(signal.SIGPIPE, signal.SIG_DFL)
    sys.stdout.reconfigure(encoding="utf-8", newline="\n")
    try:
        work()
        sys.stdout.flush()
    except (BadLine, csv.Error) as fault:
        sys.exit(f"{tool}: {fault}")
    except OSError as fault:
        # (what is left in standard output is not tried again at the end)
        os.dup2(os.open(os.devnull, os.O_WRONLY), 1)
        where = "standard output" if fault.filename is None else fault.filename
        sys.exit(f"{tool}: {where}: {fault.strerror}")
