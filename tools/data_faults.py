"""What a fault of a data file means: its record as lines of text, its cell, and what was wanted there. No command of its own."""

import csv
import difflib
import os

KINDS = ("int", "str", "bool")
TRUTHS = ("true", "True", "TRUE", "false", "False", "FALSE")
# What others call the kinds.
OTHER_KINDS = {
    "integer": "int", "long": "int", "int64": "int", "int32": "int", "number": "int", "num": "int", "short": "int", "i64": "int",
    "string": "str", "text": "str", "char": "str", "varchar": "str", "object": "str", "boolean": "bool", "logical": "bool",
}  # fmt: skip
DECIMALS = ("float", "double", "decimal", "real", "numeric", "float64", "f64")
DATES = ("date", "datetime", "time", "timestamp")
MOST_ID = 2**63 - 1

csv.field_size_limit(2**28)


def utf8(text):
    """A text whose characters are bytes, as UTF-8 says them."""
    return text.encode("latin-1").decode("utf-8", errors="replace")


class Record:
    """A record: its number from 1, the lines of text that it goes over, with their numbers, and its fields, bytes as they stand."""

    def __init__(self, number, lines, fields):
        self.number, self.lines, self.fields = number, lines, fields

    @property
    def first(self):
        return self.lines[0][0]

    @property
    def last(self):
        return self.lines[-1][0]

    @property
    def is_open(self):
        """Whether a quote of it isn't closed."""
        return sum(line.count('"') for _, line in self.lines) % 2 == 1

    def place(self, column):
        """Line and offsets in it of the field of this column, and None where it has no such field."""
        text = "".join(line for _, line in self.lines)
        spans = spans_of(text)
        if not 1 <= column <= len(spans):
            return None
        begin, end = spans[column - 1]
        for number, line in self.lines:
            if begin < len(line) or number == self.last:
                return number, line, begin, min(end, len(line.rstrip("\r\n")))
            begin, end = begin - len(line), end - len(line)
        return None


def spans_of(text):
    """Where the fields of a record begin and end in its text."""
    spans, begin, in_quotes = [], 0, False
    for place, sign in enumerate(text):
        if sign == '"' and (in_quotes or place == begin):
            in_quotes = not in_quotes
        elif sign == '"' and place > begin and text[begin] == '"':
            in_quotes = not in_quotes
        elif sign == "," and not in_quotes:
            spans.append((begin, place))
            begin = place + 1
    return spans + [(begin, len(text.rstrip("\r\n")))]


def records_of(path):
    """The records of a data file. Blank lines are none."""
    lines = []

    def read(file):
        for number, line in enumerate(file, 1):
            if number == 1 and line.startswith("\xef\xbb\xbf"):
                line = line[3:]
            lines.append((number, line))
            yield line.replace("\0", "?")

    with open(path, encoding="latin-1", newline="") as file:
        number = 0
        for fields in csv.reader(read(file)):
            if fields:
                number += 1
                yield Record(number, list(lines), fields)
            lines.clear()


def header_of(path):
    """The columns of a data file: pairs of a name and a kind, None for a kind that is none."""
    for record in records_of(path):
        found = []
        for cell in map(utf8, record.fields):
            name, colon, kind = cell.rpartition(":")
            found.append((name, kind) if colon else (cell, None))
        return found
    return []


def properties_of(path, ends):
    """The kinds of the properties of a data file by name, behind its first columns; of none where it can't be read."""
    try:
        return {name: kind for name, kind in header_of(path)[ends:] if kind in KINDS}
    except (OSError, csv.Error):
        return {}


class Finding:
    """Where a fault lies in a file: its line of text, the offsets in it, and what is told."""

    def __init__(self, path, record, column, told):
        self.path, self.record, self.column, self.told = path, record, column, [line for line in told if line]
        self.line = self.text = None
        self.begin = self.end = 0
        if record is None:
            return
        place = record.place(column) if column else None
        self.line, line = place[:2] if place else record.lines[0]
        bare = line.rstrip("\r\n")
        begin, end = (place[2], place[3]) if place else (0, len(bare))
        self.text = utf8(bare)
        self.begin, self.end = len(utf8(bare[:begin])), len(utf8(bare[:end]))


def found_record(path, number):
    for record in records_of(path):
        if record.number == number:
            return record
    return None


def of_data(which, number, column, fault, script):
    """The finding of a fault that `surge` tells of a data file of a script, `which` being nodes, edges or insert with its statement."""
    path, nodes = script.file_of(which), script.nodes
    record = found_record(path, number) if number else None
    if record is None:
        return Finding(path, None, 0, of_file(fault, path, which))
    header = header_of(path)
    judge = {
        "BadHeader": of_header, "TooManyColumns": of_header_width, "WrongWidth": of_width, "NotUtf8": of_bytes, "BadId": of_id,
        "RepeatedId": of_repeated, "UnknownNode": of_unknown, "BadCell": of_cell, "NoHeader": of_no_header,
    }.get(fault)  # fmt: skip
    if fault == "BadHeader" and which.startswith("insert"):
        told = of_other_header(record, column, script.edges)
    else:
        told = judge(record, column, which, path, header, nodes) if judge else of_file(fault, path, which)
    if fault != "UnknownNode" and record.first < record.last:
        told.append(over_lines(path, record))
    return Finding(path, record, column, told)


def over_lines(path, record):
    closed = "is not closed" if record.is_open else "is closed in another line"
    return f"This record goes over the lines {record.first} to {record.last}: a quote that is opened in line {record.first} {closed}."


def of_file(fault, path, which):
    return {
        "NoHeader": ["There is no record in the file: its first line is a header, " + ("id" if which == "nodes" else "src,dst") + "."],
        "TooManyNodes": ["A graph has at most 1,000,000 nodes."],
        "TooManyEdges": ["A graph has at most 4,000,000 edges, those of inserted files and removed ones counted."],
        "TooLarge": ["A data file has at most 268,435,456 bytes (2^28)."],
    }.get(fault, [])


def of_no_header(record, column, which, path, header, nodes):
    return of_file("NoHeader", path, which)


def cell_of(record, column):
    return utf8(record.fields[column - 1]) if 1 <= column <= len(record.fields) else ""


def of_header(record, column, which, path, header, nodes):
    """A header that is none: a first column of another name, or a field that is no property."""
    wanted = ["id"] if which == "nodes" else ["src", "dst"]
    whole = ",".join(wanted)
    cell = cell_of(record, column)
    if record.fields[0].startswith("\xff\xfe") or record.fields[0].startswith("\xfe\xff"):
        return ["The file is UTF-16: it has to be UTF-8 (iconv -f UTF-16 -t UTF-8)."]
    if column <= len(wanted):
        stands = f"and not `{cell}`" if cell else "and there is nothing"
        told = [f"The header of the {which} file begins with {whole}: `{wanted[column - 1]}` is wanted here, {stands}."]
        other = next((sign for sign in ";\t|" if sign in utf8(record.fields[0])), None)
        if other:
            told.append(f"Its fields are parted by {other!r}: data files have commas. `tools/edges.py --separator` reads other lists.")
        elif cell.strip().strip('"').lstrip("-").isdigit():
            told.append(f"The file has no header: its first line has to be {whole}, and the names and kinds of its properties.")
        elif cell.strip().lower() == wanted[column - 1]:
            told.append(f"It is written small and without blanks: {wanted[column - 1]}.")
        elif which == "edges":
            told.append("`tools/edges.py --header` makes both data files from a list whose columns have other names.")
        return told
    name, colon, kind = cell.rpartition(":")
    if not colon:
        return [f"`{cell}` has no kind: a property is NAME:KIND, here {cell.strip() or 'NAME'}:{guessed(path, column)}.", kinds_told()]
    told = []
    if kind not in KINDS:
        told.append(f"`{kind}` is no kind.")
        small = kind.strip().lower()
        if small in KINDS:
            told.append(f"It is written small and without blanks: {name}:{small}.")
        elif small in OTHER_KINDS:
            told.append(f"The kind is called `{OTHER_KINDS[small]}` here: {name}:{OTHER_KINDS[small]}.")
        elif small in DECIMALS:
            told.append(f"There are no decimals: `tools/edges.py --scale {name}=100` makes whole numbers of them.")
        elif small in DATES:
            told.append(f"There are no dates: `tools/edges.py --date {name}` makes whole numbers of them.")
        return [*told, kinds_told()]
    if name == "":
        return ["A property has a name: NAME:KIND."]
    if name in ("id", "src", "dst"):
        return [f"A property can't be called `{name}`: `id`, `src` and `dst` are the first columns."]
    if [one for one, _ in header].count(name) > 1:
        return [f"There are two properties `{name}`: names stand once in a file."]
    return [f"`{name}` is no name: it has a byte below 32, or the byte 127."]


def of_other_header(record, column, edges):
    """The header of an inserted file where it isn't that of the edges file."""
    wanted = next((list(map(utf8, other.fields)) for other in records_of(edges)), [])
    told = f"The header of an inserted file is that of the edges file {edges}: {','.join(wanted)}."
    if column > len(record.fields):
        return [f"`{wanted[column - 1]}` is missing behind the last field.", told]
    if column > len(wanted):
        return [f"`{cell_of(record, column)}` is a field too many.", told]
    return [f"`{wanted[column - 1]}` is wanted here, and not `{cell_of(record, column)}`.", told]


def kinds_told():
    return "Kinds are int (whole numbers), str (texts) and bool (true and false)."


def guessed(path, column):
    """The kind that the first cells of a column have."""
    cells = []
    for record in records_of(path):
        if record.number > 1 and column <= len(record.fields) and record.fields[column - 1] != "":
            cells.append(record.fields[column - 1])
        if record.number > 1000:
            break
    if cells and all(cell.lstrip("-").isdigit() for cell in cells):
        return "int"
    return "bool" if cells and all(cell in TRUTHS for cell in cells) else "str"


def of_header_width(record, column, which, path, header, nodes):
    return ["There are at most 16 properties in a file: those that no script names can be left out."]


def of_width(record, column, which, path, header, nodes):
    have, wanted = len(record.fields), len(header)
    told = [f"This record has {have} field{'s' if have != 1 else ''}, and the header has {wanted}: {', '.join(name for name, _ in header)}."]
    if have > wanted:
        if have == wanted + 1 and record.fields[-1] == "":
            told.append("A comma at the end begins one field more.")
        else:
            told.append('A text with a comma in it stands in double quotes: "San Jose, CA".')
    elif have == 1 and any(sign in record.fields[0] for sign in ";\t|"):
        told.append("Fields are parted by commas.")
    else:
        told.append("A field without a value is empty, and its comma stays.")
    return told


def of_bytes(record, column, which, path, header, nodes):
    return [
        "The field is not UTF-8: the file may be Latin-1 or Windows-1252 (iconv -f WINDOWS-1252 -t UTF-8 makes UTF-8 of it).",
    ]


def of_id(record, column, which, path, header, nodes):
    cell = cell_of(record, column)
    what = header[column - 1][0] if column <= len(header) else "id"
    told = [f"`{cell}` is no {'id' if what == 'id' else 'id of a node'}: ids are whole numbers from 0 to 9223372036854775807."]
    bare = cell.strip()
    if cell == "":
        told[0] = "The field is empty, and an id is wanted: a whole number from 0 to 9223372036854775807."
    elif bare != cell and bare.isdigit():
        told.append("Blanks belong to their field: take them away.")
    elif bare.startswith("-") and bare[1:].isdigit():
        told.append("Negative ones are none: number the nodes anew, as `tools/edges.py --names` does.")
    elif bare.replace(".", "", 1).isdigit():
        told.append("Write it without a point: some programs make 1.0 of 1 where a column has empty cells.")
    elif bare.isdigit():
        told.append("It is too large: `tools/edges.py --names` numbers nodes with any ids from 1.")
    else:
        told.append("`tools/edges.py --names` numbers nodes that have names, and writes the names as a property.")
    return told


def of_repeated(record, column, which, path, header, nodes):
    cell = cell_of(record, column)
    for earlier in records_of(path):
        if earlier.number > 1 and earlier.fields[0].isdigit() and int(earlier.fields[0]) == int(cell):
            return [f"The node {int(cell)} stands in line {earlier.first} already (record {earlier.number}): a node has one line."]
    return ["An earlier record has this id: a node has one line."]


def of_unknown(record, column, which, path, header, nodes):
    cell = cell_of(record, column)
    wanted = int(cell)
    end = "src" if column == 1 else "dst"
    count, least, most, told = 0, None, None, []
    swallowed = opened = None
    for other in records_of(nodes):
        if other.number == 1:
            continue
        count += 1
        field = other.fields[0].strip()
        if field.isdigit():
            node = int(field)
            least, most = node if least is None else min(least, node), node if most is None else max(most, node)
        if other.first < other.last:
            opened = opened or other
            for number, line in other.lines[1:]:
                begin = line.split(",")[0].strip().strip('"')
                if begin.isdigit() and int(begin) == wanted:
                    swallowed = number, other
    ids = f": there {'is' if count == 1 else 'are'} {count:,}, with ids from {least} to {most}" if count else ": there are none"
    told.append(f"`{cell}` is the `{end}` of this edge, and no node of {nodes} has this id{ids}.")
    if swallowed:
        number, other = swallowed
        closed = "is not closed" if other.is_open else f"is closed in line {other.last}"
        told.append(
            f"It stands in line {number} of {nodes}, but a quote that is opened in line {other.first} {closed}: the lines"
            f" {other.first} to {other.last} are one record."
        )
    elif opened:
        told.append(over_lines(nodes, opened).replace("This record", f"A record of {nodes}"))
    else:
        told.append(f"Give it a line in {nodes}, or leave the edge out. `tools/edges.py` writes both files from a list of edges.")
    return told


def of_cell(record, column, which, path, header, nodes):
    cell = cell_of(record, column)
    name, kind = header[column - 1]
    bare = cell.strip()
    if kind == "bool":
        told = [f"`{cell}` is no truth value for `{name}`: true, True, TRUE, false, False or FALSE, or nothing."]
        if bare.lower() in ("yes", "y", "1", "t", "on", "no", "n", "0", "f", "off"):
            told.append(f"Write {'true' if bare.lower() in ('yes', 'y', '1', 't', 'on') else 'false'}.")
    else:
        told = [f"`{cell}` is no whole number for `{name}`: an optional - and digits, from -(2^63 - 1) to 2^63 - 1, or nothing."]
    if bare != cell:
        told.append("Blanks belong to their field: take them away.")
    elif bare.lower() in ("na", "nan", "null", "none", "n/a", "?", "-", "nil", "\\n"):
        told.append("A value that is not there is an empty field.")
    elif kind == "int":
        told.append(of_number(bare, name))
    return told


def of_number(bare, name):
    """What is usually meant by a text where a whole number is wanted."""
    plain = bare.lstrip("+-")
    if bare.startswith("+") and plain.isdigit():
        return "A number has no plus sign."
    if plain.isdigit():
        return "It is too large, or too small."
    if plain.replace(",", "").isdigit() or plain.replace("'", "").isdigit() or plain.replace("_", "").isdigit():
        return "A number has digits alone, without signs between thousands."
    parts = plain.split("-")
    if len(parts) >= 2 and len(parts[0]) == 4 and all(part[:2].isdigit() for part in parts):
        return f"Dates become whole numbers by `tools/edges.py --date {name}`."
    try:
        float(bare)
    except ValueError:
        return f"Texts are of kind str: `{name}:str` in the header."
    return f"Decimals become whole numbers by `tools/edges.py --scale {name}=100`."


def beside(path):
    """Files that may be meant by a path that leads to none."""
    folder, name = os.path.split(path)
    try:
        there = sorted(os.listdir(folder or "."))
    except OSError:
        return f"There is no folder {folder}." if folder and not os.path.isdir(folder) else ""
    same = [one for one in there if one.lower() == name.lower()] or difflib.get_close_matches(name, there, n=1, cutoff=0.75)
    return f"Did you mean {os.path.join(folder, same[0])}?" if same else ""
