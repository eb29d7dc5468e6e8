#!/usr/bin/env python3
"""Turns an edge list into the two data files that surge reads.

Each line of the list is an edge: the ids of its source and of its target, and then further fields, parted by blanks or
tabs (as in SNAP's lists), or by --separator. Files that gzip made are read too. Empty lines and lines that begin with '#'
or '%' are skipped. Ids are whole numbers from 0 to 2^63 - 1; with --names they are any texts, and nodes are numbered from
1 in the order in which they come, with their text in the column 'name'. Where a line is bad, nothing is written.

Further fields become properties of the edge:
  --columns year:int,via:str   names them from the left, with a kind each: int, str or bool
  --header                     takes their names from the first line, and their kinds from what stands in them; then
                               --columns year,via:str chooses some of them, in any order, and --ends caller,callee says
                               which columns are the two ends
  --date when                  makes whole numbers of dates and times: seconds since 1970-01-01, in UTC; with
                               --date when=days (hours, days, weeks from Monday on, months) those, and with =years years
  --scale w=100                makes whole numbers of decimals: 100 times as much, rounded where that is none
  --absent NA                  takes this text as no value
An empty field stays empty: it is absent.

--nodes-from people.csv reads further properties of nodes: a comma file with a header, one line a node, whose column 'id'
(with --names 'name'), or else its first, or that of --key, says which node it is.

  tools/edges.py --nodes nodes.csv --edges edges.csv mail.txt
  tools/edges.py --separator , --header --names --nodes-from people.csv --date day=days calls.csv
  zcat graph.txt.gz | tools/edges.py --columns year:int
"""

import argparse
import csv
import datetime
import decimal
import functools
import os
import re
import shutil
import sys
import tempfile

sys.path.insert(0, os.path.dirname(os.path.abspath(__file__)))

from reading import BadLine, like, lines_of, named, opened, told

MOST_ID = 2**63 - 1
MOST_NODES, MOST_EDGES, MOST_COLUMNS = 1_000_000, 4_000_000, 16
TRUTHS = ("true", "True", "TRUE", "false", "False", "FALSE")
KINDS = ("int", "str", "bool")
# What often stands where there is no value.
USUAL_ABSENT = ("NA", "N/A", "NaN", "nan", "NULL", "null", "None", "none", "?", "-", "\\N")
# What a header often calls the ends of an edge.
USUAL_ENDS = (
    {"src", "dst"}, {"source", "target"}, {"source", "dest"}, {"source", "destination"}, {"from", "to"}, {"caller", "callee"},
    {"fromnodeid", "tonodeid"}, {"from_id", "to_id"}, {"node1", "node2"}, {"u", "v"}, {"tail", "head"},
)

DECIMAL = re.compile(r"[+-]?([0-9]+\.?[0-9]*|\.[0-9]+)([eE][+-]?[0-9]{1,4})?", re.ASCII)
DATE = re.compile(
    r"(?P<year>[0-9]{4})(?:[-/.](?P<month>[0-9]{1,2})(?:[-/.](?P<day>[0-9]{1,2})"
    r"(?:[T ]+(?P<hour>[0-9]{1,2}):(?P<minute>[0-9]{2})(?::(?P<second>[0-9]{2})(?:[.,][0-9]+)?)?"
    r" ?(?P<zone>Z|UTC|GMT|[+-][0-9]{2}:?[0-9]{2})?)?)?)?",
    re.ASCII,
)
DATE_FORMS = "2018-03-05, 2018-03-05 12:30 or 2018-03-05T12:30:00+01:00"
EPOCH = datetime.date(1970, 1, 1).toordinal()
SECONDS = {"seconds": 1, "minutes": 60, "hours": 3600, "days": 86400}
UNITS = (*SECONDS, "weeks", "months", "years")
SINCE = {"weeks": "weeks since Monday, 1969-12-29", "months": "months since January 1970", "years": "years"}


def is_whole(text, may_be_negative):
    digits = text[1:] if may_be_negative and text.startswith("-") else text
    return digits.isascii() and digits.isdigit() and len(digits) <= 19 and int(digits) <= MOST_ID


@functools.lru_cache(maxsize=65536)
def seconds_of(cell):
    """A date, or a date and a time, as seconds since 1970-01-01 in UTC; None where it is none."""
    bare = cell.strip()
    if len(bare) == 8 and bare.isascii() and bare.isdigit():
        bare = f"{bare[:4]}-{bare[4:6]}-{bare[6:]}"
    found = DATE.fullmatch(bare)
    if found is None:
        return None
    year, month, day, hour, minute, second = (
        int(found[part] or least)
        for part, least in (("year", 1), ("month", 1), ("day", 1), ("hour", 0), ("minute", 0), ("second", 0))
    )
    if hour > 23 or minute > 59 or second > 60:
        return None
    try:
        days = datetime.date(year, month, day).toordinal() - EPOCH
    except ValueError:
        return None
    seconds = days * 86400 + hour * 3600 + minute * 60 + second
    zone = (found["zone"] or "").replace(":", "")
    if zone[:1] in ("+", "-") and zone:
        ahead = int(zone[1:3]) * 3600 + int(zone[3:]) * 60
        seconds += ahead if zone[0] == "-" else -ahead
    # (in UTC it may lie outside of all years)
    return seconds if 0 < seconds // 86400 + EPOCH <= datetime.date.max.toordinal() else None


def counted(seconds, unit):
    """Seconds since 1970-01-01 in whole numbers of a unit."""
    if unit in SECONDS:
        return seconds // SECONDS[unit]
    days = seconds // 86400
    if unit == "weeks":
        return (days + 3) // 7
    date = datetime.date.fromordinal(days + EPOCH)
    return date.year if unit == "years" else (date.year - 1970) * 12 + date.month - 1


class Column:
    """A property: its name, its kind, how its cells become whole numbers, and what was seen of them."""

    def __init__(self, name, kind, unit=None, factor=None, absent=()):
        self.name, self.kind, self.unit, self.factor, self.absent = name, kind, unit, factor, absent
        self.is_inferred = kind is None
        self.may_be = {"int", "bool", "decimal", "date"} if kind is None else set()
        self.least = self.most = None
        self.first_date = self.last_date = None
        self.rounded, self.was_seen = 0, False
        # What is usually no value, and yet stood in a cell.
        self.usual = {}

    def see(self, cell):
        """Notes which kinds a cell has, where the kind isn't told."""
        bare = cell.strip()
        if bare == "" or bare in self.absent:
            return
        if bare in USUAL_ABSENT:
            self.usual[bare] = None
            return
        self.was_seen = True
        if "int" in self.may_be and is_whole(bare, True):
            # (a whole number is a decimal, and may be a year)
            self.may_be.discard("bool")
            if len(bare) != 4:
                self.may_be.discard("date")
            return
        for kind in list(self.may_be):
            if not IS_OF[kind](bare):
                self.may_be.discard(kind)

    def settle(self):
        """Takes the kind that all cells have."""
        if self.is_inferred:
            is_known = self.was_seen and not self.usual
            self.kind = next((kind for kind in ("int", "bool") if is_known and kind in self.may_be), "str")

    def taken(self, place, cell):
        """The cell as it is written."""
        bare = cell.strip()
        if bare == "" and self.kind != "str" or bare in self.absent:
            return ""
        if self.kind == "str":
            return cell
        if self.unit is not None:
            return self.of_date(place, bare)
        if self.factor is not None:
            return self.scaled(place, bare)
        if self.kind == "bool":
            if bare not in TRUTHS:
                raise BadLine(f"{place}: {cell!r} is no bool for {self.name}")
            return bare
        if not is_whole(bare, True):
            raise BadLine(f"{place}: {cell!r} is no int for {self.name}{self.hint(bare)}")
        self.note(int(bare))
        return bare

    def of_date(self, place, bare):
        seconds = seconds_of(bare)
        if seconds is None:
            number = " (whole numbers stand without --date)" if is_whole(bare, True) else ""
            raise BadLine(f"{place}: {bare!r} is no date for {self.name}: it wants {DATE_FORMS}{number}")
        if self.first_date is None or seconds < self.first_date:
            self.first_date = seconds
        if self.last_date is None or seconds > self.last_date:
            self.last_date = seconds
        return self.note(counted(seconds, self.unit))

    def scaled(self, place, bare):
        if DECIMAL.fullmatch(bare) is None:
            raise BadLine(f"{place}: {bare!r} is no decimal for {self.name}")
        with decimal.localcontext() as context:
            context.prec = 200
            exact = decimal.Decimal(bare) * self.factor
            if exact.adjusted() > 19 or abs(exact) > MOST_ID:
                raise BadLine(f"{place}: {bare!r} times {self.factor} is no int for {self.name}: at most 2^63 - 1")
            whole = int(exact.to_integral_value(decimal.ROUND_HALF_EVEN))
            self.rounded += whole != exact
        return self.note(whole)

    def note(self, number):
        if self.least is None or number < self.least:
            self.least = number
        if self.most is None or number > self.most:
            self.most = number
        return number

    @staticmethod
    def hint(bare):
        if bare in USUAL_ABSENT:
            return f": --absent {bare} takes it as no value"
        if DECIMAL.fullmatch(bare):
            return ": --scale makes whole numbers of decimals"
        return ": --date makes whole numbers of dates" if seconds_of(bare) is not None else ""

    def told(self):
        """What is told of it where a tool found it out by itself."""
        ends = "" if self.least is None else f" from {self.least} to {self.most}"
        if self.unit is not None and self.first_date is not None:
            since = SINCE.get(self.unit, f"{self.unit} since 1970-01-01")
            return f"{self.name}: int{ends}, {since} ({date_of(self.first_date)} to {date_of(self.last_date)})"
        if self.factor is not None:
            rounded = f", {self.rounded} rounded" if self.rounded else ""
            return f"{self.name}: int{ends}, {self.factor} times what stood there{rounded}"
        if self.kind == "str" and self.was_seen and self.usual and self.may_be:
            options = " ".join(f"--absent {text}" for text in self.usual)
            return f"{self.name}: str, since {' and '.join(self.usual)} stands in it: {options} takes that as no value"
        if self.kind == "str" and self.was_seen and "decimal" in self.may_be:
            return f"{self.name}: str, though all are decimals: --scale {self.name}=100 makes whole numbers of them"
        if self.kind == "str" and self.was_seen and "date" in self.may_be:
            return f"{self.name}: str, though all are dates: --date {self.name} makes whole numbers of them"
        return f"{self.name}: {self.kind}{ends}"


IS_OF = {
    "int": lambda cell: is_whole(cell, True),
    "bool": lambda cell: cell in TRUTHS,
    "decimal": lambda cell: DECIMAL.fullmatch(cell) is not None,
    "date": lambda cell: seconds_of(cell) is not None,
}


def date_of(seconds):
    return datetime.date.fromordinal(seconds // 86400 + EPOCH).isoformat()


class Rules:
    """What --columns, --date and --scale say of columns, by name."""

    def __init__(self, asked):
        self.units, self.factors = {}, {}
        for part in parts(asked.date):
            name, equals, unit = part.rpartition("=")
            if not equals:
                name, unit = part, "seconds"
            if unit not in UNITS:
                raise BadLine(f"--date takes {', '.join(UNITS)}, and not {unit!r}")
            self.units[name] = unit
        for part in parts(asked.scale):
            name, equals, factor = part.rpartition("=")
            if not equals or not name or not is_whole(factor, False) or int(factor) < 1:
                raise BadLine(f"--scale wants COLUMN=N with a whole number from 1 on, not {part!r}")
            self.factors[name] = int(factor)
        self.known, self.absent = set(), frozenset(asked.absent)

    def column(self, name, kind):
        """The column of this name, which has one of these kinds or, with None, one that is still to be found out."""
        self.known.add(name)
        unit, factor = self.units.get(name), self.factors.get(name)
        if unit and factor:
            raise BadLine(f"{name} is named by --date and by --scale")
        if (unit or factor) and kind not in (None, "int"):
            raise BadLine(f"{name} is named by --{'date' if unit else 'scale'}, so it is of kind int and not {kind}")
        return Column(name, "int" if unit or factor else kind, unit, factor, self.absent)

    def all_known(self):
        for option, rules in (("--date", self.units), ("--scale", self.factors)):
            for name in rules:
                if name not in self.known:
                    there = ", ".join(sorted(self.known)) or "none"
                    raise BadLine(f"{option} names {name!r}, which is no column: there are {there}{like(name, self.known)}")


def parts(options):
    """The parts of an option that may be given more than once, and has commas."""
    return [part.strip() for option in options for part in option.split(",") if part.strip()]


def judged(columns, where):
    """Columns, whose names have to be properties of surge."""
    names = [column.name for column in columns]
    for name in names:
        if name in ("", "id", "src", "dst") or any(ord(sign) < 32 or ord(sign) == 127 for sign in name):
            raise BadLine(f"{where}: {name!r} is no name of a property{'' if name else ': a column has none'}")
        if names.count(name) > 1:
            raise BadLine(f"{where} names a column twice: {name!r}")
    if len(columns) > MOST_COLUMNS:
        raise BadLine(f"{where}: there are at most {MOST_COLUMNS} columns, and not {len(columns)}: choose some by --columns")
    return columns


def columns_of(text, rules, may_lack_kinds):
    """The columns that --columns names."""
    columns = []
    for part in parts([text]):
        name, colon, kind = part.rpartition(":")
        if colon and kind.strip() in KINDS:
            columns.append(rules.column(name.strip(), kind.strip()))
        elif may_lack_kinds or part in rules.units or part in rules.factors:
            columns.append(rules.column(part, None))
        else:
            raise BadLine(f"--columns wants NAME:int, NAME:str or NAME:bool, not {part!r}")
    return judged(columns, "--columns")


class List:
    """The edge lists: their records with their places, as often as they are asked for."""

    def __init__(self, files, separator, skip, has_header):
        self.files, self.separator, self.skip, self.has_header = files, separator, skip, has_header
        self.kept = {}

    def keep(self):
        """Keeps what can't be read twice: standard input and pipes."""
        for path in self.files:
            if path == "-" or os.path.exists(path) and not os.path.isfile(path) and not os.path.isdir(path):
                self.kept[path] = tempfile.NamedTemporaryFile(prefix="edges.")
                with sys.stdin.buffer if path == "-" else open(path, "rb") as file:
                    try:
                        shutil.copyfileobj(file, self.kept[path])
                        self.kept[path].flush()
                    except OSError as fault:
                        raise BadLine(f"{named(path)}: it can't be kept under {tempfile.gettempdir()}: {fault.strerror}") from None

    def records(self):
        """Each record, the headers among them, with its place and whether it is the first of its file."""
        for path in self.files:
            name = named(path)
            with opened(self.kept[path].name if path in self.kept else path) as file:
                is_first = True
                for number, fields in records_of(lines_of(file, name), name, self.separator, self.skip):
                    yield f"{name}, line {number}", is_first, fields
                    is_first = False

    def header(self):
        """The first record of all, and None where the lines below have no header."""
        return next((fields for _, _, fields in self.records()), None) if self.has_header else None

    def edges(self, header):
        """The records that are edges."""
        for place, is_first, fields in self.records():
            if is_first and self.has_header:
                if fields != header:
                    raise BadLine(f"{place}: the header is another than that of {named(self.files[0])}")
                continue
            yield place, fields


def records_of(lines, name, separator, skip):
    """The records of a list with the number of the line where each begins."""
    state = {"number": 0, "first": 0, "within": False, "quotes": 0}

    def wanted():
        for number, line in lines:
            state["number"] = number
            if not state["within"]:
                if number <= skip or not line.strip() or line.lstrip().startswith(("#", "%")):
                    continue
                state["first"], state["within"], state["quotes"] = number, True, 0
            state["quotes"] += line.count('"')
            yield line

    if separator is None:
        for line in wanted():
            state["within"] = False
            yield state["first"], line.split()
        return
    for fields in csv.reader(wanted(), delimiter=separator):
        state["within"] = False
        if state["number"] > state["first"] and state["quotes"] % 2:
            raise BadLine(f"{name}, line {state['first']}: a quote is opened in this line and is not closed")
        yield state["first"], fields


class Nodes:
    """The nodes so far: their ids by what the list calls them, and their properties where a file tells them."""

    def __init__(self, has_names):
        self.has_names = has_names
        self.ids, self.next = {}, 1
        self.columns, self.rows, self.told = [], {}, None

    def key_of(self, place, field):
        """What tells a node from others: its name, or its id."""
        if self.has_names:
            if field == "":
                raise BadLine(f"{place}: a node has no name")
            return field
        if not is_whole(field.strip(), False):
            raise BadLine(f"{place}: {field!r} is no id (a whole number from 0 to {MOST_ID}); --names takes any text")
        return int(field)

    def number_of(self, place, field):
        """The id that a file of nodes gives to a name."""
        if not is_whole(field.strip(), False):
            raise BadLine(f"{place}: {field!r} is no id (a whole number from 0 to {MOST_ID})")
        if int(field) in self.rows:
            raise BadLine(f"{place}: the id {int(field)} stands in an earlier line too")
        return int(field)

    def id_of(self, place, field):
        key = self.key_of(place, field)
        found = self.ids.get(key)
        return self.add(place, key, None) if found is None else found

    def add(self, place, key, number):
        if len(self.ids) >= MOST_NODES:
            raise BadLine(f"{place}: surge takes at most {MOST_NODES} nodes")
        if not self.has_names:
            number = key
        elif number is None:
            number = self.next
        self.next = max(self.next, number + 1)
        if number > MOST_ID:
            raise BadLine(f"{place}: there is no id behind {MOST_ID}")
        self.ids[key] = number
        return number

    def read(self, path, key, rules):
        """The nodes that a file has, with their properties."""
        separator = separator_of(path)
        header, records = None, []
        with opened(path) as file:
            for number, fields in records_of(lines_of(file, path), path, separator, 0):
                place = f"{path}, line {number}"
                if header is None:
                    header = fields
                elif len(fields) != len(header):
                    raise BadLine(f"{place}: {len(fields)} fields where the header has {len(header)}")
                else:
                    records.append((place, fields))
        if header is None:
            raise BadLine(f"{path}: there is nothing in it, and so no header")
        names, kinds = spelled(header)
        usual = "name" if self.has_names else "id"
        wanted = key if key is not None else usual if usual in names else names[0]
        if wanted not in names:
            raise BadLine(f"{path} has no column {wanted!r} (--key): there are {', '.join(names)}{like(wanted, names)}")
        at = names.index(wanted)
        # (with names, a column 'id' has the numbers)
        numbers = names.index("id") if self.has_names and wanted != "id" and "id" in names else None
        kept = [place for place in range(len(names)) if place not in (at, numbers)]
        self.columns = [rules.column(names[place], kinds[place]) for place in kept]
        judged(self.columns + ([Column("name", "str")] if self.has_names else []), path)
        for _, fields in records:
            for column, place in zip(self.columns, kept):
                column.see(fields[place])
        for column in self.columns:
            column.settle()
        for place, fields in records:
            key = self.key_of(place, fields[at])
            if key in self.ids:
                raise BadLine(f"{place}: {fields[at]!r} stands in an earlier line too")
            found = self.add(place, key, None if numbers is None else self.number_of(place, fields[numbers]))
            self.rows[found] = [column.taken(place, fields[where]) for column, where in zip(self.columns, kept)]
        self.told = path

    def write(self, file):
        empty = [""] * len(self.columns)
        name = ["name:str"] if self.has_names else []
        writer = csv.writer(file, lineterminator="\n")
        writer.writerow(["id", *name, *(f"{column.name}:{column.kind}" for column in self.columns)])
        for key, number in self.ids.items():
            writer.writerow([number, *([key] if name else []), *self.rows.get(number, empty)])

    def lacking(self):
        """How many nodes of the edges the file of nodes doesn't have."""
        return len(self.ids) - len(self.rows)


def spelled(header):
    """The names of a header, and the kinds that stand behind them, as in year:int, or None."""
    names, kinds = [], []
    for cell in header:
        name, colon, kind = cell.strip().rpartition(":")
        is_told = colon != "" and kind in KINDS
        names.append(name if is_told else cell.strip())
        kinds.append(kind if is_told else None)
    return names, kinds


def separator_of(path):
    """What parts the fields of a file with a header: a comma, or else a tab or a semicolon."""
    with opened(path) as file:
        for _, line in lines_of(file, path):
            if line.strip():
                return next((sign for sign in ",\t;" if sign in line), ",")
    return ","


def misread(asked, fields, behind):
    """What is told of a list that looks like one of another form, by its first record and the one behind it."""
    if asked.separator is None:
        for sign, name in ((",", ","), (";", "';'"), ("|", "'|'")):
            if any(sign in field for field in fields[:2]):
                return f"there is a {sign!r} in it: say what parts its fields, as --separator {name} (tabs: '\\t')"
    elif len(fields) == 1:
        for sign, name in (("\t", "'\\t'"), (",", ","), (";", "';'"), (" ", "' '")):
            if sign in fields[0]:
                return f"its fields are not parted by {asked.separator!r}: say --separator {name}"
    if asked.header or len(fields) < 2:
        return None
    ends = [field.strip() for field in fields[:2]]
    if {end.lower() for end in ends} in USUAL_ENDS:
        return "it looks like a header: say --header, or --skip 1"
    if not asked.names and behind and not any(is_whole(end, False) for end in ends):
        if all(is_whole(field.strip(), False) for field in behind[:2]):
            return "it looks like a header: say --header, or --skip 1"
    return None


def checked_form(asked, source):
    """Tells a list of another form than the words say."""
    records = source.records()
    first, behind = next(records, None), next(records, None)
    if first is None:
        raise BadLine(f"there is no edge in {', '.join(map(named, asked.files))}")
    place, _, fields = first
    problem = misread(asked, fields, behind and behind[2])
    if problem:
        raise BadLine(f"{place}: {problem}")
    if not asked.names and not asked.header and not is_whole(fields[0].strip(), False):
        raise BadLine(f"{place}: {fields[0]!r} is no id (a whole number from 0 to {MOST_ID}); --names takes any text, --header a line of names")


def places_of(asked, header, rules):
    """Where the two ends stand, and each column with its place."""
    if header is None:
        columns = columns_of(asked.columns, rules, False)
        return (0, 1), list(enumerate(columns, 2))
    names, kinds = spelled(header)
    if len(names) < 2:
        raise BadLine(f"the header has one column alone: {names[0]!r}")
    ends = (0, 1)
    if asked.ends:
        wanted = [part.strip() for part in asked.ends.split(",")]
        if len(wanted) != 2:
            raise BadLine(f"--ends wants two columns, as caller,callee, and not {asked.ends!r}")
        ends = tuple(place_of(name, names, "--ends") for name in wanted)
    if asked.columns:
        columns = columns_of(asked.columns, rules, True)
        return ends, [(place_of(column.name, names, "--columns"), column) for column in columns]
    kept = [place for place in range(len(names)) if place not in ends]
    columns = [rules.column(names[place], kinds[place]) for place in kept]
    return ends, list(zip(kept, judged(columns, "the header")))


def place_of(name, names, option):
    if name not in names:
        raise BadLine(f"{option} names {name!r}, which the header has not: there are {', '.join(names)}{like(name, names)}")
    return names.index(name)


def write_edges(file, edges, ends, columns, nodes):
    """Writes each edge as it comes, and answers how many there were."""
    count = 0
    wanted = 1 + max([*ends, *(place for place, _ in columns)])
    writer = csv.writer(file, lineterminator="\n")
    writer.writerow(["src", "dst", *(f"{column.name}:{column.kind}" for _, column in columns)])
    for place, fields in edges:
        if len(fields) < wanted:
            raise BadLine(f"{place}: {len(fields)} fields where {wanted} are wanted: {' '.join(fields)!r}")
        count += 1
        if count > MOST_EDGES:
            raise BadLine(f"{place}: surge takes at most {MOST_EDGES} edges")
        row = [nodes.id_of(place, fields[end]) for end in ends]
        row += [column.taken(place, fields[at]) for at, column in columns]
        writer.writerow(row)
    return count


class Written:
    """A file that takes its place when all is written. What is no plain file, as a device, is written to as it stands."""

    def __init__(self, path):
        self.path = path
        self.is_plain = not os.path.exists(path) or os.path.isfile(path)
        self.part = path + ".part" if self.is_plain else path
        self.file, self.is_in_place = None, False

    def __enter__(self):
        try:
            self.file = open(self.part, "w", encoding="utf-8", newline="")
        except OSError as fault:
            fault.filename = self.path
            raise
        return self

    def take_place(self):
        if self.is_plain:
            os.replace(self.part, self.path)
        self.is_in_place = True

    def close(self):
        try:
            self.file.close()
        except OSError as fault:
            fault.filename = self.path
            raise

    def __exit__(self, kind, fault, trace):
        # (a write tells no file)
        if isinstance(fault, OSError) and fault.filename is None:
            fault.filename = self.path
        try:
            self.file.close()
        except OSError:
            pass
        if self.is_plain and not self.is_in_place:
            os.remove(self.part)


def words():
    parser = argparse.ArgumentParser(
        description=__doc__, formatter_class=argparse.RawDescriptionHelpFormatter, prog="edges.py"
    )
    parser.add_argument("files", nargs="*", default=["-"], metavar="FILE", help="edge lists; without one, standard input")
    parser.add_argument("--nodes", default="nodes.csv", help="the nodes file to write (nodes.csv)")
    parser.add_argument("--edges", default="edges.csv", help="the edges file to write (edges.csv)")
    parser.add_argument("--columns", default="", help="the further fields, as NAME:KIND,.. with the kinds int, str, bool")
    parser.add_argument("--header", action="store_true", help="the first line of each file names the columns")
    parser.add_argument("--ends", metavar="A,B", help="with --header: the columns of the source and of the target")
    parser.add_argument("--separator", help="what parts the fields, one character: , or '\\t' (blanks and tabs)")
    parser.add_argument("--skip", type=int, default=0, help="how many lines to skip at the head of each file (0)")
    parser.add_argument("--names", action="store_true", help="ids are any texts: number the nodes from 1")
    parser.add_argument("--date", action="append", default=[], metavar="COLUMN[=UNIT]", help="dates become whole numbers")
    parser.add_argument("--scale", action="append", default=[], metavar="COLUMN=N", help="decimals become whole numbers")
    parser.add_argument("--absent", action="append", default=[], metavar="TEXT", help="this text is no value")
    parser.add_argument("--nodes-from", metavar="FILE", help="a comma file with properties of the nodes")
    parser.add_argument("--key", metavar="COLUMN", help="the column of --nodes-from that says which node it is")
    asked = parser.parse_args()
    if asked.separator == "\\t":
        asked.separator = "\t"
    if asked.separator is not None and (len(asked.separator) != 1 or asked.separator in '"\r\n'):
        parser.error("--separator is one character, and no quote or line end")
    if asked.ends and not asked.header:
        parser.error("--ends names columns of a header, which --header says is there")
    if asked.key and not asked.nodes_from:
        parser.error("--key names a column of --nodes-from, which is not given")
    return asked


def make(asked):
    rules, nodes = Rules(asked), Nodes(asked.names)
    source = List(asked.files, asked.separator, asked.skip, asked.header)
    source.keep()
    checked_form(asked, source)
    header = source.header()
    ends, columns = places_of(asked, header, rules)
    if asked.nodes_from:
        nodes.read(asked.nodes_from, asked.key, rules)
    rules.all_known()
    unknown = [(place, column) for place, column in columns if column.is_inferred and column.kind is None]
    if unknown:
        for _, fields in source.edges(header):
            for place, column in unknown:
                if place < len(fields):
                    column.see(fields[place])
        for _, column in unknown:
            column.settle()
    with Written(asked.edges) as edges_file, Written(asked.nodes) as nodes_file:
        count = write_edges(edges_file.file, source.edges(header), ends, columns, nodes)
        if count == 0:
            raise BadLine(f"there is no edge in {', '.join(map(named, asked.files))}")
        nodes.write(nodes_file.file)
        for written in (nodes_file, edges_file):
            written.close()
        for written in (nodes_file, edges_file):
            written.take_place()
    print(f"{len(nodes.ids)} nodes in {asked.nodes}, {count} edges in {asked.edges}", file=sys.stderr)
    for column in [column for _, column in columns] + nodes.columns:
        if column.is_inferred or column.unit or column.factor:
            print(f"  {column.told()}", file=sys.stderr)
    if nodes.told and nodes.lacking():
        print(f"  {nodes.lacking()} nodes of the edges are not in {nodes.told}: their properties are empty", file=sys.stderr)


def main():
    asked = words()
    told("edges.py", lambda: make(asked))


if __name__ == "__main__":
    main()
