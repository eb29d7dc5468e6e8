"""The first fault of two data files, or the graph that they spell (docs/DATA.md), byte by byte and one thing after the other."""

import re
from collections import namedtuple

from graph import Graph, cell

Fault = namedtuple("Fault", "file record column kind")
Loaded = namedtuple("Loaded", "graph node_kinds edge_kinds")

MARK = b"\xef\xbb\xbf"
MOST_BYTES = 2**28
MOST_PROPERTIES = 16
MOST_RECORDS = {"nodes": (1_000_000, "TooManyNodes"), "edges": (4_000_000, "TooManyEdges")}
KEYS = {"nodes": (b"id",), "edges": (b"src", b"dst")}
MOST_EDGES, TOO_MANY_EDGES = MOST_RECORDS["edges"]
MOST = 2**63 - 1

# A field: perhaps a part in quotes, which the end of the file closes too, and then all before the next comma or line end.
FIELD = re.compile(rb'(?:"((?:[^"]|"")*)(?:"|\Z))?([^,\r\n]*)')
LINE_ENDS = re.compile(rb"[\r\n]*")
ID = re.compile(rb"[0-9]{1,19}")
NUMBER = re.compile(rb"-?[0-9]{1,19}")
TRUTHS = (b"true", b"True", b"TRUE", b"false", b"False", b"FALSE")


def records_of(data):
    """The records of a file, each a list of fields."""
    place = len(MARK) if data.startswith(MARK) else 0
    records = []
    while True:
        place = LINE_ENDS.match(data, place).end()
        if place == len(data):
            return records
        fields = []
        while True:
            field = FIELD.match(data, place)
            quoted, rest = field.groups()
            fields.append((quoted or b"").replace(b'""', b'"') + rest)
            place = field.end()
            if data[place : place + 1] != b",":
                break
            place += 1
        records.append(fields)


def text_of(field):
    try:
        return field.decode("utf-8")
    except UnicodeDecodeError:
        return None


def property_of(field):
    """The name and the kind of a header's field, or nothing where it is no property."""
    name, colon, kind = field.rpartition(":")
    if not colon or kind not in ("int", "str", "bool") or name in ("", "id", "src", "dst"):
        return None
    return None if any(it < " " or it == "\x7f" for it in name) else (name, kind)


def header_fault(file, records):
    """The column and the kind of the first fault of a header."""
    if not records:
        return 0, "NoHeader"
    header, keys = records[0], KEYS[file]
    for column, key in enumerate(keys, 1):
        if len(header) < column or header[column - 1] != key:
            return column, "BadHeader"
    names = []
    for column, field in enumerate(header[len(keys) :], len(keys) + 1):
        if len(names) == MOST_PROPERTIES:
            return column, "TooManyColumns"
        if text_of(field) is None:
            return column, "NotUtf8"
        made = property_of(text_of(field))
        if made is None or made[0] in names:
            return column, "BadHeader"
        names.append(made[0])
    return None


def kinds_of(file, records):
    """The kind of each property of a header without a fault, by its name."""
    return dict(property_of(text_of(it)) for it in records[0][len(KEYS[file]) :])


def key_fault(file, field, ids):
    """What is wrong with an id, a source or a target, behind these ids."""
    if not ID.fullmatch(field) or int(field) > MOST:
        return "BadId"
    if file == "nodes":
        return "RepeatedId" if int(field) in ids else None
    return None if int(field) in ids else "UnknownNode"


def cell_fault(kind, field):
    if text_of(field) is None:
        return "NotUtf8"
    if kind == "str" or field == b"":
        return None
    if kind == "int":
        return None if NUMBER.fullmatch(field) and abs(int(field)) <= MOST else "BadCell"
    return None if field in TRUTHS else "BadCell"


def record_fault(file, fields, kinds, ids):
    """The column and the kind of the first fault of a node or an edge."""
    keys = len(KEYS[file])
    if len(fields) != keys + len(kinds):
        return 0, "WrongWidth"
    for column, field in enumerate(fields, 1):
        kind = key_fault(file, field, ids) if column <= keys else cell_fault(kinds[column - keys - 1], field)
        if kind:
            return column, kind
    return None


def file_fault(file, records, ids):
    """The first fault of one file. The ids of the nodes are put in, as the nodes file is read, or are looked up."""
    fault = header_fault(file, records)
    if fault:
        return Fault(file, 1, *fault)
    kinds = list(kinds_of(file, records).values())
    most, kind = MOST_RECORDS[file]
    for number, fields in enumerate(records[1:], 2):
        if number > most + 1:
            return Fault(file, number, 0, kind)
        fault = record_fault(file, fields, kinds, ids)
        if fault:
            return Fault(file, number, *fault)
        if file == "nodes":
            ids[int(fields[0])] = len(ids)
    return None


def columns_of(file, records):
    """The cells of each property by its name, in the order of the records."""
    keys = len(KEYS[file])
    return {
        name: [cell(kind, text_of(fields[keys + place])) for fields in records[1:]]
        for place, (name, kind) in enumerate(kinds_of(file, records).items())
    }


def insert_fault(file, records, header, ids, before):
    """The first fault of a file of further edges, whose header has to be that of the edges file; so many edges come before."""
    if not records:
        return Fault(file, 1, 0, "NoHeader")
    # (all fields are compared, also one that is no text)
    own = records[0]
    column = next((it for it in range(max(len(own), len(header))) if own[it : it + 1] != header[it : it + 1]), None)
    if column is not None:
        return Fault(file, 1, column + 1, "BadHeader")
    kinds = list(kinds_of("edges", records).values())
    for number, fields in enumerate(records[1:], 2):
        if before + number - 1 > MOST_EDGES:
            return Fault(file, number, 0, TOO_MANY_EDGES)
        fault = record_fault("edges", fields, kinds, ids)
        if fault:
            return Fault(file, number, *fault)
    return None


def extended(made, edges, file, data):
    """What was loaded with the edges of a further file of these bytes, or its first fault; edges are the bytes of the edges file."""
    graph = made.graph
    ids = {node_id: place for place, node_id in enumerate(graph.ids)}
    records = records_of(data)
    fault = insert_fault(file, records, records_of(edges)[0], ids, len(graph.ends))
    if fault:
        return fault
    ends = [(ids[int(it[0])], ids[int(it[1])]) for it in records[1:]]
    more = columns_of("edges", records)
    cells = {name: column + more[name] for name, column in graph.edge_cells.items()}
    return made._replace(graph=Graph(graph.ids, graph.node_cells, graph.ends + ends, cells, [*graph.groups, len(ends)]))


def loaded(nodes, edges):
    """The first fault of two files of these bytes, or what they load as."""
    ids = {}
    node_records, edge_records = records_of(nodes), records_of(edges)
    fault = file_fault("nodes", node_records, ids) or file_fault("edges", edge_records, ids)
    if fault:
        return fault
    ends = [(ids[int(it[0])], ids[int(it[1])]) for it in edge_records[1:]]
    graph = Graph(list(ids), columns_of("nodes", node_records), ends, columns_of("edges", edge_records))
    return Loaded(graph, kinds_of("nodes", node_records), kinds_of("edges", edge_records))
