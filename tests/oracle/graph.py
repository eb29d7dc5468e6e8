"""The graph that two data files spell (docs/DATA.md)."""

import csv

TRUTHS = {"true": True, "True": True, "TRUE": True, "false": False, "False": False, "FALSE": False}


class Graph:
    """Nodes and edges by their numbers from 0, in the order of the files; a cell that is absent is None."""

    def __init__(self, ids, node_cells, ends, edge_cells, groups=None):
        self.groups = [len(ends)] if groups is None else groups
        self.ids = ids
        self.node_cells = node_cells
        self.ends = ends
        self.edge_cells = edge_cells
        self.by_id = sorted(range(len(ids)), key=ids.__getitem__)


def records_of(path):
    with open(path, encoding="utf-8-sig", newline="") as file:
        return [record for record in csv.reader(file) if record]


def cell(kind, field):
    if kind == "str":
        return field
    if field == "":
        return None
    return int(field) if kind == "int" else TRUTHS[field]


def columns_of(header, records, keys):
    """The cells of each property by its name, in the order of the records."""
    columns = {}
    for place, field in enumerate(header[keys:], keys):
        name, kind = field.rsplit(":", 1)
        columns[name] = [cell(kind, record[place]) for record in records]
    return columns


def graph_of(nodes_path, edges_path, inserted=()):
    """The graph of all edges, those of the files that a script inserts behind the others; it has the number of edges of each file."""
    nodes, files = records_of(nodes_path), [records_of(it) for it in (edges_path, *inserted)]
    edges = [record for records in files for record in records[1:]]
    ids = [int(record[0]) for record in nodes[1:]]
    number = {node_id: place for place, node_id in enumerate(ids)}
    ends = [(number[int(record[0])], number[int(record[1])]) for record in edges]
    groups = [len(records) - 1 for records in files]
    return Graph(ids, columns_of(nodes[0], nodes[1:], 1), ends, columns_of(files[0][0], edges, 2), groups)
