#!/usr/bin/env python3
"""Turns what surge prints into one CSV table.

Long, as it is without options: a row for each node of each view, with the columns
  collection,view,position,program,outcome,id,value
The position is the view's place in its collection, from 1. A value that is none is an empty field; a view that is
unsettled has one row, without id and value. The outcome is as surge prints it: 'settled 2', 'after 10', 'phases 3' or
'unsettled'. Where edges come or go, a kept run's views have their rows once more for each insert and removal.
Rows are written as they are read: where a line is bad, those before it stand already, and the status is 1.

  --nodes FILE    behind the id what the node is called: the column 'name' of the nodes file, or that of --label
  --script FILE   behind the position from,to: the first and the last number of the window that made the view
  --wide          a row for each node and a column for each view, named COLLECTION.VIEW, and with --script
                  COLLECTION.FROM-TO; where several programs were run, one has to be chosen by --program
  --show order    what 'show order' printed, as collection,step,view,difference
  --show work     what 'show work' printed, as run,step,view,segment,work
  --show tree     what 'show tree' printed, as collection,step,view,parent,difference
  --show aggregate  what aggregates printed, as collection,view,by,added,source,destination,edges,sum

What the mode 'summary' prints becomes collection,view,position,program,outcome,edges,values,sum. What the mode 'changes' prints
is read as the tables that it makes.

  ./surge --script examples/by_year/s.gv | tools/tables.py > long.csv
  ./surge --script examples/by_year/s.gv | tools/tables.py --wide --script examples/by_year/s.gv > wide.csv
  tools/tables.py --program hops --nodes people.csv first.txt second.txt
"""

import argparse
import array
import csv
import os
import sys
import tempfile

sys.path.insert(0, os.path.dirname(os.path.abspath(__file__)))

# (read_tables is for those that take it from here)
from reading import NONE, WRITTEN_BY, BadLine, Choice, Names, Windows, parts_of, read_tables, told  # noqa: F401

# How many cells of a wide table are held at a time.
CELLS = 50_000


def quoted(cell):
    """A cell as CSV has it."""
    text = str(cell)
    return '"' + text.replace('"', '""') + '"' if any(sign in text for sign in ',"\n\r') else text


def line_of(cells):
    return ",".join("" if cell is None else quoted(cell) for cell in cells)


def of_view(windows, collection, view, position):
    """The position of a view, and its window's ends where a script tells them."""
    if windows is None:
        return [position]
    window = windows.window(collection, view)
    return [windows.position(collection, view), window and window.first, window and window.last]


def view_columns(windows):
    return ["position"] if windows is None else ["position", "from", "to"]


def called(names, part, node):
    """What a node is called, as CSV has it."""
    if node not in names.names:
        raise BadLine(f"{names.path} has no node {node}, which the table {part.title} has: is it another graph's file?")
    return quoted(names.of(node))


def chosen(files, choice):
    """The tables, or the lines in place of tables, that are asked for: all of one kind."""
    kind = None
    for part in parts_of(files):
        if not choice.takes(part):
            continue
        if kind not in (None, part.kind):
            raise BadLine(f"{part.place}: tables and lines of the mode summary don't become one table")
        kind = part.kind
        yield part
    if not choice.found:
        raise BadLine(choice.nothing())


def write_long(parts, out, names, windows):
    begun = False
    for part in parts:
        is_table = part.kind == "table"
        if not begun:
            behind = (["id", *([names.label] if names else []), "value"] if is_table else ["edges", "values", "sum"])
            out.write(line_of(["collection", "view", *view_columns(windows), "program", "outcome", *behind]) + "\n")
            begun = True
        place = of_view(windows, part.collection, part.view, part.position)
        head = line_of([part.collection, part.view, *place, part.program, part.outcome])
        if not is_table:
            out.write(f"{head},{line_of([part.edges, part.values, part.sum])}\n")
            continue
        if part.outcome == "unsettled":
            out.write(head + (",,," if names else ",,") + "\n")
        for node, value in part.rows:
            cell = "" if value is None else value
            out.write(f"{head},{node},{called(names, part, node)},{cell}\n" if names else f"{head},{node},{cell}\n")


class Columns:
    """The columns of a wide table, whose values lie in a file of no name: what is held are the ids."""

    def __init__(self):
        self.file = tempfile.TemporaryFile()
        self.parts, self.ids, self.begins = [], [], []
        self.end = 0

    def take(self, part):
        ids, values = array.array("q"), array.array("q")
        self.begins.append(self.end)
        for node, value in part.rows:
            ids.append(node)
            values.append(NONE if value is None else value)
            if len(values) == 65536:
                self.keep(values)
                values = array.array("q")
        self.keep(values)
        # (tables of one graph have the same ids)
        before = next((them for them in reversed(self.ids) if them), None)
        self.ids.append(before if ids == before else ids)
        self.parts.append(part)

    def keep(self, values):
        try:
            values.tofile(self.file)
            self.file.flush()
        except OSError as fault:
            raise BadLine(f"the values don't fit into a file under {tempfile.gettempdir()}: {fault.strerror}") from None
        self.end += 8 * len(values)

    def all_ids(self):
        apart = {id(them): them for them in self.ids if them}
        if len(apart) == 1:
            return next(iter(apart.values()))
        return array.array("q", sorted(set().union(*apart.values())))

    def cells(self, column, every, low, high):
        """The cells of a column for the ids from place low to place high."""
        ids, values = self.ids[column], array.array("q")
        if not ids:
            return [""] * (high - low)
        if ids is every:
            self.file.seek(self.begins[column] + 8 * low)
            values.fromfile(self.file, high - low)
            return ["" if value == NONE else value for value in values]
        self.file.seek(self.begins[column])
        values.fromfile(self.file, len(ids))
        held = dict(zip(ids, values))
        return ["" if held.get(node, NONE) == NONE else held[node] for node in every[low:high]]


def titles_of(parts, windows):
    """What the columns are called: by the window where a script tells it, and where it is the only one of its ends."""
    if windows is None:
        return [part.title for part in parts]
    by_window = [f"{part.collection}.{windows.label(part.collection, part.view)}" for part in parts]
    return [title if by_window.count(title) == 1 else part.title for part, title in zip(parts, by_window)]


def write_wide(parts, out, names, windows):
    columns, programs = Columns(), {}
    seen = set()
    for part in parts:
        if part.kind != "table":
            raise BadLine("--wide wants tables: a summary has a line for each view already")
        programs[part.program] = None
        if len(programs) > 1:
            continue
        if part.title in seen:
            raise BadLine(f"the view {part.title} has two tables: give one run of it")
        seen.add(part.title)
        columns.take(part)
    if len(programs) > 1:
        raise BadLine(f"several programs were run ({', '.join(sorted(programs))}): choose one by --program")
    every = columns.all_ids() if any(columns.ids) else array.array("q")
    collections = {}
    for part in columns.parts:
        collections.setdefault(part.collection, len(collections))
    order = sorted(
        range(len(columns.parts)),
        key=lambda place: (collections[columns.parts[place].collection], position_of(columns.parts[place], windows)),
    )
    titles = titles_of([columns.parts[place] for place in order], windows)
    out.write(line_of(["id", *([names.label] if names else []), *titles]) + "\n")
    writer = csv.writer(out, lineterminator="\n")
    step = max(64, CELLS // max(1, len(order)))
    for low in range(0, len(every), step):
        high = min(low + step, len(every))
        cells = [columns.cells(place, every, low, high) for place in order]
        nodes = every[low:high]
        if names:
            for node in nodes:
                called(names, columns.parts[0], node)
            cells.insert(0, [names.of(node) for node in nodes])
        writer.writerows(zip(nodes, *cells))


def position_of(part, windows):
    return part.position if windows is None else windows.position(part.collection, part.view)


# The columns of what a statement shows: those before the places of views, and those behind them.
SHOWN = {
    "order": (("collection", "step", "view"), ("difference",)),
    "work": (("run", "step", "view"), ("segment", "work")),
    "tree": (("collection", "step", "view"), ("parent", "difference")),
    "aggregate": (("collection", "view"), ("by", "added", "source", "destination", "edges", "sum")),
}


def shown_rows(part):
    """The rows of what a statement shows, each cut before the places of views: the cells before them, and those behind."""
    for step, row in enumerate(part.rows, 1):
        if part.kind == "aggregate":
            yield (part.name, part.view), (part.by, part.added, *row)
        else:
            yield (part.name, step, row[0]), row[1:]


def collection_of(part, windows):
    """The collection of what a statement shows, by the script where it is a kept run's."""
    collection = windows.collection_of(part.name) if part.kind == "work" else part.name
    if collection is None:
        raise BadLine(f"the script {windows.path} keeps no run as {part.name}: is it another script's output?")
    return collection


def write_shown(kind, files, out, windows):
    """What a show or an aggregate printed."""
    kinds, begun = {}, False
    first, last = SHOWN[kind]
    told_of = [] if windows is None else [*(["collection"] if kind == "work" else []), *view_columns(windows)]
    for part in parts_of(files):
        kinds[part.kind] = None
        if part.kind != kind:
            continue
        if not begun:
            begun = True
            out.write(line_of([*first, *told_of, *last]) + "\n")
        collection = None if windows is None else collection_of(part, windows)
        for before, behind in shown_rows(part):
            place = [] if windows is None else of_view(windows, collection, before[-1], None)
            if windows is not None and kind == "work":
                place.insert(0, collection)
            out.write(line_of([*before, *place, *behind]) + "\n")
    if not begun:
        there = {"table": "tables", **WRITTEN_BY}
        found = f", but {' and '.join(there[kind] for kind in kinds)}" if kinds else ": it is empty"
        raise BadLine(f"there is nothing that '{WRITTEN_BY[kind]}' prints in what was read{found}")


def words():
    parser = argparse.ArgumentParser(
        description=__doc__, formatter_class=argparse.RawDescriptionHelpFormatter, prog="tables.py"
    )
    parser.add_argument("files", nargs="*", default=["-"], metavar="FILE", help="what surge printed; without one, standard input")
    parser.add_argument("--wide", action="store_true", help="a row for each node, and a column for each view")
    parser.add_argument("--program", help="the tables of this call alone, as hops(1), or of all calls of this program, as hops")
    parser.add_argument("--collection", help="the tables of this collection alone")
    parser.add_argument("--nodes", metavar="FILE", help="the nodes file: its names stand behind the ids")
    parser.add_argument("--label", metavar="COLUMN", help="the column of --nodes that has the names (name)")
    parser.add_argument("--script", metavar="FILE", help="the script that was run: it tells the windows of the views")
    parser.add_argument("--show", choices=list(SHOWN), help="what this statement printed, in place of tables")
    asked = parser.parse_args()
    if asked.label is not None and asked.nodes is None:
        parser.error("--label names a column of --nodes, which is not given")
    if asked.show and (asked.wide or asked.nodes or asked.program or asked.collection):
        parser.error(f"--show {asked.show} goes with --script alone")
    return asked


def main():
    asked = words()

    def work():
        names = Names(asked.nodes, asked.label) if asked.nodes else None
        windows = Windows(asked.script) if asked.script else None
        if asked.show:
            write_shown(asked.show, asked.files, sys.stdout, windows)
            return
        parts = chosen(asked.files, Choice(asked.program, asked.collection))
        (write_wide if asked.wide else write_long)(parts, sys.stdout, names, windows)

    told("tables.py", work)


if __name__ == "__main__":
    main()
