#!/usr/bin/env python3
"""Makes one page of what surge printed, for a browser; it needs no network.

  ./surge --script s.gv | tools/page.py --script s.gv --nodes nodes.csv > page.html

The page has a slider through the views of each run, a search for nodes by id or name with their values over all views, how the values of a view
are spread, what changed most from the view before, and the table itself. It holds differences between neighbouring views, and no tables.
"""

import argparse
import base64
import html
import json
import os
import sys

sys.path.insert(0, os.path.dirname(os.path.abspath(__file__)))
import reading

TEMPLATE = os.path.join(os.path.dirname(os.path.abspath(__file__)), "page.html")
# A browser's numbers are exact up to here.
EXACT = 2**53


def packed(numbers):
    """Whole numbers as bytes of seven bits each, the least first, the sign in the lowest bit, in base 64."""
    out = bytearray()
    for number in numbers:
        left = 2 * number if number >= 0 else -2 * number - 1
        while left > 127:
            out.append(left & 127 | 128)
            left >>= 7
        out.append(left)
    return base64.b64encode(bytes(out)).decode("ascii")


def gaps(numbers):
    """Rising numbers as the first and then how far each is from the one before."""
    before = 0
    for number in numbers:
        yield number - before
        before = number


class Run:
    """The tables of one call on one collection: the first in full, of each further one what differs from the one before."""

    def __init__(self, collection, program):
        self.collection, self.program, self.views = collection, program, []
        self.ids, self.values, self.is_large = None, None, False

    def add(self, part, label):
        ids, values = [], []
        for node, value in part.rows:
            ids.append(node)
            values.append(value)
            self.is_large = self.is_large or value is not None and abs(value) > EXACT
        view = {"name": part.view, "label": label, "outcome": part.outcome}
        if part.outcome == "unsettled":
            # (it has no values: the page shows it as a view in which all are none)
            ids, values = self.ids or [], [None] * len(self.ids or [])
        if self.ids is None or not self.views or (not self.ids and ids):
            self.ids, self.values = ids, [None] * len(ids)
        elif ids != self.ids:
            raise reading.BadLine(f"{part.place}: the tables of {self.program} on {self.collection} aren't of the same nodes")
        places = [place for place, value in enumerate(values) if value != self.values[place]]
        view["places"] = packed(gaps(places))
        view["given"] = packed(0 if values[it] is None else 1 for it in places)
        view["values"] = packed(values[it] for it in places if values[it] is not None)
        view["count"] = len(places)
        self.values = values
        self.views.append(view)

    def told(self):
        return {"collection": self.collection, "program": self.program, "isLarge": self.is_large, "ids": packed(gaps(self.ids or [])), "views": self.views}


def runs_of(files, choice, windows):
    """Returns the runs in the order of the text. A later table of the same view begins a run of its own."""
    runs, open_runs = [], {}
    for part in reading.parts_of(files):
        if part.kind != "table" or not choice.takes(part):
            choice.kinds[part.kind] = None
            continue
        key = part.collection, part.program
        run = open_runs.get(key)
        if run is None or any(it["name"] == part.view for it in run.views):
            run = open_runs[key] = Run(*key)
            runs.append(run)
        run.add(part, windows.label(part.collection, part.view) if windows else part.view)
    if not runs:
        raise reading.BadLine(choice.nothing())
    return runs


def names_of(names, runs):
    """Returns the names of the nodes that stand in the tables, by their place among the first run's ids, or None where none are given."""
    return [names.of(it) for it in runs[0].ids or []] if names and all(it.ids == runs[0].ids for it in runs) else None


def page(words):
    names = reading.Names(words.nodes, words.label) if words.nodes else None
    windows = reading.Windows(words.script) if words.script else None
    runs = runs_of(words.files or ["-"], reading.Choice(words.program, words.collection), windows)
    data = {"runs": [it.told() for it in runs], "names": names_of(names, runs)}
    with open(TEMPLATE, encoding="utf-8") as it:
        template = it.read()
    # (a name may hold what ends a script in a page)
    text = json.dumps(data, separators=(",", ":"), ensure_ascii=True).replace("<", "\\u003c")
    sys.stdout.write(template.replace("@TITLE@", html.escape(words.title)).replace("@DATA@", text))


def main():
    parser = argparse.ArgumentParser(description=__doc__, formatter_class=argparse.RawDescriptionHelpFormatter)
    parser.add_argument("files", nargs="*", metavar="FILE", help="what surge printed; without one, standard input")
    parser.add_argument("--nodes", metavar="FILE", help="the nodes file: its names stand beside the ids")
    parser.add_argument("--label", metavar="COLUMN", help="the column of --nodes that has the names (name)")
    parser.add_argument("--script", metavar="FILE", help="the script that was run: it tells the windows of the views")
    parser.add_argument("--program", metavar="PROGRAM", help="the tables of this call alone, as hops(1), or of all calls of this program, as hops")
    parser.add_argument("--collection", metavar="COLLECTION", help="the tables of this collection alone")
    parser.add_argument("--title", default="surge", help="the title of the page")
    words = parser.parse_args()
    return reading.told("page.py", lambda: page(words))


if __name__ == "__main__":
    sys.exit(main())
