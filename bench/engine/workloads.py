#!/usr/bin/env python3
"""Makes the data of a workload of this bench, the same at each call.

  workloads.py FOLDER NAME

The ids in nodes.csv are 1 to the number of nodes; an edge in edges.csv has a weight w and a time t, by which views are
told. PROGRAM.gv runs a program on all views as one segment, PROGRAM-auto.gv with split auto, PROGRAM-every-1.gv with
split every 1. Where edges come and go, PROGRAM-kept.gv keeps a run that follows the edits, and PROGRAM-anew.gv makes the run
anew behind each. Where nodes have groups, aggregate.gv groups the edges of each view. The C++ sides read the views in views.txt
and views.json.
"""

import json
import os
import random
import sys
from dataclasses import dataclass, field

EVER = 2**62


@dataclass
class Workload:
    """A graph's size and edges, and views on it: the collection's items, and each view's name and ranges of times. Perhaps also
    the groups of its nodes, and files of edges that are inserted, with a predicate behind each whose edges are removed."""

    nodes: int
    edges: object
    items: str
    views: list
    rounds: int = 1000
    source: int = 1
    groups: object = None
    inserts: list = field(default_factory=list)
    removed: list = field(default_factory=list)
    rules: dict = field(init=False)

    def __post_init__(self):
        within = f"within {self.rounds} rounds"
        self.rules = {"hops": within, "dist": within, "wcc": within, "pagerank": "for 10 rounds"}

    def call(self, program):
        return {"hops": f"hops({self.source})", "dist": f"dist({self.source}, w)"}.get(program, program)


def drawer(seed):
    """A function that draws a number below its argument."""
    chance = random.Random(seed).random
    return lambda below: int(chance() * below)


def mixed_ids(nodes, draw):
    ids = list(range(1, nodes + 1))
    for last in range(nodes - 1, 0, -1):
        other = draw(last + 1)
        ids[last], ids[other] = ids[other], ids[last]
    return ids


def attached(nodes, edges, draw):
    """Edges of a graph with hubs: each leads from a node, all in turn, to an end of an edge before it, and is turned by
    a coin (Barabasi and Albert 1999, drawn as Batagelj and Brandes 2005 do)."""
    ends = []
    for edge in range(edges):
        ends.append(edge * nodes // edges)
        ends.append(ends[draw(len(ends))])
        yield (ends[-2], ends[-1]) if draw(2) else (ends[-1], ends[-2])


def windows(first, last, width, step):
    item = f"[w: window t from {first} to {last} width {width} step {step}]"
    starts = range(first, last + 1, step)
    return item, [(f"w-{number}", [(start, start + width - 1)]) for number, start in enumerate(starts, 1)]


def windowed(name, nodes, edges, times, window):
    """A graph with hubs, whose edges have times below a number."""
    draw = drawer(name)
    ids = mixed_ids(nodes, draw)
    rows = ((ids[tail], ids[head], 1 + draw(100), draw(times)) for tail, head in attached(nodes, edges, draw))
    return Workload(nodes, rows, *windows(*window), source=ids[0])


def edited(edits, edges):
    """A graph with hubs and windows as those of "windows-mid", of which edges come and go in turn: so many further ones, whose
    ends and times are drawn, and of the thousand or so of one time about as many, by their weights, which are up to 100."""
    work, draw = windowed("windows-mid", 100_000, 1_000_000, 1_000, (0, 150, 850, 10)), drawer("edits")
    for _ in range(edits):
        work.inserts.append(
            [(1 + draw(work.nodes), 1 + draw(work.nodes), 1 + draw(100), draw(1_000)) for _ in range(edges)]
        )
        work.removed.append(f"t = {draw(1_000)} and w <= {edges // 10}")
    return work


def grouped(name, groups):
    """The graph and the windows of "windows-fine", whose nodes are in groups."""
    work, draw = windowed("windows-fine", 100_000, 1_000_000, 10_000, (0, 630, 9_370, 10)), drawer(name)
    work.groups = [draw(groups) for _ in range(work.nodes)]
    return work


def path(name, nodes, ids, prefixes, cuts):
    """A path; views of its beginning, which grows, and then of all of it but one edge. An edge's time is its place."""
    draw = drawer(name)
    rows = [(ids[place], ids[place + 1], 1 + draw(9), place) for place in range(nodes - 1)]
    items, views = [], []
    for number, top in enumerate(prefixes, 1):
        items.append(f"[p-{number}: t < {top}]")
        views.append((f"p-{number}", [(0, top - 1)]))
    for number, cut in enumerate(cuts, 1):
        items.append(f"[c-{number}: t != {cut}]")
        views.append((f"c-{number}", [(0, cut - 1), (cut + 1, EVER)]))
    return Workload(nodes, rows, ", ".join(items), views, rounds=1_000_000, source=ids[0])


def long_path():
    ids = mixed_ids(20_000, drawer("ids of long-path"))
    return path("long-path", 20_000, ids, range(18_160, 20_000, 160), (19_000, 15_000, 10_000, 5_000))


WORKLOADS = {
    # 16 windows, each with 1% of all edges less than the one before, and 1% more.
    "windows-mid": lambda: windowed("windows-mid", 100_000, 1_000_000, 1_000, (0, 150, 850, 10)),
    "windows-large": lambda: windowed("windows-large", 1_000_000, 4_000_000, 1_000, (0, 150, 850, 10)),
    # 64 windows and 0.1%.
    "windows-fine": lambda: windowed("windows-fine", 100_000, 1_000_000, 10_000, (0, 630, 9_370, 10)),
    # The windows of windows-mid, behind ten files of so many edges and ten removals of about as many.
    "edits": lambda: edited(10, 10),
    "edits-100": lambda: edited(10, 100),
    "edits-1000": lambda: edited(10, 1_000),
    # The windows of windows-fine, over nodes in 32 groups.
    "aggregates": lambda: grouped("aggregates", 32),
    # 16 views that have no edge in common.
    "disjoint": lambda: windowed("disjoint", 20_000, 960_000, 16, (0, 15, 1, 1)),
    # Thousands of rounds; the second with ids that rise along the path, so that least ids change in each round.
    "long-path": long_path,
    "ordered-path": lambda: path("ordered-path", 2_000, range(1, 2_001), (1_900, 1_950, 1_999), (1_000,)),
}


def write(folder, name, text):
    with open(os.path.join(folder, name), "w", newline="\n") as file:
        file.write(text)


def write_edges(folder, name, rows):
    with open(os.path.join(folder, name), "w", newline="\n") as file:
        file.write("src,dst,w:int,t:int\n")
        file.writelines("%d,%d,%d,%d\n" % row for row in rows)


def write_data(folder, work):
    cells = [""] * work.nodes if work.groups is None else [f",{group}" for group in work.groups]
    header = "id\n" if work.groups is None else "id,g:int\n"
    write(folder, "nodes.csv", header + "".join(f"{number}{cell}\n" for number, cell in enumerate(cells, 1)))
    write_edges(folder, "edges.csv", work.edges)
    for number, rows in enumerate(work.inserts, 1):
        write_edges(folder, f"more-{number}.csv", rows)


def edits_of(work):
    for number, rule in enumerate(work.removed, 1):
        yield f"insert edges 'more-{number}.csv';\n"
        yield f"remove edges where {rule};\n"


def write_scripts(folder, work):
    load = "load graph S nodes 'nodes.csv' edges 'edges.csv';\n"
    collection = f"create view collection W on S {work.items};\n"
    for program, rule in work.rules.items():
        begun = f"run {work.call(program)} on W {rule}"
        for name, split in (("", "none"), ("-auto", "auto"), ("-every-1", "every 1")):
            write(folder, f"{program}{name}.gv", load + collection + f"{begun} split {split};\n")
        edits = list(edits_of(work))
        if edits:
            first = "form 2;\n" + load + collection
            write(folder, f"{program}-kept.gv", first + f"{begun} keep as K;\n" + "".join(edits))
            write(folder, f"{program}-anew.gv", first + f"{begun};\n" + "".join(f"{it}{begun};\n" for it in edits))
    write(folder, "aggregate.gv", "form 2;\n" + load + collection + "aggregate W group by g sum w;\n")


def write_views(folder, work):
    """views.txt is for plain.cpp, views.json for the C++ programs that are handed in."""
    lines = [f"{work.source} {work.rounds} {work.nodes}"]
    for name, ranges in work.views:
        lines.append(" ".join([name] + [f"{low} {high}" for low, high in ranges]))
    write(folder, "views.txt", "\n".join(lines) + "\n")
    programs = {}
    for program, rule in work.rules.items():
        words = rule.split()
        programs[program] = {"call": work.call(program), "rule": words[0], "rounds": int(words[1])}
    views = [{"name": name, "column": "t", "ranges": ranges} for name, ranges in work.views]
    told = {"collection": "W", "source": work.source, "weight": "w", "programs": programs, "views": views}
    write(folder, "views.json", json.dumps(told) + "\n")


def main():
    folder, name = sys.argv[1:]
    work = WORKLOADS[name]()
    os.makedirs(folder, exist_ok=True)
    write_data(folder, work)
    write_scripts(folder, work)
    write_views(folder, work)


if __name__ == "__main__":
    main()
