#!/usr/bin/env python3
"""What surge has to print, worked out plainly and slowly from what docs/LANGUAGE.md and docs/DATA.md say.

    oracle.py (--script FILE | --sample N | --replay FILE) [--mode run|check|summary|changes] [--turns N]

It knows no faults: the script and its files are taken to be right (faults.py knows them). Each view is run alone by synchronous
rounds; order, splits and turns change nothing but what `show` prints. Python's standard library is all that it needs.
"""

import argparse
import sys
import tempfile
from collections import namedtuple

import changes
import printing
from graph import graph_of
from order import distances, greedy, tree_order
from predicates import edges_of, holds
from rounds import Lone, phases_answer
from sample import SCRIPT, write_sample
from script import Aggregate, Append, Collection, Insert, Program, Remove, Rule, Run, ShowOrder, ShowTree, ShowWork, View, script_of
from tokens import NotAScript
from values import meaning
from work import Segments

BUILT_IN = """
program hops(s) { along out; start if id = s then 0 else none; send value + 1; gather min; update min(start, gathered); }
program dist(s) { along out; start if id = s then 0 else none; send value + edge.w; gather min; update min(start, gathered); }
program wcc { along both; start id; send value; gather min; update min(start, gathered); }
program pagerank { along out; start 1000000; send value / outdeg; gather sum; update 150000 + gathered * 850000 / 1000000; }
"""

Kept = namedtuple("Kept", "name statement collection order lones segments")


class Views:
    """The views of a collection, in declared order: their names, their predicates and the edges that they have now."""

    def __init__(self, rules):
        self.rules = rules
        self.names = []
        self.own = []
        self.edges = []


class Oracle:
    """Does the statements of a script one after the other, and keeps what was written."""

    def __init__(self, script, graph, mode):
        self.script = script
        self.graph = graph
        self.mode = mode
        # (in a change text, the values of the table before, of the same run in the same statement)
        self.before = None
        built_in = script_of(b"load graph G nodes 'n' edges 'e';" + BUILT_IN.encode())
        self.programs = {it.name: it for it in built_in.statements}
        self.rules = {script.graph: []}
        self.collections = {}
        self.kept = []
        self.written = []
        # (the edges that there are now, and how many files they came with)
        self.live = set(range(graph.groups[0]))
        self.files = 1

    def text(self):
        for statement in self.script.statements:
            self.do(statement)
        return "".join(self.written)

    def do(self, statement):
        if self.mode == "changes" and isinstance(statement, (ShowOrder, ShowWork, ShowTree, Aggregate)):
            return
        if isinstance(statement, View):
            self.rules[statement.name] = [*self.rules[statement.base], statement.rule]
        elif isinstance(statement, Collection):
            self.collections[statement.name] = Views(self.rules[statement.base])
            self.add_views(statement.name, statement.items)
        elif isinstance(statement, Program):
            self.programs[statement.name] = statement
        elif isinstance(statement, Run):
            self.run(statement)
        elif isinstance(statement, Append):
            self.append(statement)
        elif isinstance(statement, ShowOrder):
            self.show_order(statement.name)
        elif isinstance(statement, ShowWork):
            self.show_work(statement.name)
        elif isinstance(statement, ShowTree):
            self.show_tree(statement.name)
        elif isinstance(statement, Aggregate):
            self.aggregate(statement)
        elif isinstance(statement, Insert):
            first = sum(self.graph.groups[: self.files])
            self.edit(self.live | set(range(first, first + self.graph.groups[self.files])))
            self.files += 1
        elif isinstance(statement, Remove):
            self.edit({edge for edge in self.live if not holds(statement.rule, self.graph, edge)})

    def add_views(self, name, items):
        """Adds the views of some items, and answers their numbers."""
        views = self.collections[name]
        first = len(views.names)
        for item in items:
            for view, rule in views_of(item):
                views.names.append(view)
                views.own.append(rule)
                views.edges.append(edges_of([*views.rules, rule], self.graph, self.live))
        return range(first, len(views.names))

    def meant(self, call):
        """What the program of a call means."""
        program = self.programs[call.name]
        numbers = [value for kind, value in call.arguments if kind == "number"]
        if call.name == "dist":
            column = call.arguments[1][1]
            program = program._replace(send=("sum", ("word", "value"), [("+", ("edge", column))]))
        return meaning(program, numbers, self.graph)

    def run(self, statement):
        views = self.collections[statement.target]
        split = "none" if statement.split is None else statement.split
        kept = Kept(statement.keep, statement, statement.target, [], {}, Segments(split, statement.rounds))
        self.run_views(kept, range(len(views.names)))
        if statement.keep:
            self.kept.append(kept)

    def run_views(self, kept, new):
        """Runs some views of a run, and writes their tables in declared order."""
        views = self.collections[kept.collection]
        if kept.statement.order == "declared":
            order = list(new)
        elif kept.statement.order == "tree" and not kept.order:
            order = [view for view, _ in tree_order([views.edges[view] for view in new])[0]]
        else:
            order = greedy(views.edges, kept.order[-1] if kept.order else None, new)
        self.run_alone(kept, order)
        kept.order.extend(order)
        self.tables(kept, new)

    def run_alone(self, kept, views):
        meant = self.meant(kept.statement.call)
        for view in views:
            kept.lones[view] = Lone(meant, self.collections[kept.collection].edges[view], self.graph)

    def edit(self, live):
        """Edges come or go: the tables of all kept runs are written again."""
        self.live = live
        for views in self.collections.values():
            views.edges = [edges_of([*views.rules, rule], self.graph, live) for rule in views.own]
        for kept in self.kept:
            views = range(len(self.collections[kept.collection].names))
            self.run_alone(kept, views)
            self.tables(kept, views)

    def tables(self, kept, views):
        """The tables of a run in a statement."""
        self.before = None
        for view in views:
            self.table(kept, view)

    def table(self, kept, view):
        views, statement = self.collections[kept.collection], kept.statement
        if statement.phases is None:
            answer = kept.lones[view].answer(statement.within, statement.rounds)
        else:
            answer = phases_answer(kept.lones[view], statement.rounds, statement.phases)
        head = f"{kept.collection}.{views.names[view]} {printing.call(statement.call)} {answer.outcome}"
        if self.mode == "summary":
            self.written.append(f"view {head}" + summary(len(views.edges[view]), answer.values) + "\n")
            return
        nodes, word = self.graph.by_id, "view"
        if self.mode == "changes" and self.before is not None and answer.values is not None:
            nodes, word = [node for node in nodes if answer.values[node] != self.before[node]], "change"
        lines = [f"{word} {head}"]
        if answer.values is not None:
            lines += [f"{self.graph.ids[node]},{shown(answer.values[node])}" for node in nodes]
        self.before = answer.values
        self.written.append("".join(line + "\n" for line in [*lines, "end"]))

    def append(self, statement):
        new = self.add_views(statement.target, statement.items)
        for kept in self.kept:
            if kept.collection == statement.target:
                self.run_views(kept, new)

    def show_order(self, name):
        views = self.collections[name]
        rows = distances(views.edges, greedy(views.edges, None, range(len(views.names))))
        lines = [f"order {name} {sum(step for _, step in rows)}"]
        lines += [f"{views.names[view]} {step}" for view, step in rows]
        self.written.append("".join(line + "\n" for line in [*lines, "end"]))

    def show_tree(self, name):
        views = self.collections[name]
        walk, weight, length = tree_order(views.edges)
        lines = [f"tree {name} {weight} {length}"]
        for view, parent in walk:
            step = len(set(views.edges[view]) ^ set([] if parent is None else views.edges[parent]))
            lines.append(f"{views.names[view]} {'-' if parent is None else views.names[parent]} {step}")
        self.written.append("".join(line + "\n" for line in [*lines, "end"]))

    def aggregate(self, statement):
        views = self.collections[statement.target]
        by = f" by {printing.prop(statement.by)}" + ("" if statement.sum is None else f" sum {printing.prop(statement.sum)}")
        cells = self.graph.node_cells[statement.by]
        for name, edges in zip(views.names, views.edges):
            groups = {}
            for edge in edges:
                source, target = self.graph.ends[edge]
                groups.setdefault((group_key(cells[source]), group_key(cells[target])), []).append(edge)
            lines = [f"aggregate {statement.target}.{name}{by}"]
            for (source, target), them in sorted(groups.items()):
                row = [group_text(source), group_text(target), str(len(them))]
                if statement.sum is not None:
                    row.append(str(sum(self.graph.edge_cells[statement.sum][edge] or 0 for edge in them)))
                lines.append(",".join(row))
            self.written.append("".join(line + "\n" for line in [*lines, "end"]))

    def show_work(self, name):
        kept = next(it for it in self.kept if it.name == name)
        views = self.collections[kept.collection]
        for view in kept.order[len(kept.segments.rows) :]:
            kept.segments.add(view, kept.lones[view], views.edges[view])
        lines = [f"work {name}"]
        lines += [f"{views.names[view]} {segment} {work}" for view, segment, work in kept.segments.rows]
        self.written.append("".join(line + "\n" for line in [*lines, "end"]))


def views_of(item):
    """The views that an item makes, with their predicates."""
    if isinstance(item, Rule):
        yield item.name, item.rule
        return
    for place, low in enumerate(range(item.first, item.last + 1, item.step), 1):
        column = ("edge", item.property)
        yield f"{item.name}-{place}", (
            "and",
            [("compare", column, ">=", ("number", low)), ("compare", column, "<", ("number", low + item.width))],
        )


def group_key(cell):
    """A cell as it is compared: an absent one is least, and a text goes by its bytes."""
    return (0, 0) if cell is None else (1, cell.encode("utf-8") if isinstance(cell, str) else cell)


def group_text(key):
    present, cell = key
    if not present:
        return "-"
    if isinstance(cell, bool):
        return "true" if cell else "false"
    return str(cell) if isinstance(cell, int) else printing.string(cell.decode("utf-8"))


def shown(value):
    return "-" if value is None else str(value)


def summary(edges, values):
    if values is None:
        return f" edges {edges}"
    numbers = [it for it in values if it is not None]
    return f" edges {edges} values {len(numbers)} sum {sum(numbers)}"


def words(given):
    parser = argparse.ArgumentParser(description=__doc__.split("\n", maxsplit=1)[0])
    source = parser.add_mutually_exclusive_group(required=True)
    source.add_argument("--script")
    source.add_argument("--sample", type=int)
    source.add_argument("--replay")
    parser.add_argument("--mode", choices=("run", "check", "summary", "changes"), default="run")
    parser.add_argument("--turns", type=int)
    # (a last word of two dashes ends the options, and Python's releases differ in whether they drop it)
    return parser.parse_args(given[:-1] if given[-1:] == ["--"] else given)


def answer(asked):
    if asked.replay is not None:
        with open(asked.replay, "rb") as file:
            return changes.tables_text(changes.read(file.read()))
    return of_script(asked).encode("utf-8")


def of_script(asked):
    if asked.sample is None:
        with open(asked.script, "rb") as file:
            script = script_of(file.read())
        graph = graph_of(script.nodes, script.edges, [it.file for it in script.statements if isinstance(it, Insert)])
    else:
        script = script_of(SCRIPT)
        with tempfile.TemporaryDirectory() as folder:
            write_sample(asked.sample, folder)
            graph = graph_of(f"{folder}/nodes.csv", f"{folder}/edges.csv")
    if asked.mode == "check":
        return printing.canonical(script)
    return Oracle(script, graph, asked.mode).text()


def main():
    try:
        text = answer(words(sys.argv[1:]))
    except NotAScript as why:
        sys.exit(f"oracle.py: this is no script: {why}")
    sys.stdout.buffer.write(text)


if __name__ == "__main__":
    main()
