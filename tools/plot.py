#!/usr/bin/env python3
"""Draws how values change over the views of a collection, from the tables that surge prints.

With --nodes a line for each of these nodes; nodes whose values are the same in all views are one line, and beside ten lines
the others are grey. Without it the distribution of the values in each view, as boxes from the lower to the upper quarter with
the middle value, and the number of nodes that have a value; of more than 20 views a line of the middle values in a band. Of wcc
the number of components and the size of the largest. A value that is none is left out. It wants matplotlib.

  ./surge --script examples/by_year/s.gv | tools/plot.py --out spread.png
  ./surge --script examples/by_year/s.gv | tools/plot.py --nodes 3,4,5 --script examples/by_year/s.gv --out nodes.png
"""

import argparse
import collections
import os
import re
import sys

sys.path.insert(0, os.path.dirname(os.path.abspath(__file__)))
import reading

INK, MUTED, BLUE, RED = "#222222", "#666666", "#1b6ca8", "#b5482a"
KINDS = ("png", "svg", "pdf", "jpg", "jpeg")
# More lines, boxes and names on an axis than a reader can part.
MOST_LINES, MOST_BOXES, MOST_NAMES = 10, 20, 16


def drawing():
    """matplotlib's pyplot, without a screen."""
    try:
        import matplotlib

        matplotlib.use("Agg")
        import matplotlib.pyplot as pyplot
    except ImportError:
        raise reading.BadLine(
            f"it wants matplotlib, which {sys.executable} does not have (pip install matplotlib, or the system's python3-matplotlib)"
        ) from None
    return pyplot


def chosen(tables):
    """The tables of one run of one collection, in the order of its views."""
    names = sorted({table.collection for table in tables})
    if len(names) > 1:
        raise reading.BadLine(f"there are tables of several collections ({', '.join(names)}): choose one by --collection")
    programs = sorted({table.program for table in tables})
    if len(programs) > 1:
        raise reading.BadLine(f"several programs were run ({', '.join(programs)}): choose one by --program")
    views = [table.view for table in tables]
    if len(set(views)) < len(views):
        raise reading.BadLine(f"a view has two tables: give one run of {programs[0]}")
    return sorted(tables, key=lambda table: table.position)


class Axis:
    """The views along the axis: what they are called, and which follow each other in one window."""

    def __init__(self, tables, windows):
        self.tables = tables
        views = [(table.collection, table.view) for table in tables]
        self.names = [windows.label(*view) if windows else view[1] for view in views]
        if windows:
            made = [windows.window(*view) for view in views]
            self.families = [(re.sub(r"-[0-9]+$", "", view[1]) if it else view[1]) for view, it in zip(views, made)]
        else:
            stems = [re.sub(r"-[0-9]+$", "", view[1]) for view in views]
            counts = collections.Counter(stems)
            self.families = [stem if counts[stem] > 1 else view[1] for stem, view in zip(stems, views)]

    def runs(self):
        """The places that one line joins: neighbours of one window, and where there is no window all."""
        if len(set(self.families)) == len(self.families):
            return [list(range(len(self.families)))]
        runs = []
        for place, family in enumerate(self.families):
            if place and family == self.families[place - 1]:
                runs[-1].append(place)
            else:
                runs.append([place])
        return runs

    def draw(self, axes):
        every = -(-len(self.names) // MOST_NAMES)
        places = list(range(0, len(self.names), every))
        names = [self.names[place] for place in places]
        is_long = sum(len(name) + 1 for name in names) > 60
        axes.set_xticks(places)
        axes.set_xticklabels(names, rotation=45 if is_long else 0, ha="right" if is_long else "center")
        axes.set_xlim(-0.5, len(self.names) - 0.5)


def line(axes, axis, values, **how):
    """A line through the values of the views, with a gap where one is none and between windows."""
    label = how.pop("label", None)
    for run in axis.runs():
        ours = [float("nan") if values[place] is None else values[place] for place in run]
        axes.plot(run, ours, label=label, **how)
        label = None


def nodes_of(text, tables, names):
    known = set(tables[0].ids).union(*[table.ids for table in tables[1:] if table.ids is not tables[0].ids])
    nodes = []
    for part in text.split(","):
        part = part.strip()
        if part.isascii() and part.isdigit():
            node = int(part)
        elif names:
            node = names.id_of(part)
        else:
            raise reading.BadLine(f"--nodes wants ids parted by commas, or a nodes file beside names, not {part!r}")
        if node not in known:
            raise reading.BadLine(f"no table has the node {node}")
        nodes.append(node)
    return nodes


def lines_of(tables, nodes):
    """The values of the nodes over the views, each list with the nodes that have it."""
    lines = collections.OrderedDict()
    columns = [dict(zip(table.ids, table.values)) for table in tables]
    for node in dict.fromkeys(nodes):
        values = tuple(None if column.get(node, reading.NONE) == reading.NONE else column[node] for column in columns)
        lines.setdefault(values, []).append(node)
    return lines


def draw_nodes(axes, axis, nodes, title_of):
    lines = lines_of(axis.tables, nodes)
    # (those that change most are told by colours)
    spread = lambda values: len(set(values))
    coloured = sorted(lines, key=spread, reverse=True)[:MOST_LINES] if len(lines) > MOST_LINES else list(lines)
    for values in lines:
        if values not in coloured:
            line(axes, axis, values, color="#bbbbbb", linewidth=1)
    for place, values in enumerate(it for it in lines if it in coloured):
        them = lines[values]
        label = ", ".join(title_of(node) for node in them[:3]) + (f" and {len(them) - 3} more" if len(them) > 3 else "")
        line(axes, axis, values, marker="os^Dv<>ph*"[place % 10], linewidth=1.6, markersize=5, color=f"C{place % 10}", label=label)
    if len(lines) > MOST_LINES:
        line(axes, axis, [None] * len(axis.names), color="#bbbbbb", linewidth=1, label=f"{sum(len(lines[it]) for it in lines if it not in coloured)} others")
    axes.legend(frameon=False, loc="center left", bbox_to_anchor=(1.01, 0.5))


def held(table):
    return [value for value in table.values if value != reading.NONE]


def draw_components(axes, axis, others):
    """How many components each view has, and how many nodes its largest."""
    sizes = [collections.Counter(held(table)).values() for table in axis.tables]
    line(axes, axis, [len(it) or None for it in sizes], marker="o", color=BLUE, label="components")
    line(others, axis, [max(it, default=None) for it in sizes], marker="s", color=RED, label="nodes of the largest")
    for its, colour, name in ((axes, BLUE, "components"), (others, RED, "nodes of the largest component")):
        its.set_ylabel(name, color=colour)
        its.tick_params(axis="y", colors=colour)
        its.set_ylim(bottom=0)
        its.yaxis.get_major_locator().set_params(integer=True)


def draw_spread(axes, axis):
    values = [sorted(held(table)) for table in axis.tables]
    if len(values) > MOST_BOXES:
        draw_band(axes, axis, values)
    else:
        draw_boxes(axes, values)
        for place, them in enumerate(values):
            text = "unsettled" if axis.tables[place].is_unsettled else len(them)
            how = {"xycoords": ("data", "axes fraction"), "xytext": (0, 4), "textcoords": "offset points"}
            axes.annotate(text, (place, 1.0), ha="center", fontsize=8, color=MUTED, **how)


def draw_boxes(axes, values):
    there = [(place, them) for place, them in enumerate(values) if them]
    if there:
        axes.boxplot(
            [them for _, them in there],
            positions=[place for place, _ in there],
            widths=0.5,
            showfliers=False,
            whis=(0, 100),
            medianprops={"color": BLUE, "linewidth": 2},
            boxprops={"color": INK},
            whiskerprops={"color": MUTED},
            capprops={"color": MUTED},
        )


def draw_band(axes, axis, values):
    """The middle values as a line, in a band from the lower to the upper quarter, in a pale one from the least to the greatest."""
    at = lambda part: [them[min(len(them) - 1, int(part * len(them)))] if them else None for them in values]
    least, lower, middle, upper, greatest = (at(part) for part in (0, 0.25, 0.5, 0.75, 1))
    for run in axis.runs():
        there = [place for place in run if values[place]]
        for low, high, alpha in ((least, greatest, 0.12), (lower, upper, 0.3)):
            axes.fill_between(there, [low[it] for it in there], [high[it] for it in there], color=BLUE, alpha=alpha, linewidth=0)
    line(axes, axis, middle, color=BLUE, linewidth=2)


def draw(tables, asked):
    windows = reading.Windows(asked.script) if asked.script else None
    names = reading.Names(asked.names, asked.label) if asked.names else None
    nodes = nodes_of(asked.ids, tables, names) if asked.ids else []
    axis = Axis(tables, windows)
    pyplot = drawing()
    figure, axes = pyplot.subplots(figsize=(min(14, max(5.5, 0.55 * len(tables) + 2.5)), 3.6))
    is_components = tables[0].program == "wcc" and not nodes
    if nodes:
        draw_nodes(axes, axis, nodes, names.title if names else lambda node: f"node {node}")
    elif is_components:
        draw_components(axes, axis, axes.twinx())
    else:
        draw_spread(axes, axis)
    axis.draw(axes)
    above = "" if nodes or is_components or len(tables) > MOST_BOXES else f"; above: how many of {max(len(it.ids) for it in tables)} nodes have a value"
    axes.set_xlabel(f"views of {tables[0].collection}{above}", color=MUTED)
    if not is_components:
        axes.set_ylabel(tables[0].program, color=MUTED)
        if asked.log:
            is_positive = all(value > 0 for table in tables for value in held(table))
            axes.set_yscale("log" if is_positive else "symlog")
        else:
            axes.yaxis.get_major_locator().set_params(integer=True)
        axes.spines["right"].set_visible(False)
    if asked.title:
        axes.set_title(asked.title, loc="left", color=INK, pad=18)
    axes.spines["top"].set_visible(False)
    axes.grid(axis="y", color="#dddddd", linewidth=0.6)
    axes.set_axisbelow(True)
    kind = os.path.splitext(asked.out)[1][1:].lower()
    plain = {"metadata": {"Software": None}} if kind == "png" else {"metadata": {"Date": None}} if kind == "svg" else {}
    figure.savefig(asked.out, format=kind, dpi=120, bbox_inches="tight", **plain)


def words():
    parser = argparse.ArgumentParser(description=__doc__, formatter_class=argparse.RawDescriptionHelpFormatter, prog="plot.py")
    parser.add_argument("files", nargs="*", default=["-"], metavar="FILE", help="what surge printed; without one, standard input")
    parser.add_argument("--out", required=True, help=f"the file to write: its ending says of which kind ({', '.join(KINDS)})")
    parser.add_argument("--nodes", action="append", default=[], help="ids or names of nodes, parted by commas; or the nodes file that has their names (both may be given)")
    parser.add_argument("--label", help="the column of the nodes file that has the names (name)")
    parser.add_argument("--script", help="the script that was run: windows are called by what they hold")
    parser.add_argument("--collection", help="the views of this collection alone")
    parser.add_argument("--program", help="the tables of this call alone, as hops(1), or of all calls of this program, as hops")
    parser.add_argument("--log", action="store_true", help="values along a logarithmic axis, as ranks want")
    parser.add_argument("--title", help="what stands above the picture")
    return parser.parse_args()


def main():
    asked = words()
    is_file = lambda it: it.endswith((".csv", ".csv.gz")) or os.path.isfile(it)
    asked.names = next((it for it in asked.nodes if is_file(it)), None)
    asked.ids = ",".join(it for it in asked.nodes if not is_file(it))

    def work():
        kind = os.path.splitext(asked.out)[1][1:].lower()
        if kind not in KINDS:
            raise reading.BadLine(f"--out wants a file that ends in one of {', '.join('.' + it for it in KINDS)}, not {asked.out!r}")
        tables = chosen(reading.read_tables(asked.files, asked.program, asked.collection))
        draw(tables, asked)

    reading.told("plot.py", work)


if __name__ == "__main__":
    main()
