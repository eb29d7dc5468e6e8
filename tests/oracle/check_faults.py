"""The first fault of a script against the graph that it loads (docs/LANGUAGE.md, "Faults against a graph")."""

from collections import namedtuple

from script import Aggregate, Append, Collection, Insert, Program, Remove, Rule, Run, ShowOrder, ShowTree, ShowWork, View
from tokens import MOST

Fault = namedtuple("Fault", "kind statement")

BUILT_IN = {"hops": ("number",), "dist": ("number", "property"), "wcc": (), "pagerank": ()}
MOST_VIEWS = 1024
MOST_ROUNDS = 1_000_000
MOST_PHASES = 1_000
MOST_KEPT = 64
# What the parts of a program may name, beside numbers, none and parameters.
OF_PART = {
    "start": ("id", "node"),
    "send": ("id", "value", "outdeg", "edge"),
    "update": ("id", "start", "value", "gathered", "count"),
}


class Wrong(Exception):
    """What is wrong with a statement; its kind is the one argument."""


def want(holds, kind):
    if not holds:
        raise Wrong(kind)


class Check:
    """What is known behind the statements so far. node_kinds and edge_kinds give the kind of each property."""

    def __init__(self, form, last_edit, node_kinds, edge_kinds):
        self.form = form
        # (the number of the last statement by which edges come or go)
        self.last_edit = last_edit
        self.kinds = {"edge": edge_kinds, "src": node_kinds, "dst": node_kinds, "node": node_kinds}
        # (each name with what it stands for: a call of a program wants these arguments, a collection has these views)
        self.programs = dict(BUILT_IN)
        self.bases = set()
        self.collections = {}
        # (each kept run with the number of its statement)
        self.kept = {}

    def want_free(self, name):
        taken = (self.programs, self.bases, self.collections, self.kept)
        want(not any(name in it for it in taken), "RepeatedName")

    def load(self, name):
        self.want_free(name)
        self.bases.add(name)

    def statement(self, it, number):
        if needs_second(it):
            want(self.form == 2, "NeedsForm")
        if isinstance(it, View):
            self.want_free(it.name)
            want(it.base in self.bases, "UnknownName")
            self.predicate(it.rule)
            self.bases.add(it.name)
        elif isinstance(it, Collection):
            self.want_free(it.name)
            want(it.base in self.bases, "UnknownName")
            self.collections[it.name] = self.with_items([], it.items)
        elif isinstance(it, Program):
            self.program(it)
        elif isinstance(it, Run):
            self.run(it, number)
        elif isinstance(it, Append):
            want(it.target in self.collections, "UnknownName")
            self.collections[it.target] = self.with_items(self.collections[it.target], it.items)
        elif isinstance(it, (ShowOrder, ShowTree)):
            want(it.name in self.collections, "UnknownName")
        elif isinstance(it, ShowWork):
            want(it.name in self.kept, "UnknownName")
            want(self.kept[it.name] > self.last_edit, "WorkEdited")
        elif isinstance(it, Remove):
            self.predicate(it.rule)
        elif isinstance(it, Aggregate):
            want(it.target in self.collections, "UnknownName")
            want(it.by in self.kinds["node"], "UnknownProperty")
            if it.sum is not None:
                self.want_int("edge", it.sum)

    # Views

    def with_items(self, views, items):
        """The names of the views behind these and behind the items."""
        views = list(views)
        taken = set(views)

        def add(name):
            want(len(views) < MOST_VIEWS, "TooManyViews")
            views.append(name)
            taken.add(name)

        for item in items:
            if isinstance(item, Rule):
                want(item.name not in taken, "RepeatedName")
                self.predicate(item.rule)
                add(item.name)
                continue
            self.want_int("edge", item.property)
            are_right = item.width > 0 and item.step > 0 and item.first <= item.last and item.last + item.width <= MOST
            want(are_right, "WrongArguments")
            for place, _ in enumerate(range(item.first, item.last + 1, item.step), 1):
                want(f"{item.name}-{place}" not in taken, "RepeatedName")
                add(f"{item.name}-{place}")
        return views

    def want_int(self, of, name):
        want(name in self.kinds[of], "UnknownProperty")
        want(self.kinds[of][name] == "int", "WrongType")

    def predicate(self, tree):
        kind = tree[0]
        if kind in ("or", "and"):
            for member in tree[1]:
                self.predicate(member)
        elif kind == "not":
            self.predicate(tree[1])
        elif kind == "absent":
            self.kind_of(tree[1])
        elif kind == "compare":
            left, right = self.kind_of(tree[1]), self.kind_of(tree[3])
            want(left == right and (left != "bool" or tree[2] in ("=", "!=")), "WrongType")

    def kind_of(self, operand):
        kind, value = operand
        if kind in ("number", "string", "bool"):
            return {"number": "int", "string": "str", "bool": "bool"}[kind]
        if value is None:
            return "int"
        want(value in self.kinds[kind], "UnknownProperty")
        return self.kinds[kind][value]

    # Programs

    def program(self, it):
        self.want_free(it.name)
        for place, name in enumerate(it.parameters):
            want(name not in it.parameters[:place], "RepeatedName")
        for part in ("start", "send", "update"):
            self.expression(getattr(it, part), OF_PART[part], it.parameters)
        self.programs[it.name] = ("number",) * len(it.parameters)

    def expression(self, tree, words, parameters):
        kind = tree[0]
        if kind == "word":
            want(tree[1] == "none" or tree[1] in words, "UnknownName")
        elif kind == "parameter":
            want(tree[1] in parameters, "UnknownName")
        elif kind in ("edge", "node"):
            want(kind in words, "UnknownName")
            self.want_int(kind, tree[1])
        for part in parts_of(tree):
            self.expression(part, words, parameters)

    # Runs

    def run(self, it, number):
        want(it.call.name in self.programs, "UnknownName")
        want(it.target in self.collections, "UnknownName")
        self.arguments(self.programs[it.call.name], it.call.arguments)
        want(1 <= it.rounds <= MOST_ROUNDS, "BadRounds")
        want(it.phases is None or 1 <= it.phases <= MOST_PHASES, "BadRounds")
        want(it.split != 0, "BadSplit")
        if it.keep is not None:
            self.want_free(it.keep)
            want(len(self.kept) < MOST_KEPT, "TooManyKept")
            self.kept[it.keep] = number

    def arguments(self, wanted, given):
        want(len(given) == len(wanted), "WrongArguments")
        for kind, (is_kind, value) in zip(wanted, given):
            want(is_kind == kind, "WrongArguments")
            if kind == "property":
                self.want_int("edge", value)


def parts_of(tree):
    """The expressions inside an expression, from the left."""
    kind = tree[0]
    if kind == "if":
        tests = [it for test in tree[1] for it in (test[1], *test[3:])]
        return [*tests, tree[2], tree[3]]
    if kind == "else":
        return tree[1]
    if kind in ("sum", "product"):
        return [tree[1], *(part for _, part in tree[2])]
    if kind == "minus":
        return [tree[1]]
    return tree[1:] if kind in ("min", "max") else []


def needs_second(it):
    """Whether only form 2 has the statement."""
    if isinstance(it, Run):
        return it.order == "tree" or it.phases is not None
    return isinstance(it, (ShowTree, Insert, Remove, Aggregate))


def first_fault(script, node_kinds, edge_kinds):
    """The first fault, or None. The load is statement 1; a bad form is the fault of no statement, and so of statement 0."""
    if script.form not in (None, 1, 2):
        return Fault("BadForm", 0)
    last_edit = max((number for number, it in enumerate(script.statements, 2) if isinstance(it, (Insert, Remove))), default=0)
    check = Check(script.form, last_edit, node_kinds, edge_kinds)
    number = 1
    try:
        check.load(script.graph)
        for statement in script.statements:
            number += 1
            check.statement(statement, number)
    except Wrong as wrong:
        return Fault(wrong.args[0], number)
    return None
