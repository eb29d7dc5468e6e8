"""Values and expressions (docs/LANGUAGE.md, "Expressions").

A value is a whole number, or None for none. An expression becomes the text of a Python expression, so that a large run
ends in some seconds: each operation is one of the small functions below.
"""

from collections import namedtuple

MOST = 2**63 - 1


def clamped(number):
    return max(-MOST, min(MOST, number))


def add(a, b):
    return None if a is None or b is None else clamped(a + b)


def subtract(a, b):
    return None if a is None or b is None else clamped(a - b)


def times(a, b):
    return None if a is None or b is None else clamped(a * b)


def divide(a, b):
    if a is None or b is None or b == 0:
        return None
    quotient = abs(a) // abs(b)
    return clamped(quotient if (a < 0) == (b < 0) else -quotient)


def negate(a):
    return None if a is None else clamped(-a)


def least(a, b):
    return min((it for it in (a, b) if it is not None), default=None)


def most(a, b):
    return max((it for it in (a, b) if it is not None), default=None)


def are(sign, a, b):
    """Whether two numbers compare so; nothing compares with none."""
    if a is None or b is None:
        return False
    return {"=": a == b, "!=": a != b, "<": a < b, "<=": a <= b, ">": a > b, ">=": a >= b}[sign]


STEPS = {"+": "add", "-": "subtract", "*": "times", "/": "divide"}


def test_text(tree, names):
    if tree[0] == "none":
        return f"({text_of(tree[1], names)} is None)"
    return f"are({tree[2]!r}, {text_of(tree[1], names)}, {text_of(tree[3], names)})"


def else_text(members, names):
    text = text_of(members[-1], names)
    for member in reversed(members[:-1]):
        text = f"(found if (found := {text_of(member, names)}) is not None else {text})"
    return text


def text_of(tree, names):
    """The expression as Python. names gives the text of each property and parameter."""
    kind = tree[0]
    if kind == "number":
        return str(tree[1])
    if kind == "word":
        return "None" if tree[1] == "none" else tree[1]
    if kind in ("parameter", "edge", "node"):
        return names(kind, tree[1])
    if kind == "if":
        tests = " and ".join(test_text(it, names) for it in tree[1])
        return f"({text_of(tree[2], names)} if {tests} else {text_of(tree[3], names)})"
    if kind == "else":
        return else_text(tree[1], names)
    if kind == "minus":
        return f"negate({text_of(tree[1], names)})"
    if kind in ("min", "max"):
        return f"{'least' if kind == 'min' else 'most'}({text_of(tree[1], names)}, {text_of(tree[2], names)})"
    text = text_of(tree[1], names)
    for sign, part in tree[2]:
        text = f"{STEPS[sign]}({text}, {text_of(part, names)})"
    return text


Meant = namedtuple("Meant", "along start send gather update")
SCOPE = {it.__name__: it for it in (add, subtract, times, divide, negate, least, most, are)}


def function(tree, arguments, names, cells):
    return eval(f"lambda {arguments}: {text_of(tree, names)}", {**SCOPE, "cells": cells})  # pylint: disable=eval-used


def meaning(program, arguments, graph):
    """What a program means with these numbers: start(node, id), send(edge, id, value, outdeg) and
    update(id, start, value, gathered, count)."""
    given = dict(zip(program.parameters, arguments))

    def names(kind, name):
        if kind == "parameter":
            return f"({given[name]})"
        return f"cells[{name!r}][{kind}_number]"

    return Meant(
        program.along,
        function(program.start, "node_number, id", names, graph.node_cells),
        function(program.send, "edge_number, id, value, outdeg", names, graph.edge_cells),
        program.gather,
        function(program.update, "id, start, value, gathered, count", names, {}),
    )
