"""The canonical text of a script (docs/LANGUAGE.md, "Canonical text")."""

from script import Aggregate, Append, Collection, Insert, Program, Remove, Rule, Run, ShowOrder, ShowWork, View
from tokens import is_name

# How tightly each form binds; a part stands in parentheses where its place wants more.
OF_PREDICATE = {"or": 0, "and": 1}
OF_EXPRESSION = {"if": 0, "else": 0, "sum": 1, "product": 2, "minus": 3}


def prop(name):
    return name if is_name(name) else '"' + name.replace('"', '""') + '"'


def string(text):
    return "'" + text.replace("'", "''") + "'"


def operand(tree):
    kind, value = tree
    if kind == "number":
        return str(value)
    if kind == "string":
        return string(value)
    if kind == "bool":
        return "true" if value else "false"
    if kind == "edge":
        return prop(value)
    return kind + "." + ("id" if value is None else prop(value))


def predicate(tree, least=0):
    kind = tree[0]
    if kind in ("or", "and"):
        text = f" {kind} ".join(predicate(it, OF_PREDICATE[kind] + 1) for it in tree[1])
        return f"({text})" if OF_PREDICATE[kind] < least else text
    if kind == "not":
        return "not " + predicate(tree[1], 2)
    if kind == "constant":
        return "true" if tree[1] else "false"
    if kind == "absent":
        return operand(tree[1]) + " is absent"
    return f"{operand(tree[1])} {tree[2]} {operand(tree[3])}"


def test(tree):
    if tree[0] == "none":
        return expression(tree[1], 1) + " is none"
    return f"{expression(tree[1], 1)} {tree[2]} {expression(tree[3], 1)}"


def bare(tree):
    kind = tree[0]
    if kind == "if":
        tests = " and ".join(test(it) for it in tree[1])
        return f"if {tests} then {expression(tree[2], 1)} else {expression(tree[3], 0)}"
    if kind == "else":
        return " else ".join(expression(it, 1) for it in tree[1])
    if kind in ("sum", "product"):
        inner = OF_EXPRESSION[kind] + 1
        first = expression(tree[1], inner)
        return first + "".join(f" {sign} {expression(part, inner)}" for sign, part in tree[2])
    if kind == "minus":
        return "-" + expression(tree[1], 3)
    if kind in ("edge", "node"):
        return kind + "." + prop(tree[1])
    if kind in ("min", "max"):
        return f"{kind}({expression(tree[1], 0)}, {expression(tree[2], 0)})"
    return str(tree[1])


def expression(tree, least=0):
    text = bare(tree)
    return f"({text})" if OF_EXPRESSION.get(tree[0], 4) < least else text


def call(tree):
    if not tree.arguments:
        return tree.name
    spelled = [str(value) if kind == "number" else prop(value) for kind, value in tree.arguments]
    return f"{tree.name}({', '.join(spelled)})"


def item(tree):
    if isinstance(tree, Rule):
        return f"[{tree.name}: {predicate(tree.rule)}]"
    return (
        f"[{tree.name}: window {prop(tree.property)} from {tree.first} to {tree.last} "
        f"width {tree.width} step {tree.step}]"
    )


def run(tree):
    text = f"run {call(tree.call)} on {tree.target} {'within' if tree.within else 'for'} {tree.rounds} rounds"
    if tree.phases is not None:
        text += f" phases {tree.phases}"
    if tree.order:
        text += f" order {tree.order}"
    if tree.split is not None:
        text += f" split {tree.split}" if isinstance(tree.split, str) else f" split every {tree.split}"
    return text + (f" keep as {tree.keep}" if tree.keep else "")


def program(tree):
    parameters = f"({', '.join(tree.parameters)})" if tree.parameters else ""
    return (
        f"program {tree.name}{parameters} {{ along {tree.along}; start {expression(tree.start)}; "
        f"send {expression(tree.send)}; gather {tree.gather}; update {expression(tree.update)}; }}"
    )


def statement(tree):
    if isinstance(tree, View):
        return f"create view {tree.name} on {tree.base} edges where {predicate(tree.rule)};"
    if isinstance(tree, Collection):
        return f"create view collection {tree.name} on {tree.base} {', '.join(map(item, tree.items))};"
    if isinstance(tree, Program):
        return program(tree)
    if isinstance(tree, Run):
        return run(tree) + ";"
    if isinstance(tree, Append):
        return f"append to {tree.target} {', '.join(map(item, tree.items))};"
    if isinstance(tree, Insert):
        return f"insert edges {string(tree.file)};"
    if isinstance(tree, Remove):
        return f"remove edges where {predicate(tree.rule)};"
    if isinstance(tree, Aggregate):
        return f"aggregate {tree.target} group by {prop(tree.by)}" + (f" sum {prop(tree.sum)};" if tree.sum is not None else ";")
    return f"show {'order' if isinstance(tree, ShowOrder) else 'work' if isinstance(tree, ShowWork) else 'tree'} {tree.name};"


def canonical(script):
    """The text, one statement a line."""
    load = f"load graph {script.graph} nodes {string(script.nodes)} edges {string(script.edges)};"
    form = [] if script.form is None else [f"form {script.form};"]
    return "".join(line + "\n" for line in [*form, load, *map(statement, script.statements)])
