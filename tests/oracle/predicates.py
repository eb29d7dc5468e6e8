"""Which edges are in a view (docs/LANGUAGE.md, "Predicates")."""

import operator

COMPARE = {
    "=": operator.eq,
    "!=": operator.ne,
    "<": operator.lt,
    "<=": operator.le,
    ">": operator.gt,
    ">=": operator.ge,
}


def cell_of(tree, graph, edge):
    """The cell that an operand names at an edge, and None where it is absent."""
    kind, value = tree
    if kind in ("number", "bool"):
        return value
    if kind == "string":
        return value.encode("utf-8")
    if kind == "edge":
        found = graph.edge_cells[value][edge]
    else:
        node = graph.ends[edge][0 if kind == "src" else 1]
        found = graph.ids[node] if value is None else graph.node_cells[value][node]
    return found.encode("utf-8") if isinstance(found, str) else found


def holds(tree, graph, edge):
    kind = tree[0]
    if kind == "or":
        return any(holds(it, graph, edge) for it in tree[1])
    if kind == "and":
        return all(holds(it, graph, edge) for it in tree[1])
    if kind == "not":
        return not holds(tree[1], graph, edge)
    if kind == "constant":
        return tree[1]
    if kind == "absent":
        return cell_of(tree[1], graph, edge) is None
    left, right = cell_of(tree[1], graph, edge), cell_of(tree[3], graph, edge)
    return left is not None and right is not None and COMPARE[tree[2]](left, right)


def edges_of(rules, graph, live):
    """The live edges for which each of these predicates holds, by their rising numbers."""
    return [edge for edge in sorted(live) if all(holds(rule, graph, edge) for rule in rules)]
