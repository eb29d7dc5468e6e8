"""The order in which views are run (docs/LANGUAGE.md, "Runs" and "Shows")."""


def distance(one, other):
    """In how many edges two views differ."""
    return len(set(one) ^ set(other))


def greedy(edges, before, views):
    """From the view before (or from no edge at all), go each time to the nearest view that is left; ties go to the view
    declared first. edges gives each view's edges; views are numbers in declared order."""
    left, order = list(views), []
    while left:
        here = [] if before is None else edges[before]
        before = min(left, key=lambda view: (distance(here, edges[view]), view))
        left.remove(before)
        order.append(before)
    return order


def distances(edges, order):
    """Each view of an order with its distance from the one before it, the first from no edge at all."""
    found, here = [], []
    for view in order:
        found.append((view, distance(here, edges[view])))
        here = edges[view]
    return found


def tree_order(edges):
    """The walk through the tree that grows from no edge at all: each time the view outside joins that is nearest to one inside
    or to no edge at all; ties go to the view declared first, and its parent is the nearest that joined first. Children are
    walked in the order of joining. Each view of the order comes with its parent, None for no edge at all; with them come the
    sum of the distances to the parents, and the length of the order."""
    views = range(len(edges))
    between = {(None, view): len(set(edges[view])) for view in views}
    for one in views:
        for other in range(one):
            between[one, other] = between[other, one] = distance(edges[one], edges[other])
    inside, left, children, weight = [None], list(views), {}, 0
    while left:
        least, view = min((min(between[point, view] for point in inside), view) for view in left)
        parent = next(point for point in inside if between[point, view] == least)
        left.remove(view)
        inside.append(view)
        children.setdefault(parent, []).append(view)
        weight += least

    def below(point):
        for view in children.get(point, []):
            yield view, point
            yield from below(view)

    walk = list(below(None))
    length = sum(between[before, view] for before, (view, _) in zip([None] + [view for view, _ in walk], walk))
    return walk, weight, length
