"""Counted work, and the segments of a run (docs/LANGUAGE.md, "Counted work" and "Splits").

The input of a node at a round is the multiset of its start, its value and the messages that it gets. Work is counted
between a view and the one before it in its segment, by what their two plain runs give alone.
"""

from collections import Counter

from order import distance


def item_counts(lone, node, place):
    """The input of a node after this many rounds; of no view, and before the first round, it is empty."""
    if lone is None or place < 0:
        return Counter()
    found = Counter(("message", it) for it in lone.messages(place)[node])
    found["start", lone.starts[node]] += 1
    found["value", lone.values(place)[node]] += 1
    return found


def is_active(new, old, node, place):
    signed = Counter()
    for sign, lone, at in ((1, new, place), (-1, old, place), (-1, new, place - 1), (1, old, place - 1)):
        for item, count in item_counts(lone, node, at).items():
            signed[item] += sign * count
    return any(signed.values())


def work_of(new, old, rounds):
    """How many pairs of a node and a round are counted, where old is the plain run of the view before, or None."""
    # (two rounds behind the last change of both views nothing is active, and no input changes)
    ends = [lone.settles(rounds) for lone in (new, old) if lone is not None]
    last = rounds if None in ends else min(rounds, max(ends) + 2)
    total, touched = 0, set()
    for place in range(last):
        for node in range(len(new.starts)):
            active = is_active(new, old, node, place)
            if active:
                touched.add(node)
            if active or node in touched and item_counts(old, node, place) != item_counts(old, node, place - 1):
                total += 1
    return total


class Segments:
    """The segment and the work of each view of a run, in the order in which they are run."""

    def __init__(self, split, rounds):
        self.split = split
        self.rounds = rounds
        self.rows = []
        self.segment = -1
        self.first = self.later = None
        self.before = None

    def add(self, view, lone, edges):
        starts = self.starts_new(edges)
        old = None if starts else self.before[0]
        work = work_of(lone, old, self.rounds)
        if starts:
            self.segment += 1
            self.first = (len(edges), work)
            self.later = (0, 0, 1)
        else:
            differing, later_work, views = self.later
            self.later = (differing + distance(self.before[1], edges), later_work + work, views + 1)
        self.before = (lone, edges)
        self.rows.append((view, self.segment + 1, work))

    def starts_new(self, edges):
        if self.before is None:
            return True
        if self.split == "none":
            return False
        differing, later_work, views = self.later
        if self.split != "auto":
            return views == self.split
        first_edges, first_work = self.first
        step = distance(self.before[1], edges)
        if differing == 0:
            return step > len(edges)
        return later_work * step * first_edges > first_work * len(edges) * differing
