"""The plain run of a program on one view, round by round (docs/LANGUAGE.md, "Programs" and "Runs")."""

from collections import namedtuple
from copy import copy

from values import clamped

Answer = namedtuple("Answer", "outcome values")


def arcs_of(along, edges, graph):
    """The arcs of some edges: tail, head and edge."""
    arcs = []
    for edge in edges:
        source, target = graph.ends[edge]
        if along in ("out", "both"):
            arcs.append((source, target, edge))
        if along in ("in", "both"):
            arcs.append((target, source, edge))
    return arcs


def gathered(kind, messages):
    if kind == "min":
        return min(messages, default=None)
    if kind == "max":
        return max(messages, default=None)
    return clamped(sum(messages)) if kind == "sum" else len(messages)


class Lone:
    """The values of each round of a program on one view, as far as they are asked for."""

    def __init__(self, meant, edges, graph):
        self.meant = meant
        self.graph = graph
        self.arcs = arcs_of(meant.along, edges, graph)
        self.outdeg = [0] * len(graph.ids)
        for tail, _, _ in self.arcs:
            self.outdeg[tail] += 1
        self.begin([meant.start(node, node_id) for node, node_id in enumerate(graph.ids)])

    def begin(self, starts):
        self.starts = starts
        self.rounds = [self.starts]
        self.inboxes = []

    def started(self, starts):
        """The same with other starts."""
        other = copy(self)
        other.begin(starts)
        return other

    def messages(self, place):
        """What each node gets under the values after this many rounds."""
        while len(self.inboxes) <= place:
            self.inboxes.append(self.sent(self.values(len(self.inboxes))))
        return self.inboxes[place]

    def sent(self, values):
        inbox = [[] for _ in values]
        send, ids, outdeg = self.meant.send, self.graph.ids, self.outdeg
        for tail, head, edge in self.arcs:
            message = send(edge, ids[tail], values[tail], outdeg[tail])
            if message is not None:
                inbox[head].append(message)
        return inbox

    def values(self, place):
        """The values after this many rounds."""
        while len(self.rounds) <= place:
            before, update, kind = self.rounds[-1], self.meant.update, self.meant.gather
            self.rounds.append(
                [
                    update(self.graph.ids[node], self.starts[node], before[node], gathered(kind, inbox), len(inbox))
                    for node, inbox in enumerate(self.messages(len(self.rounds) - 1))
                ]
            )
        return self.rounds[place]

    def settles(self, most):
        """The least r below most for which round r + 1 changes nothing, or None."""
        for place in range(most):
            if self.values(place + 1) == self.values(place):
                return place
        return None

    def answer(self, within, rounds):
        settled = self.settles(rounds)
        if within:
            return Answer("unsettled", None) if settled is None else Answer(f"settled {settled}", self.values(settled))
        # (behind a fixpoint the values stay)
        return Answer(f"after {rounds}", self.values(rounds if settled is None else settled))


def phases_answer(lone, rounds, phases):
    """The answer after so many phases of so many rounds: each phase starts with the values in which the one before it ended."""
    for _ in range(phases):
        last, before = lone.values(rounds), lone.values(rounds - 1)
        if last != before:
            return Answer("unsettled", None)
        lone = lone.started(last)
    return Answer(f"phases {phases}", lone.starts)
