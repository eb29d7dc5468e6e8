"""What this bench runs, and the bounds that it holds the program to."""

from dataclasses import dataclass

ALL = ("hops", "dist", "wcc", "pagerank")
SPLITS = {"auto": "-auto", "every 1": "-every-1"}


@dataclass(frozen=True)
class Bound:
    """A side's processor seconds, or its peak memory in MB, is at most so many times that of another side."""

    side: str
    measure: str
    factor: float
    other: str

    def text(self):
        name = {"seconds": "", "peak": "memory "}[self.measure]
        return f"{name}{self.factor:g} × {self.other}"


@dataclass(frozen=True)
class Case:
    """Sides that print the same, or don't: those of the program by name, with their words, and the C++ programs. Before them the
    program prints the files that they read, by name, with its words."""

    name: str
    program: str
    workload: str
    ours: dict
    bounds: tuple
    peers: tuple = ("plain", "scratch", "histories-plain", "histories")
    rounds: int = 0
    alike: bool = True
    made: tuple = ()


def script(program, split="", *more):
    return ("--script", program + SPLITS.get(split, "") + ".gv", *more)


def shared(name, program, factor, *more):
    """A run of all views as one segment, beside the same algorithm in plain C++."""
    bounds = (Bound("surge", "seconds", factor, "histories-plain"), *more)
    return Case(name, program, name, {"surge": script(program)}, bounds)


def disjoint(program):
    """Views without a common edge, where nothing can be shared: split auto has to find that out."""
    ours = {f"split {split}": script(program, split) for split in SPLITS}
    bound = Bound("split auto", "seconds", 1.1, "split every 1")
    return Case("disjoint", program, "disjoint", ours, (bound,), ("plain", "scratch"))


def turned(program):
    """As many segments as views, one finished after the other, or all open at once."""
    ours = {"split every 1": script(program, "every 1"), "--turns 7": script(program, "every 1", "--turns", "7")}
    bound = Bound("--turns 7", "peak", 1.5, "split every 1")
    return Case("turns", program, "windows-mid", ours, (bound,), (), rounds=1)


def edits(name, program, *words):
    """A kept run that follows twenty edits, and the run made anew behind each of them."""
    ours = {side: ("--script", f"{program}-{side}.gv", *words) for side in ("kept", "anew")}
    return Case(name, program, name, ours, (Bound("kept", "seconds", 0.25, "anew"),), (), rounds=1)


def aggregates():
    """The edges of each view in groups, and one pass over what the views differ in."""
    ours = {"surge": ("--script", "aggregate.gv")}
    return Case("aggregates", "aggregate", "aggregates", ours, (Bound("surge", "seconds", 3, "plain"),), ("plain",))


def changes(program):
    """Tables as a change text, and in full."""
    ours = {"mode changes": (*script(program), "--mode", "changes"), "mode run": script(program)}
    return Case("changes", program, "windows-mid", ours, (Bound("mode changes", "seconds", 1, "mode run"),), (), alike=False)


def replayed(program):
    """The tables of a change text, and the same tables read, judged and written in C++."""
    made = (("changes.txt", (*script(program), "--mode", "changes")), ("tables.txt", script(program)))
    ours = {"replay": ("--replay", "changes.txt")}
    return Case("replay", program, "windows-mid", ours, (Bound("replay", "seconds", 1.5, "tables"),), ("tables",), made=made)


def sample():
    ours = {"surge": ("--sample", "1", "--mode", "summary")}
    return Case("sample", "dist", "", ours, (Bound("surge", "seconds", 3, "plain"),), ("plain",), rounds=30)


def all_cases():
    factors = {"hops": 2, "dist": 3, "wcc": 2, "pagerank": 2}
    by_scratch = Bound("surge", "seconds", 1.5, "scratch")
    by_memory = Bound("surge", "peak", 3, "histories-plain")
    yield sample()
    for program in ALL:
        yield shared("windows-mid", program, factors[program])
    for program in ALL:
        yield shared("windows-fine", program, factors[program], *([by_scratch] if program == "hops" else []))
    for program in ("hops", "dist", "wcc"):
        yield shared("long-path", program, 3)
    yield shared("ordered-path", "wcc", 3)
    for program in ("hops", "dist", "wcc"):
        yield disjoint(program)
    for program in ("hops", "pagerank"):
        yield turned(program)
    for name in ("edits", "edits-100", "edits-1000"):
        for program in ("hops", "wcc", "dist"):
            yield edits(name, program, "--mode", "summary")
    yield aggregates()
    yield changes("hops")
    yield replayed("hops")
    for program in ("hops", "dist", "wcc"):
        yield shared("windows-large", program, factors[program], by_memory)
