"""Compares the line of the tree order of 227 views, in the file that is named, with what tests/oracle makes of the same views."""

import pathlib
import sys

sys.path.insert(0, str(pathlib.Path(__file__).resolve().parents[2] / "tests" / "oracle"))
from order import tree_order  # noqa: E402

EDGES, VIEWS = 20_000, 227


def line():
    """The edges are numbered by a linear congruential generator; each view is a window of eight to 71 numbers."""
    state, numbers = 1, []
    for _ in range(EDGES):
        state = (state * 6364136223846793005 + 1442695040888963407) % 2**64
        numbers.append((state >> 32) % VIEWS)
    windows = [range(place * 37 % VIEWS, place * 37 % VIEWS + 8 + place % 64) for place in range(VIEWS)]
    walk, weight, length = tree_order([{edge for edge, number in enumerate(numbers) if number in window} for window in windows])
    steps = "".join(f", {view} {'-' if parent is None else parent}" for view, parent in walk)
    return f"tree of {VIEWS} views, {weight} {length}{steps}"


found = [text for text in pathlib.Path(sys.argv[1]).read_text().splitlines() if text.startswith("tree of ")]
if not found or set(found) != {line()}:
    sys.exit("the tree order of 227 views differs from that of tests/oracle")
print("the tree order of 227 views is that of tests/oracle")
