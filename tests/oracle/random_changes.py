#!/usr/bin/env python3
"""Compares the program with the oracle on change texts that are changed at random, most of them so that they have a bad line.

    tests/oracle/random_changes.py [--count 20000] [--seed 1] [--first 0] [--binary crates/surge/out/surge] [--table] [--most 10]

A case begins with a change text of a few tables that are drawn, and changes up to three things of it: bytes, lines, numbers at limits,
or where it ends. `surge --replay` has to end with the status and write to both streams what changes.py works out, byte for byte. Where
it does not the file of the case is named, and kept; SEED and number draw it again, as `--first NUMBER --count 1` does. The last line
counts what agreed; the status is 1 where something did not.
"""

import argparse
import collections
import os
import random
import sys
import tempfile

import changes
import faults
import mutations
from random_files import difference, given

HERE = os.path.dirname(os.path.abspath(__file__))

OUTCOMES = [b"settled 0", b"settled 7", b"after 1", b"phases 3", b"unsettled", b"settled 4294967295", b"settled 4294967296", b"after 01"]
VALUES = [b"-", b"0", b"1", b"-1", b"12", b"9223372036854775807", b"-9223372036854775807", b"9223372036854775808", b"-9223372036854775808", b"-0", b"007"]
IDS = [b"0", b"1", b"2", b"3", b"10", b"9223372036854775807", b"9223372036854775808", b"01", b"-1", b""]
HEADS = [b"C.v hops(1)", b"x", b"a b c", b"settled 3", b"C.v p settled", b"\xff", b" ", b"", b"view C.v x after 2"]
LINES = [b"end", b"", b"view x settled 0", b"change x settled 0", b"view x unsettled", b"change x unsettled", b"1,0", b"end ", b"END", b"view x"]


# ---- Cases


def text_drawn(draw):
    """A change text without a bad line: views over a few nodes, each in full or as it differs from the one before."""
    ids = sorted(draw.sample([*range(12), 2**40, 2**63 - 1], draw.randint(0, 6)))
    text, before = b"", None
    for _ in range(draw.randint(0, 5)):
        head = draw.choice(HEADS[:7]) + b" " + draw.choice(OUTCOMES[:6])
        if head.endswith(b"unsettled"):
            text, before = text + b"view " + head + b"\nend\n", None
            continue
        rows = {it: draw.choice(VALUES[:7]) for it in ids}
        if before is not None and draw.randint(0, 3):
            new = {it: value if draw.randint(0, 2) else before[it] for it, value in rows.items()}
            text += b"change " + head + b"\n" + b"".join(b"%d,%s\n" % it for it in new.items() if it[1] != before[it[0]])
            rows = new
        else:
            text += b"view " + head + b"\n" + b"".join(b"%d,%s\n" % it for it in rows.items())
        text, before = text + b"end\n", rows
    return text


def line_changed(draw, text):
    """One line is another, or stands twice, elsewhere or no more."""
    lines = text.split(b"\n")
    place = draw.randrange(len(lines))
    form = draw.randint(0, 4)
    if form == 0:
        lines[place] = draw.choice(LINES)
    elif form == 1:
        lines.insert(place, draw.choice(LINES))
    elif form == 2:
        lines.insert(draw.randint(0, len(lines)), lines[place])
    elif form == 3:
        lines.insert(draw.randint(0, len(lines) - 1), lines.pop(place))
    else:
        del lines[place]
    return b"\n".join(lines)


def part_changed(draw, text):
    """A part of a line is another: an id, a value, what a table is of, or how its run ended."""
    lines = text.split(b"\n")
    place = draw.randrange(len(lines))
    line = lines[place]
    if b"," in line and b" " not in line:
        id_, value = line.split(b",", 1)
        lines[place] = draw.choice([draw.choice(IDS) + b"," + value, id_ + b"," + draw.choice(VALUES), id_ + b"," + value + b"," + value])
    elif b" " in line:
        word = line.split(b" ", 1)[0]
        other = draw.choice([word, b"view", b"change", b"View"])
        lines[place] = other + b" " + draw.choice(HEADS) + b" " + draw.choice(OUTCOMES)
    return b"\n".join(lines)


CHANGES = [line_changed, line_changed, part_changed, part_changed, *mutations.OF_BYTES]


def case(seed, number):
    draw = random.Random(f"{seed}/{number}")
    text = text_drawn(draw)
    for _ in range(draw.choice([0, 1, 1, 1, 1, 2, 2, 3])):
        text = draw.choice(CHANGES)(draw, text)
    return text


def compared(binary, text, number):
    """Whether the program answers a text as the oracle does, and how that was."""
    folder = tempfile.mkdtemp(prefix="surge-changes-")
    with open(f"{folder}/c", "wb") as file:
        file.write(text)
    want = faults.answer(["--replay", "c"], folder)
    got = given(binary, ["--replay", "c"], folder)
    if got == want:
        os.remove(f"{folder}/c")
        os.rmdir(folder)
    else:
        print(f"case {number} in {folder}: {difference(want, got)}", flush=True)
    bad = changes.read(text)
    return got == want, "tables" if not isinstance(bad, int) else f"line {min(bad, 9)}"


def main():
    options = argparse.ArgumentParser(description=__doc__, formatter_class=argparse.RawDescriptionHelpFormatter)
    options.add_argument("--count", type=int, default=20_000)
    options.add_argument("--seed", type=int, default=1)
    options.add_argument("--first", type=int, default=0, help="the number of the first case")
    options.add_argument("--binary", default=f"{HERE}/../../crates/surge/out/surge")
    options.add_argument("--table", action="store_true", help="counts the answers by their first bad lines")
    options.add_argument("--most", type=int, default=10, help="ends behind this many differences")
    asked = options.parse_args()
    binary = os.path.abspath(asked.binary)
    kinds, agreed, differing = collections.Counter(), 0, 0
    for number in range(asked.first, asked.first + asked.count):
        is_same, kind = compared(binary, case(asked.seed, number), number)
        kinds[kind] += 1
        agreed, differing = agreed + is_same, differing + (not is_same)
        if differing == asked.most:
            break
    if asked.table:
        for kind, count in sorted(kinds.items()):
            print(f"{count:7} {kind}")
    print(f"{agreed} of {asked.count} agreed")
    return 0 if agreed == asked.count else 1


if __name__ == "__main__":
    sys.exit(main())
