#!/usr/bin/env python3
"""Compares the program with the oracle on data files, scripts and words that are changed at random, most of them so that they have faults.

    tests/oracle/random_files.py [--count 20000] [--seed 1] [--first 0] [--binary crates/surge/out/surge] [--table] [--most 10]

A case begins with a graph and a script that are drawn, or that lie in the repository, and changes up to three things of them: bytes,
fields, records, tokens, statements, names, numbers at limits, words, or which file lies where. The exit status and both streams have to
be what faults.py works out from the pages, byte for byte. Where they are not the folder of the case is named, and kept; SEED and number
draw it again, as `--first NUMBER --count 1` does. The last line counts what agreed; the status is 1 where something did not.
"""

import argparse
import collections
import os
import random
import shutil
import subprocess
import sys
import tempfile
import warnings

import bases
import faults
import mutations
from script import Aggregate, Append, Collection, Insert, Remove, Run, ShowOrder, ShowTree, ShowWork

HERE = os.path.dirname(os.path.abspath(__file__))
SECONDS = 60
# What a case may cost the oracle, in steps of about a microsecond.
MOST_STEPS = 400_000

Case = collections.namedtuple("Case", "words files")


# ---- Cases


class Maker:
    """Draws cases by their numbers."""

    def __init__(self, seed):
        self.seed = seed
        self.written_down = bases.written_down()
        self.statements = bases.answered_statements()

    def case(self, number):
        draw = random.Random(f"{self.seed}/{number}")
        if draw.randint(0, 59) == 0:
            base = bases.large(draw)
            for _ in range(draw.randint(0, 3)):
                base = base._replace(edges=draw.choice(mutations.OF_RECORDS)(draw, base.edges))
        else:
            base = bases.drawn(draw) if draw.randint(0, 3) else draw.choice(self.written_down)
        case = Case(mutations.words_drawn(draw), {"s.gv": base.script, "n.csv": base.nodes, "e.csv": base.edges, **base.more})
        for _ in range(draw.choice([0, 1, 1, 1, 1, 2, 2, 3])):
            case = self.changed(draw, case)
        return case

    def changed(self, draw, case):
        """A case with one change."""
        files = dict(case.files)
        chance = draw.randint(1, 100)
        if chance <= 2:
            return case._replace(words=mutations.words_changed(draw, case.words))
        if chance <= 4:
            return case._replace(files=laid_elsewhere(draw, files))
        if chance <= 42:
            name, changes = draw.choice(["n.csv", "e.csv", "e.csv", *inserted_in(files)]), mutations.OF_DATA
        else:
            name, changes = "s.gv", mutations.OF_SCRIPTS
        data = files[name]
        if not isinstance(data, bytes):
            return case
        if name == "s.gv" and chance <= 44:
            files[name] = draw.choice(mutations.LARGE)(draw, data)
        elif name == "s.gv" and chance <= 50:
            files[name] = mutations.statement_added(draw, data, self.statements)
        else:
            files[name] = draw.choice(mutations.OF_BYTES if draw.randint(0, 7) == 0 else changes)(draw, data)
        return case._replace(files=files)


def inserted_in(files):
    """The names of the files whose edges are inserted."""
    return [name for name in files if name not in ("s.gv", "n.csv", "e.csv")]


def laid_elsewhere(draw, files):
    """Files exchanged, missing, or folders; or other names in the load."""
    one, other = draw.choice(list(files)), draw.choice(list(files))
    form = draw.randint(0, 4)
    if form == 0:
        files[one], files[other] = files[other], files[one]
    elif form == 1:
        files[one] = None
    elif form == 2:
        files[one] = "folder"
    elif isinstance(files["s.gv"], bytes):
        loaded = [b"n.csv", b"e.csv", *(name.encode() for name in inserted_in(files))]
        names = [b"", b"no.csv", b"./n.csv", b"n.csv/x", b"x/n.csv", b".", b"/", b"e.csv", b"n.csv", b"s.gv", b"N.CSV", b" n.csv", b"a" * 300, b"/dev/null"]
        files["s.gv"] = files["s.gv"].replace(draw.choice(loaded), draw.choice(names), 1)
    return files


def lay(case, folder):
    for name, data in case.files.items():
        if data == "folder":
            os.mkdir(f"{folder}/{name}")
        elif data is not None:
            with open(f"{folder}/{name}", "wb") as file:
                file.write(data)


# ---- Answers


def steps_of(script, loaded):
    """About how many steps the runs of a script take."""
    size = len(loaded.graph.ids) + 2 * len(loaded.graph.ends)
    views, steps, rounds_of = collections.Counter(), 0, {}
    for it in script.statements:
        if isinstance(it, (Collection, Append)):
            name = it.name if isinstance(it, Collection) else it.target
            views[name] += sum(1 if not hasattr(item, "step") else (item.last - item.first) // item.step + 1 for item in it.items)
            steps += views[name] * size
        elif isinstance(it, Run):
            # (of these it is known that they settle)
            rounds = (min(it.rounds, size) if it.call.name in ("hops", "wcc") else it.rounds) * (it.phases or 1)
            steps += views[it.target] * (rounds * size + views[it.target] * size // 4)
            rounds_of[it.keep] = rounds * views[it.target] * size
        elif isinstance(it, (Insert, Remove)):
            steps += size + sum(rounds for keep, rounds in rounds_of.items() if keep)
        elif isinstance(it, Aggregate):
            steps += views[it.target] * size
        elif isinstance(it, (ShowOrder, ShowTree)):
            steps += views[it.name] ** 2 * size // 4
        elif isinstance(it, ShowWork):
            steps += 10 * rounds_of.get(it.name, 0)
    return steps


def wanted(words, folder):
    """The words to be run in a folder, and what has to be answered: what would run too long for the oracle is only checked."""
    try:
        asked = faults.asked_for(words)
        if asked.replay is not None:
            return words, faults.answer(words, folder)
        script, loaded = faults.judged(asked, folder)
    except faults.Refused as refused:
        return words, refused.answer()
    if asked.mode != "check" and (asked.sample is not None or steps_of(script, loaded) > MOST_STEPS):
        words = ["--mode=check", *(it for it in words if it not in ("run", "summary", "changes", "--mode", "--mode=run", "--mode=summary", "--mode=changes"))]
        asked = asked._replace(mode="check")
    return words, faults.done(asked, script, loaded)


def given(binary, words, folder):
    try:
        done = subprocess.run([binary, *words], cwd=folder, stdin=subprocess.DEVNULL, capture_output=True, timeout=SECONDS, check=False)
    except subprocess.TimeoutExpired:
        return faults.Answer(f"none within {SECONDS} seconds", b"", b"")
    return faults.Answer(done.returncode, done.stdout, done.stderr)


def difference(want, got):
    """The first line of either stream, or the status, that is not the same."""
    if want.status != got.status or want.err != got.err:
        return f"wanted {want.status} {want.err!r}, given {got.status} {got.err!r}"
    lines = zip([*want.out.split(b"\n"), None], [*got.out.split(b"\n"), None])
    number, (one, other) = next((number, pair) for number, pair in enumerate(lines, 1) if pair[0] != pair[1])
    return f"line {number}: wanted {one!r}, given {other!r}"


def kind_of(answer, words):
    """The status, and the kind of fault or the mode."""
    if answer.status == 0:
        return 0, next((it for it in ("check", "summary", "changes") if f"--mode={it}" in words or it in words), "tables")
    said = answer.err.decode().strip().split(": ")
    return answer.status, said[1] if answer.status in (2, 6, 7, 8) else said[-1]


def compared(binary, case, number):
    """Whether the program answers a case as the oracle does, and what it was."""
    folder = tempfile.mkdtemp(prefix="surge-files-")
    lay(case, folder)
    words, want = wanted(case.words, folder)
    got = given(binary, words, folder)
    if got == want:
        shutil.rmtree(folder)
    else:
        print(f"case {number} in {folder}, words {words}: {difference(want, got)}", flush=True)
    return got == want, kind_of(want, words)


def main():
    sys.setrecursionlimit(10_000)
    # (of `7 is none` as Python)
    warnings.simplefilter("ignore", SyntaxWarning)
    options = argparse.ArgumentParser(description=__doc__, formatter_class=argparse.RawDescriptionHelpFormatter)
    options.add_argument("--count", type=int, default=20_000)
    options.add_argument("--seed", type=int, default=1)
    options.add_argument("--first", type=int, default=0, help="the number of the first case")
    options.add_argument("--binary", default=f"{HERE}/../../crates/surge/out/surge")
    options.add_argument("--table", action="store_true", help="counts the answers by status and kind")
    options.add_argument("--most", type=int, default=10, help="ends behind this many differences")
    asked = options.parse_args()
    binary = os.path.abspath(asked.binary)
    maker, kinds, agreed, differing = Maker(asked.seed), collections.Counter(), 0, 0
    try:
        for number in range(asked.first, asked.first + asked.count):
            is_same, kind = compared(binary, maker.case(number), number)
            kinds[kind] += 1
            agreed, differing = agreed + is_same, differing + (not is_same)
            if differing == asked.most:
                break
    except KeyboardInterrupt:
        print(f"interrupted in case {number}")
    if asked.table:
        for (status, kind), count in sorted(kinds.items(), key=str):
            print(f"{count:7} {status} {kind}")
    print(f"{agreed} of {asked.count} agreed")
    return 0 if agreed == asked.count else 1


if __name__ == "__main__":
    sys.exit(main())
