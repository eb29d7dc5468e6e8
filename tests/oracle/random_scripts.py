#!/usr/bin/env python3
"""Compares the program with the oracle on random small scripts: tables, appends, orders and works under all splits, and in form 2
edges that come and go, aggregates, trees and phases.

    tests/oracle/random_scripts.py [--count 2000] [--seed 1] [--form 1|2] [--counts] [--binary crates/surge/out/surge]

Each script has a graph of up to seven nodes, a collection of views, a run or two that are kept, perhaps an append, and shows; every
second one is of form 2. Output, line on standard error and status are compared; a change text is replayed too, and has to give what
the oracle writes for the script without its shows and aggregates. The last line counts what agreed; the status is 1 where something
did not, and the folder of the first such script is named. `--form` draws scripts of that form alone; `--counts` tells how many
statements of each kind there were, and how the scripts ended.
"""
import argparse
import os
import random
import re
import subprocess
import sys
import tempfile
from collections import Counter

HERE = os.path.dirname(os.path.abspath(__file__))
sys.path.insert(0, HERE)

import oracle  # noqa: E402 (it lies beside this file)

PROGRAMS = [
    "program indeg { along out; start 0; send 1; gather count; update gathered; }",
    "program far { along in; start id; send value; gather max; update max(value, gathered); }",
    "program sums { along both; start 1; send value - edge.w; gather sum; update gathered + start; }",
    "program shares { along out; start 100; send value / outdeg; gather sum; update gathered else 0; }",
    "program worn(n) { along out; start if id = n then 0 else none; send if value < 3 then value + 1 else none; gather min; "
    "update min(start, gathered); }",
]
CALLS = ["hops(1)", "hops(3)", "dist(1, w)", "wcc", "pagerank", "indeg", "far", "sums", "shares", "worn(2)"]


def predicate(draw):
    places = ["w", "y"]
    one = f"{draw.choice(places)} {draw.choice(['=', '!=', '<', '<=', '>', '>='])} {draw.randint(0, 3)}"
    form = draw.randint(0, 5)
    if form == 0:
        return f"{one} or {draw.choice(places)} = {draw.randint(0, 3)}"
    if form == 1:
        return f"{one} and src.id < {draw.randint(1, 7)}"
    if form == 2:
        return draw.choice(["true", "false"])
    return one


def script(draw):
    lines = ["load graph G nodes 'n.csv' edges 'e.csv';"]
    views = draw.randint(1, 5)
    listed = ", ".join(f"[v{i}: {predicate(draw)}]" for i in range(views))
    lines.append(f"create view collection C on G {listed};")
    lines += PROGRAMS
    kept = []
    for run in range(draw.randint(1, 2)):
        way = draw.choice(["within", "for"])
        split = draw.choice(["", " split none", f" split every {draw.randint(1, 3)}", " split auto", " split auto"])
        order = draw.choice(["", " order greedy", " order declared"])
        lines.append(f"run {draw.choice(CALLS)} on C {way} {draw.randint(1, 6)} rounds{order}{split} keep as K{run};")
        kept.append(f"K{run}")
    if draw.randint(0, 2) == 0:
        more = ", ".join(f"[a{i}: {predicate(draw)}]" for i in range(draw.randint(1, 3)))
        lines.append(f"append to C {more};")
    lines += [f"show work {name};" for name in kept]
    lines.append("show order C;")
    return "\n".join(lines) + "\n"


def second_script(draw, files):
    """A script of form 2, which inserts these files."""
    lines = ["form 2;", "load graph G nodes 'n.csv' edges 'e.csv';"]
    listed = ", ".join(f"[v{i}: {predicate(draw)}]" for i in range(draw.randint(1, 5)))
    lines.append(f"create view collection C on G {listed};")
    lines.append(f"create view collection D on G [d: {predicate(draw)}];")
    lines += PROGRAMS
    statements = [f"insert edges '{file}';" for file in files]
    for run in range(draw.randint(1, 3)):
        way = draw.choice(["within", "for"])
        split = draw.choice(["", " split none", f" split every {draw.randint(1, 3)}", " split auto"])
        order = draw.choice(["", " order greedy", " order declared", " order tree"])
        keep = draw.choice(["", f" keep as K{run}", f" keep as K{run}"])
        statements.append(f"run {draw.choice(CALLS)} on {draw.choice('CCD')} {way} {draw.randint(1, 6)} rounds{order}{split}{keep};")
    for _ in range(draw.randint(0, 2)):
        statements.append(f"remove edges where {predicate(draw)};")
    for _ in range(draw.randint(0, 2)):
        statements.append(f"run {draw.choice(CALLS)} on C within {draw.randint(1, 4)} rounds phases {draw.randint(1, 4)};")
    for _ in range(draw.randint(0, 2)):
        statements.append(f"aggregate {draw.choice('CD')} group by {draw.choice(['g', 't', 'b'])}{draw.choice(['', ' sum w', ' sum y'])};")
    for append in range(draw.randint(0, 2)):
        more = ", ".join(f"[a{append}{i}: {predicate(draw)}]" for i in range(draw.randint(1, 3)))
        statements.append(f"append to C {more};")
    statements += draw.choice([[], ["show tree C;"], ["show order C;"], ["show tree C;", "show order D;"]])
    draw.shuffle(statements)
    # (works are shown of runs behind which no edges come or go)
    last = max((place for place, it in enumerate(statements) if it.startswith(("insert", "remove"))), default=-1)
    places = [place for place, it in enumerate(statements) if " keep as " in it and place > last]
    if places:
        place = draw.choice(places)
        statements.insert(draw.randint(place + 1, len(statements)), f"show work {statements[place].split()[-1]}")
    # (files are inserted in the order of their names, so that each is named once)
    names = iter(files)
    return "\n".join([*lines, *(f"insert edges '{next(names)}';" if it.startswith("insert") else it for it in statements)]) + "\n"


def edges(draw, ids, most):
    rows = [
        (draw.choice(ids), draw.choice(ids), draw.choice(["", "0", "1", "2", "3"]), draw.randint(0, 3))
        for _ in range(draw.randint(0, most))
    ]
    return "src,dst,w:int,y:int\n" + "".join(f"{a},{b},{w},{y}\n" for a, b, w, y in rows)


def graph(draw):
    ids = draw.sample(range(1, 9), draw.randint(1, 7))
    cells = [(i, draw.choice(["", "1", "2", "-3"]), draw.choice(["", "a", "it's", "b"]), draw.choice(["", "true", "false"])) for i in ids]
    return ids, "id,g:int,t:str,b:bool\n" + "".join(f"{i},{g},{t},{b}\n" for i, g, t, b in cells)


def ran(words, folder):
    done = subprocess.run(words, cwd=folder, capture_output=True, check=False)
    return done.returncode, done.stdout, done.stderr


def wanted(words, folder):
    """The status and both streams by the oracle, which answers scripts without faults alone."""
    os.chdir(folder)
    return 0, oracle.answer(oracle.words(words)), b""


def comes_back(binary, folder, text, changes):
    """Whether the program makes of a script's change text the tables that the script has without its shows and aggregates."""
    left = [it for it in text.splitlines() if not it.startswith(("show", "aggregate"))]
    with open(f"{folder}/left.gv", "w", encoding="utf-8") as file:
        file.write("\n".join(left) + "\n")
    with open(f"{folder}/changes", "wb") as file:
        file.write(changes)
    same = ran([binary, "--replay", "changes"], folder) == wanted(["--script", "left.gv"], folder)
    if same:
        os.remove(f"{folder}/left.gv")
        os.remove(f"{folder}/changes")
    return same


KINDS = {
    "runs": r"^run (?!.* phases )",
    "kept runs": r"^run .* keep as",
    "runs in tree order": r"^run .* order tree",
    "runs in phases": r"^run .* phases",
    "appends": r"^append",
    "inserts": r"^insert",
    "removals": r"^remove",
    "aggregates": r"^aggregate (?!.* sum )",
    "aggregates with a sum": r"^aggregate .* sum ",
    "shown orders": r"^show order",
    "shown trees": r"^show tree",
    "shown works": r"^show work",
}


def counted(text):
    """How many statements of each kind a script has, and how many there are of those that kept runs follow."""
    lines = text.splitlines()
    counts = Counter({kind: sum(bool(re.match(pattern, it)) for it in lines) for kind, pattern in KINDS.items()})
    kept = 0
    for it in lines:
        kept += " keep as " in it
        if it.startswith(("insert", "remove")) and kept:
            counts["edits behind kept runs"] += 1
            counts["kept runs that followed one"] += kept
        counts["appends behind kept runs"] += it.startswith("append") and kept > 0
    return counts


def main():
    words = argparse.ArgumentParser(description=__doc__, formatter_class=argparse.RawDescriptionHelpFormatter)
    words.add_argument("--count", type=int, default=2000)
    words.add_argument("--seed", type=int, default=1)
    words.add_argument("--form", type=int, choices=(1, 2))
    words.add_argument("--counts", action="store_true")
    words.add_argument("--binary", default=f"{HERE}/../../crates/surge/out/surge")
    given = words.parse_args()
    binary = os.path.abspath(given.binary)
    agreed, counts = 0, Counter()
    for number in range(given.count):
        draw = random.Random(f"{given.seed}/{number}")
        folder = tempfile.mkdtemp(prefix="surge-random-")
        ids, nodes = graph(draw)
        files = {"n.csv": nodes, "e.csv": edges(draw, ids, 12)}
        if (given.form or 1 + number % 2) == 1:
            files["s.gv"] = script(draw)
        else:
            inserted = [f"i{place}.csv" for place in range(draw.randint(0, 3))]
            files |= {name: edges(draw, ids, 4) for name in inserted}
            files["s.gv"] = second_script(draw, inserted)
        for name, text in files.items():
            with open(f"{folder}/{name}", "w", encoding="utf-8") as file:
                file.write(text)
        mode = draw.choice(["run", "run", "summary", "changes", "changes"])
        asked = ["--script", "s.gv", "--mode", mode]
        turned = [*asked, "--turns", str(draw.randint(0, 9))] if draw.randint(0, 1) else asked
        told = wanted(asked, folder)
        if ran([binary, *turned], folder) != told or (mode == "changes" and not comes_back(binary, folder, files["s.gv"], told[1])):
            print(f"not the same: {folder}")
            break
        agreed += 1
        counts += Counter({f"scripts in mode {mode}": 1, "bytes of output": len(told[1]), "unsettled": told[1].count(b" unsettled")})
        counts += counted(files["s.gv"])
        for name in files:
            os.remove(f"{folder}/{name}")
        os.rmdir(folder)
    if given.counts:
        print("".join(f"{kind}: {count}\n" for kind, count in sorted(counts.items())), end="")
    print(f"{agreed} of {given.count} agreed")
    return 0 if agreed == given.count else 1


if __name__ == "__main__":
    sys.exit(main())
