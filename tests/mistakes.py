"""Runs tools/explain.py on each row of tests/tools/mistakes.rows, and compares what it tells. Also: the grammar that it goes by is
that of docs/LANGUAGE.md.

  tests/mistakes.py PROGRAM ROWS     writes the rows that differ, and at last 'PASSED FAILED'
"""

import contextlib
import io
import os
import re
import sys
import tempfile

TOP = os.path.dirname(os.path.dirname(os.path.abspath(__file__)))
sys.path.insert(0, os.path.join(TOP, "tools"))

import explain
import grammar

LOAD = "load graph G nodes 'n.csv' edges 'e.csv';\n"
NODES = "id,name:str,age:int\\n1,Ada,36\\n2,Ben,\\n3,Cem,7\\n"
EDGES = "src,dst,year:int,w:int,ok:bool\\n1,2,2018,5,true\\n2,3,2019,,\\n"


class Row:
    """A mistake: its script and data files, the program's answer, the place, and the hints that are wanted."""

    def __init__(self, name):
        self.name, self.script, self.nodes, self.edges, self.load = name, "", NODES, EDGES, LOAD
        self.answer, self.place, self.told = None, None, []


def rows_of(path):
    rows = []
    with open(path, encoding="utf-8") as file:
        for line in file:
            line = line.rstrip("\n")
            front, _, rest = line.partition(" ")
            if not line or front == "#":
                continue
            if line.startswith("  "):
                rows[-1].script += line[2:] + "\n"
            elif front in ("nodes", "edges"):
                setattr(rows[-1], front, rest)
            elif front == "script":
                rows[-1].load = rest + "\n"
            elif front == "!":
                rows[-1].answer = rest
            elif front == "@":
                rows[-1].place = rest
            elif front == ">":
                rows[-1].told.append(rest)
            else:
                rows.append(Row(line))
    return rows


def bytes_of(text):
    """A data file as a row spells it, with \\n and \\xHH."""
    return text.encode("utf-8").decode("unicode_escape").encode("latin-1")


def run(program, row):
    """What the tool tells, as lines."""
    with tempfile.TemporaryDirectory() as folder:
        before = os.getcwd()
        os.chdir(folder)
        try:
            os.mkdir("folder")
            for name, content in (("n.csv", bytes_of(row.nodes)), ("e.csv", bytes_of(row.edges))):
                with open(name, "wb") as file:
                    file.write(content)
            with open("s.gv", "w", encoding="utf-8") as file:
                file.write(row.load + row.script)
            out = io.StringIO()
            with contextlib.redirect_stdout(out):
                explain.explain(program, "s.gv")
        finally:
            os.chdir(before)
    return out.getvalue().splitlines()


def differing_rules():
    """The rules of docs/LANGUAGE.md that tools/grammar.py has in another form."""
    with open(os.path.join(TOP, "docs", "LANGUAGE.md"), encoding="utf-8") as file:
        blocks = re.findall(r"^```ebnf\n(.*?)^```", file.read(), re.MULTILINE | re.DOTALL)
    page = grammar.rules_of("\n".join(blocks).replace("quoted name", "quoted"))
    # (a tool reads one statement at a time)
    wanted, found = ({name: them for name, them in rules.items() if "." not in name} for rules in (page, grammar.RULES))
    wanted.pop("script")
    return [name for name in {**wanted, **found} if shape(page, name) != shape(grammar.RULES, name)] if wanted.keys() == found.keys() else ["their names"]


def shape(rules, name):
    """A rule with what its brackets hold in their place."""
    return [[shape(rules, part) if "." in part and part in rules else part for part in one if part != name] for one in rules[name]]


def main():
    program, path = sys.argv[1:]
    passed = failed = 0
    differing = differing_rules()
    if differing:
        failed += 1
        print(f"FAILED mistakes, the grammar: docs/LANGUAGE.md and tools/grammar.py differ in {', '.join(differing)}")
    else:
        passed += 1
    for row in rows_of(path):
        lines = run(program, row)
        wanted = [line for line in [row.answer, row.place, *row.told] if line is not None]
        if lines[:1] == [row.answer] and (row.place is None or row.place in lines[1:2]) and not set(wanted) - set(lines):
            passed += 1
            continue
        failed += 1
        print(f"FAILED mistakes, {row.name}: it tells another thing")
        print("    --- wanted", *wanted, "--- got", *lines, sep="\n    ")
    print(passed, failed)


if __name__ == "__main__":
    main()
