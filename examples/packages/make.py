#!/usr/bin/env python3
"""Makes nodes.csv and edges.csv of this folder from what a Debian release says of its packages.

    apt-cache dumpavail | examples/packages/make.py

A node is a package: those of the priorities required, important and standard, and all that these depend on or recommend, one behind the other.
A package is of level 0 where it is required or something required depends on it, by one step or more; of level 1 and 2 likewise for important and
standard ones; and of level 3 where it is only recommended. An edge leads from a package to one that it depends on or recommends; of
alternatives the first that the release has is taken. Its level is the greater of both packages' levels.
"""

import csv
import re
import sys

PRIORITIES = ("required", "important", "standard")
FIELDS = (("Pre-Depends", "depends"), ("Depends", "depends"), ("Recommends", "recommends"))


def records(lines):
    """Yields the fields of one package after the other."""
    fields, name = {}, None
    for line in lines:
        if line == "\n":
            yield fields
            fields = {}
        elif line[0] in " \t":
            fields[name] += line.strip()
        else:
            name, _, value = line.partition(":")
            fields[name] = value.strip()
    if fields:
        yield fields


def needed(package, known):
    """Returns the names of the packages that a package needs, each with how."""
    found = {}
    for field, kind in FIELDS:
        for alternatives in package.get(field, "").split(","):
            names = [re.split(r"[ (:\[]", it.strip())[0] for it in alternatives.split("|")]
            name = next((it for it in names if it in known), None)
            if name and name != package["Package"]:
                found.setdefault(name, kind)
    return found


def levels_of(known):
    """Returns the level of each package that is chosen."""
    levels = {}
    for level, priority in enumerate(PRIORITIES):
        left = sorted(name for name, it in known.items() if it.get("Priority") == priority)
        while left:
            name = left.pop()
            if name not in levels:
                levels[name] = level
                left += [other for other, kind in needed(known[name], known).items() if kind == "depends"]
    left = sorted(levels)
    while left:
        for other in needed(known[left.pop()], known):
            if other not in levels:
                levels[other] = len(PRIORITIES)
                left.append(other)
    return levels


def main():
    known = {it["Package"]: it for it in records(sys.stdin) if "Package" in it}
    levels = levels_of(known)
    edges = [(name, other, kind) for name in levels for other, kind in needed(known[name], known).items()]
    ids = {name: number for number, name in enumerate(sorted(levels), 1)}
    with open("nodes.csv", "w", newline="", encoding="utf-8") as to:
        out = csv.writer(to, lineterminator="\n")
        out.writerow(["id", "name:str", "section:str", "level:int", "kb:int"])
        for name, number in ids.items():
            out.writerow([number, name, known[name].get("Section", ""), levels[name], known[name].get("Installed-Size", "")])
    with open("edges.csv", "w", newline="", encoding="utf-8") as to:
        out = csv.writer(to, lineterminator="\n")
        out.writerow(["src", "dst", "kind:str", "level:int"])
        for one, other, kind in sorted(edges, key=lambda it: (ids[it[0]], ids[it[1]])):
            out.writerow([ids[one], ids[other], kind, max(levels[one], levels[other])])


if __name__ == "__main__":
    main()
