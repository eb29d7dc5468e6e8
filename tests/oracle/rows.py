#!/usr/bin/env python3
"""The oracle's own test: what it answers to each whole run, against what stands in the run's folder.

    rows.py FOLDER..

Each FOLDER has runs, as tests/runs does. The names of those that differ are printed; then the status is 1. Left out are runs
whose words are no texts or whose output goes elsewhere, and those of millions of records, which are too many for Python.
"""

import os
import shutil
import subprocess
import sys
import tempfile

sys.path.insert(0, os.path.dirname(os.path.abspath(__file__)))

import faults
import oracle

MOST_BYTES = 2**23


def text_of(path, missing):
    if not os.path.exists(path):
        return missing
    with open(path, "rb") as file:
        return file.read()


def words_of(folder):
    """The words of a run, or nothing where they are no texts."""
    try:
        return text_of(f"{folder}/args", b"--script\ns.gv\n").decode().split("\n")[:-1]
    except UnicodeDecodeError:
        return None


def are_many(folder):
    """Whether a file is large, and not too large to be read."""
    return any(MOST_BYTES < os.path.getsize(f"{folder}/{it}") <= 2**28 for it in os.listdir(folder))


def is_right(folder):
    """Whether the oracle answers what stands in the folder of a run; nothing where it is not asked."""
    words = words_of(folder)
    if words is None or os.path.exists(f"{folder}/to"):
        return None
    with tempfile.TemporaryDirectory() as room:
        work = f"{room}/work"
        shutil.copytree(folder, work)
        if os.path.exists(f"{work}/make"):
            subprocess.run(["sh", "make"], cwd=work, check=True)
        if are_many(work):
            return None
        os.chdir(work)
        try:
            got = faults.answer(words)
            # (where there is no fault, oracle.py has to say the same by itself)
            same = got.status != 0 or got.out == oracle.answer(oracle.words(words))
        finally:
            os.chdir("/")
    wanted = (int(text_of(f"{folder}/status", b"0")), text_of(f"{folder}/stdout", b""), text_of(f"{folder}/stderr", b""))
    return same and got == wanted


def main(roots):
    folders = [f"{root}/{name}" for root in roots for name in sorted(os.listdir(root))]
    answers = [(it, is_right(it)) for it in map(os.path.abspath, folders)]
    for folder, right in answers:
        if right is False:
            print(f"the oracle differs from {folder}")
    counts = [sum(right is wanted for _, right in answers) for wanted in (True, False)]
    print(f"{counts[0]} rows of the oracle are right, {counts[1]} are not")
    return 1 if counts[1] else 0


if __name__ == "__main__":
    sys.exit(main(sys.argv[1:]))
