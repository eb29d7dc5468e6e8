#!/usr/bin/env python3
"""Says which wrong bodies, of this folder and of crates/*/must-fail, can't be written any more, since the text that they change isn't there once."""

import glob
import os
import sys

TOP = os.path.dirname(os.path.dirname(os.path.dirname(os.path.realpath(__file__))))


def fault_of(edit, room):
    """Returns why the edit can't be made in its room, or None."""
    texts, path, old, pairs = {}, None, None, 0
    with open(edit, encoding="utf-8") as lines:
        for line in lines.read().split("\n"):
            word, _, rest = line.partition(": ")
            if word == "file":
                path = f"{TOP}/crates/{room}/{rest.strip()}"
                if not os.path.isfile(path):
                    return f"there is no {rest.strip()}"
                if path not in texts:
                    with open(path, encoding="utf-8") as it:
                        texts[path] = it.read()
            elif word == "old":
                old = rest
            elif line.startswith("new:") and path and old:
                if texts[path].count(old) != 1:
                    return f"this stands there {texts[path].count(old)} times: {old}"
                texts[path], pairs = texts[path].replace(old, line[len("new:") :].removeprefix(" ")), pairs + 1
    return None if pairs else "it changes nothing"


def main():
    here = glob.glob(f"{TOP}/tests/wrong_bodies/*/*.edit")
    edits = [(it, it.split("/")[-2]) for it in here] + [(it, it.split("/")[-3]) for it in glob.glob(f"{TOP}/crates/*/must-fail/*.edit")]
    faults = [f"{os.path.relpath(edit, TOP)}: {why}" for edit, room in sorted(edits) for why in [fault_of(edit, room)] if why]
    print("\n".join([*faults, f"{len(edits)} wrong bodies, {len(faults)} can't be written"]))
    return 1 if faults else 0


if __name__ == "__main__":
    sys.exit(main())
