#!/usr/bin/env python3
"""What the gate costs: processor minutes of each room's proof, of its tests and of its edits, and their ratios to all proofs.

    tests/gate_minutes.py record FILE COMMAND..   runs a command, as `rt ci` or `rt must-fail NAME`, and notes in FILE what each of its provers took
    tests/gate_minutes.py watch FILE PROCESS      notes it of the provers below a process, until it is told to end
    tests/gate_minutes.py table FILE..            prints docs/ARCHITECTURE.md's table of what was noted
    tests/gate_minutes.py program FILE..          prints what the proofs of the rooms took that the program stands on, and the longest chain of them
    tests/gate_minutes.py edits FILE..            prints what each edit took

It looks twice a second at the processes below the command. Where several files are given their rooms are put together: of a room's proof,
its tests and its edits the file that is named last and has them counts.
"""

import collections
import json
import os
import signal
import subprocess
import sys
import time

TOP = os.path.dirname(os.path.dirname(os.path.realpath(__file__)))
TICK = os.sysconf("SC_CLK_TCK")
KINDS = ("proof", "tests", "edits")
# What all edits and all tests may take, and the whole, of all proofs.
BOUNDS = {"edits": 0.7, "tests": 0.6, "whole": 2.3}
# Rooms that take less are one row of the table.
SHOWN = 1.0


def told(path):
    try:
        with open(path, "rb") as it:
            return it.read()
    except OSError:
        return b""


def processes():
    """Returns each process: its parent, its processor seconds with those of children that it waited for, and when it began."""
    found = {}
    for name in os.listdir("/proc"):
        if name.isdigit():
            line = told(f"/proc/{name}/stat").decode(errors="replace")
            words = line[line.rfind(")") + 2 :].split()
            if len(words) > 20:
                found[int(name)] = (int(words[1]), (int(words[11]) + int(words[12])) / TICK, words[19])
    return found


def below(root, found):
    """Returns the processes that stand below another."""
    children = collections.defaultdict(list)
    for process, (parent, _, _) in found.items():
        children[parent].append(process)
    left, inside = [root], []
    while left:
        for it in children[left.pop()]:
            inside.append(it)
            left.append(it)
    return inside


def work_of(process):
    """Returns the room that a prover works at, whether at its proof, its tests or an edit, and which edit, or None if it is no prover."""
    words = told(f"/proc/{process}/cmdline").decode(errors="replace").split("\0")
    if "--crate-name" not in words:
        return None
    room = words[words.index("--crate-name") + 1]
    try:
        folder = os.readlink(f"/proc/{process}/cwd")
    except OSError:
        return None
    over = words[words.index("--incremental") + 1] if "--incremental" in words else ""
    if "/rt-edit-" in folder:
        return [room, "edits", os.path.basename(over) or "alone"]
    return [room, "tests" if "--test" in words else "proof", ""]


class Notes:
    """What the provers below a process took so far."""

    def __init__(self, file, root):
        self.file, self.root, self.begun = file, root, time.time()
        self.works, self.took = {}, {}

    def look(self):
        found = processes()
        for it in below(self.root, found):
            key = it, found[it][2]
            if key not in self.works:
                self.works[key] = work_of(it)
            if self.works[key]:
                self.took[key] = [*self.works[key], found[it][1]]

    def write(self):
        with open(f"{self.file}.new", "w", encoding="utf-8") as to:
            json.dump({"wall": time.time() - self.begun, "work": list(self.took.values())}, to)
        os.replace(f"{self.file}.new", self.file)

    def keep_on(self, is_over):
        """Looks until it is over, and writes now and then and at the end."""
        written = time.time()
        while not is_over():
            self.look()
            if time.time() > written + 10:
                self.write()
                written = time.time()
            time.sleep(0.5)
        self.write()


def record(file, command):
    """Runs a command, notes what its provers took, and returns its status."""
    ran = subprocess.Popen(command)
    Notes(file, ran.pid).keep_on(lambda: ran.poll() is not None)
    return ran.returncode


def watch(file, process):
    """Notes what the provers below a process take, until this is told to end or the process did."""
    told_to_end = []
    signal.signal(signal.SIGTERM, lambda number, _: told_to_end.append(number))
    Notes(file, int(process)).keep_on(lambda: told_to_end or not os.path.isdir(f"/proc/{process}"))
    return 0


def minutes_in(files):
    """Returns by room and kind the minutes that the files tell, and by room and number those of the edits."""
    whole, edits = collections.defaultdict(dict), {}
    for file in files:
        with open(file, encoding="utf-8") as it:
            work = json.load(it)["work"]
        sums, parts = collections.Counter(), collections.Counter()
        for room, kind, edit, seconds in work:
            sums[room, kind] += seconds / 60
            parts[room, edit] += seconds / 60 if kind == "edits" else 0
        for (room, kind), minutes in sums.items():
            whole[room][kind] = minutes
        edits.update({key: minutes for key, minutes in parts.items() if key[1]})
    return whole, edits


def stands_on():
    """Returns what each room stands on, in the order of crates.txt."""
    with open(f"{TOP}/crates.txt", encoding="utf-8") as lines:
        rooms = [it.split(":") for it in lines if ":" in it.split("#")[0]]
    names = {room.strip() for room, _ in rooms}
    return {room.strip(): [it for it in lower.split() if it in names] for room, lower in rooms}


def rooms_here():
    return list(stands_on())


def row(name, minutes):
    told_minutes = [minutes.get(it, 0) for it in KINDS]
    shown = [f"{it:.1f}" if it >= 0.05 else "" for it in told_minutes]
    return f"| {name} | {' | '.join(shown)} | {sum(told_minutes):.1f} |"


def table(files):
    whole, _ = minutes_in(files)
    rooms = {it: whole.get(it, {}) for it in rooms_here()}
    total = lambda them: {kind: sum(it.get(kind, 0) for it in them) for kind in KINDS}
    large = sorted((it for it in rooms if sum(rooms[it].values()) >= SHOWN), key=lambda it: -sum(rooms[it].values()))
    small = [rooms[it] for it in rooms if it not in large]
    print("| Room | Its proof | With its tests, the room once more | Its edits | All |\n|---|---|---|---|---|")
    for it in large:
        print(row(f"`{it}`", rooms[it]))
    print(row(f"{len(small)} more", total(small)))
    every = total(rooms.values())
    print(row(f"all {len(rooms)} rooms", every))
    proofs = max(every["proof"], 1e-9)
    ratios = {"edits": every["edits"] / proofs, "tests": every["tests"] / proofs, "whole": sum(every.values()) / proofs}
    print("\n| Of all proofs | Now | At most |\n|---|---|---|")
    for name, text in (("edits", "all edits"), ("tests", "all tests"), ("whole", "the whole")):
        print(f"| {text} | {ratios[name]:.2f} | {BOUNDS[name]} |")


def program(files):
    whole, _ = minutes_in(files)
    lower = stands_on()
    inside, left = set(), ["surge"]
    while left:
        room = left.pop()
        inside.add(room)
        left += [it for it in lower[room] if it not in inside]
    proofs = {it: whole.get(it, {}).get("proof", 0) for it in lower if it in inside}
    chains = {}
    for it in proofs:
        longest = max((chains[below] for below in lower[it]), default=(0, []))
        chains[it] = longest[0] + proofs[it], [*longest[1], it]
    for it in sorted(proofs, key=lambda it: -proofs[it]):
        print(f"{proofs[it]:6.1f}  {it}")
    print(f"{sum(proofs.values()):6.1f}  all {len(proofs)} rooms")
    print(f"{chains['surge'][0]:6.1f}  the longest chain: {' '.join(chains['surge'][1])}")


def edit_names(room):
    folder = f"{TOP}/crates/{room}/must-fail"
    return sorted(it[: -len(".edit")] for it in os.listdir(folder) if it.endswith(".edit")) if os.path.isdir(folder) else []


def edits(files):
    _, parts = minutes_in(files)
    for (room, number), minutes in sorted(parts.items()):
        names = edit_names(room)
        if number.isdigit() and int(number) < len(names):
            number = names[int(number)]
        elif number == "alone" and len(names) == 1:
            number = f"{names[0]} (from nothing)"
        elif number == "seed":
            number = "what its edits begin with"
        print(f"{60 * minutes:6.0f} s  {room}  {number}")


def main(words):
    if len(words) >= 3 and words[0] == "record":
        return record(words[1], words[2:])
    if len(words) == 3 and words[0] == "watch":
        return watch(*words[1:])
    shown = {"table": table, "program": program, "edits": edits}
    if len(words) >= 2 and words[0] in shown:
        shown[words[0]](words[1:])
        return 0
    print(__doc__, file=sys.stderr)
    return 2


if __name__ == "__main__":
    sys.exit(main(sys.argv[1:]))
