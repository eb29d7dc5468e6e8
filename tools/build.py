#!/usr/bin/env python3
"""Builds surge: proves each room that the program stands on, side by side, and then the program itself.

    tools/build.py                builds where a source is newer than the program, and says so on standard error
    tools/build.py run WORDS..    the same, and runs the program with these words in the caller's folder

The gate's command, `rt ci`, does it, on a copy that has these rooms alone, without their wrong bodies. It proves a room over the
statements of those below, which takes far less than over their proofs, as `rt lib` has it; and what it proves is kept on this machine,
for later builds and for the gate.

SURGE_JOBS says how many rooms are proved at a time, each by one process. Else there are as many as there are processors and memory
for, and where few rooms are ready, a room gets several processes.
"""

import collections
import contextlib
import fcntl
import glob
import os
import re
import shutil
import signal
import subprocess
import sys
import tempfile
import time

TOP = os.path.dirname(os.path.dirname(os.path.realpath(__file__)))
PROGRAM = "surge"
OUT = f"{TOP}/crates/{PROGRAM}/out"
BINARY = f"{OUT}/{PROGRAM}"
# Its time is that at which the build of the program began, so a source that was changed meanwhile is newer.
BUILT = f"{OUT}/built"
# What of a room no build reads.
LEFT_OUT = ("must-fail", "out")
INTERRUPTS = (signal.SIGINT, signal.SIGTERM, signal.SIGHUP)


class Failed(Exception):
    """A room was not proved, or the program not built. Its text is what to say."""


def crates():
    """Returns the line of each crate that the program stands on in this repository, and of the program, in the order of crates.txt."""
    lines, below = {}, {}
    with open(f"{TOP}/crates.txt", encoding="utf-8") as file:
        for line in file:
            name, found, deps = line.split("#")[0].partition(":")
            if found:
                lines[name.split()[0]], below[name.split()[0]] = line, deps.split()
    left, wanted = [PROGRAM], set()
    while left:
        name = left.pop()
        if name in lines and name not in wanted:
            wanted.add(name)
            left += below[name]
    return {name: line for name, line in lines.items() if name in wanted}


def copied(lines, folder):
    """Makes a repository of these crates in a folder."""
    for name in lines:
        shutil.copytree(f"{TOP}/crates/{name}", f"{folder}/crates/{name}", ignore=lambda _, names: set(names).intersection(LEFT_OUT))
    with open(f"{folder}/crates.txt", "w", encoding="utf-8") as to:
        to.writelines(lines.values())
    shutil.copyfile(f"{TOP}/HANDLES", f"{folder}/HANDLES")
    # (by this rt knows the top of a repository)
    os.mkdir(f"{folder}/.git")


def processes_of(session):
    """Returns the processes of a session that still run."""
    found = []
    for it in os.listdir("/proc"):
        # (one may end meanwhile)
        with contextlib.suppress(OSError):
            if it.isdigit() and os.getsid(int(it)) == session:
                found.append(int(it))
    return found


def at_work(session):
    """Returns the rooms at which provers of a session work."""
    rooms = set()
    for it in processes_of(session):
        with contextlib.suppress(OSError), open(f"/proc/{it}/cmdline", encoding="utf-8", errors="replace") as words:
            rooms.update(re.findall(r"\0--crate-name\0(\w+)\0", words.read()))
    return sorted(rooms)


def end_all(session):
    """Ends what a session has begun, first kindly."""
    for kind, seconds in ((signal.SIGTERM, 2), (signal.SIGKILL, 5)):
        last = time.monotonic() + seconds
        for it in processes_of(session):
            with contextlib.suppress(OSError):
                os.kill(it, kind)
        while processes_of(session) and time.monotonic() < last:
            time.sleep(0.05)


class Build:
    """A build: how many rooms there are, and those that are proved."""

    def __init__(self, total):
        self.begun, self.total, self.proved = time.monotonic(), total, 0

    def tell(self, text):
        seconds = int(time.monotonic() - self.begun)
        print(f"surge: {seconds // 60:3}:{seconds % 60:02}  {text}", file=sys.stderr, flush=True)

    def note(self, line, session):
        """Tells of a room that a line of the gate calls proved. Raises Failed where it calls one not proved."""
        found = re.match(r"rt: (\w+)( is kept| proved| NOT PROVED)", line)
        if not found:
            return
        if found[2] == " NOT PROVED":
            raise Failed(f"surge: {found[1]} was not proved, so there is no program")
        self.proved += 1
        still = ", ".join(at_work(session))
        kept = " (kept)" if found[2] == " is kept" else ""
        self.tell(f"{self.proved} of {self.total}: {found[1]}{kept}{f'; still: {still}' if still else ''}")

    def prove(self, folder):
        """Proves all rooms in a folder, builds the program there, and runs it on a small graph."""
        # (what rt writes comes here line by line)
        last, words = collections.deque(maxlen=40), {**os.environ, "PYTHONUNBUFFERED": "1"}
        if os.environ.get("SURGE_JOBS", "").isdigit():
            words["RT_JOBS"] = os.environ["SURGE_JOBS"]
        how = {"stdin": subprocess.DEVNULL, "stdout": subprocess.PIPE, "stderr": subprocess.STDOUT, "start_new_session": True}
        ran = subprocess.Popen(["rt", "ci"], cwd=folder, env=words, text=True, errors="replace", **how)
        try:
            for line in ran.stdout:
                last.append(line)
                self.note(line, ran.pid)
            if ran.wait():
                raise Failed(f"surge: {PROGRAM} was not built")
        except Failed as why:
            raise Failed(f"{''.join(last)}{why}") from None
        finally:
            end_all(ran.pid)


def placed(file, to):
    """Moves a file to where another one may be running."""
    shutil.copy2(file, f"{to}.new")
    os.replace(f"{to}.new", to)


def is_newest():
    """Returns whether the program is there and no source is newer."""
    try:
        built = os.stat(BUILT).st_mtime_ns
        sources = [f"{TOP}/crates.txt", f"{TOP}/HANDLES"]
        for part in ("src", "specs", "proofs"):
            for room in glob.glob(f"{TOP}/crates/*/{part}"):
                sources += [f"{at}/{it}" for at, _, names in os.walk(room) for it in names]
        return os.access(BINARY, os.X_OK) and all(os.stat(it).st_mtime_ns <= built for it in sources)
    except OSError:
        return False


@contextlib.contextmanager
def alone():
    """Waits until no other build runs in this checkout, and keeps others out."""
    os.makedirs(OUT, exist_ok=True)
    with open(f"{OUT}/building", "w", encoding="utf-8") as it:
        try:
            fcntl.flock(it, fcntl.LOCK_EX | fcntl.LOCK_NB)
        except BlockingIOError:
            print("surge: waiting for another build in this folder to end", file=sys.stderr, flush=True)
            fcntl.flock(it, fcntl.LOCK_EX)
        except OSError:
            # (some file systems have no locks)
            pass
        yield


def build():
    """Builds the program where it is not the newest."""
    if is_newest():
        return
    if not shutil.which("rt"):
        raise Failed("surge: it is built by Rattle's toolchain, whose command rt is not in the path")
    with alone():
        if is_newest():
            return
        why = "since a source is newer" if os.access(BINARY, os.X_OK) else "for the first time: each room is proved, which takes some tens of minutes on four processors"
        print(f"surge: building, {why}", file=sys.stderr, flush=True)
        # (a build that was killed leaves its copy)
        for it in glob.glob(f"{OUT}/copy.*"):
            shutil.rmtree(it, ignore_errors=True)
        begun, lines, folder = time.time_ns(), crates(), tempfile.mkdtemp(prefix="copy.", dir=OUT)
        try:
            copied(lines, folder)
            made = Build(len(lines))
            made.prove(folder)
            placed(f"{folder}/crates/{PROGRAM}/out/{PROGRAM}", BINARY)
        finally:
            # (a second interrupt would leave the rest behind)
            for it in INTERRUPTS:
                signal.signal(it, signal.SIG_IGN)
            shutil.rmtree(folder, ignore_errors=True)
            end_at_interrupts()
        with open(BUILT, "w", encoding="utf-8"):
            pass
        os.utime(BUILT, ns=(begun, begun))
        made.tell("the program is built")


def end_at_interrupts():
    """Has an interrupt end this program on its usual way out, which ends what it began."""
    for it in INTERRUPTS:
        signal.signal(it, lambda number, _: sys.exit(128 + number))


def main(words):
    end_at_interrupts()
    try:
        build()
    except Failed as why:
        print(why, file=sys.stderr)
        return 1
    if words[:1] == ["run"]:
        os.execv(BINARY, [BINARY, *words[1:]])
    return 0


if __name__ == "__main__":
    sys.exit(main(sys.argv[1:]))
