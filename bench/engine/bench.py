#!/usr/bin/env python3
"""Times the whole program on one thread, beside C++ programs, compares what they print, and prints a table in Markdown.

Data and the C++ programs stand in a folder of their own, $BENCH_DIR/engine, so a second call finds them there.
Seconds are processor seconds, of the user and the system together: of several runs the least. A peak that is not above
that of this Python isn't told.
"""

import argparse
import contextlib
import hashlib
import os
import resource
import shutil
import subprocess
import sys
import tempfile
import time
from dataclasses import dataclass

from cases import all_cases

HERE = os.path.dirname(os.path.abspath(__file__))
TOP = os.path.dirname(os.path.dirname(HERE))
# What a case may take before no further round of it is begun, in processor seconds, unless it is told.
LONG = 15
HANDED_IN = {"scratch": "scratch.cpp", "histories-plain": "histories_plain.cpp", "histories": "histories.cpp"}


class Failed(Exception):
    """Nothing can be measured: what is wrong."""


@dataclass
class Figures:
    """The least figures of the runs of a side: processor and wall seconds, and peak memory in MB."""

    seconds: float
    wall: float
    peak: float

    def least(self, other):
        return Figures(min(self.seconds, other.seconds), min(self.wall, other.wall), min(self.peak, other.peak))


def options():
    reader = argparse.ArgumentParser(description=__doc__, formatter_class=argparse.RawDescriptionHelpFormatter)
    reader.add_argument("--binary", metavar="FILE", help="the program; else $SURGE_BINARY, else crates/surge/out/surge")
    reader.add_argument("--peers", metavar="FOLDER", help="where further C++ programs are; else $PEERS")
    reader.add_argument("--workloads", metavar="NAMES", help="of these workloads alone, with commas between")
    reader.add_argument("--programs", metavar="NAMES", help="of these programs alone, with commas between")
    reader.add_argument("--sides", metavar="NAMES", help="of these C++ programs alone, with commas between, or none")
    reader.add_argument("--rounds", type=int, default=3, help="how often each side runs at most (3)")
    reader.add_argument("--long", type=int, default=LONG, metavar="SECONDS", help=f"no round is begun once all sides ran so long ({LONG})")
    reader.add_argument("--limit", type=int, default=120, help="how many processor seconds a run may take (120)")
    reader.add_argument("--list", action="store_true", help="names the workloads and their programs, and ends")
    return reader.parse_args()


def binary(asked):
    found = os.path.abspath(asked or os.environ.get("SURGE_BINARY") or os.path.join(TOP, "crates/surge/out/surge"))
    if not os.access(found, os.X_OK):
        raise Failed(f"there is no program at {found}: build it by ./surge or rt ci, or name it by --binary")
    return found


def work_folder():
    base = os.environ.get("BENCH_DIR") or os.path.join(os.environ.get("TMPDIR", "/tmp"), "surge-bench")
    return os.path.abspath(os.path.join(base, "engine"))


def compiled(source, work):
    """The program of a C++ file, built anew where the file or this folder's other file is newer."""
    program = os.path.join(work, os.path.basename(source)[: -len(".cpp")])
    folder = os.path.dirname(source)
    newest = max(os.path.getmtime(os.path.join(folder, name)) for name in os.listdir(folder) if name.endswith("pp"))
    if not os.path.exists(program) or os.path.getmtime(program) < newest:
        words = [os.environ.get("CXX", "c++"), "-O2", "-std=c++17", "-o", program, source]
        if subprocess.run(words, stderr=sys.stderr).returncode:
            raise Failed(f"{source} can't be built")
    return program


def cpp_programs(peers, sides, work):
    """The C++ programs that are at hand, by name."""
    sources = {name: os.path.join(HERE, f"{name}.cpp") for name in ("plain", "tables")}
    for name, source in HANDED_IN.items():
        if peers and os.path.exists(os.path.join(peers, source)):
            sources[name] = os.path.join(peers, source)
    return {name: compiled(source, work) for name, source in sources.items() if not sides or name in sides}


def data_of(workload, work):
    """The folder of a workload's data, which is made by another process, as that takes much memory."""
    folder = os.path.join(work, "data", workload)
    maker = os.path.join(HERE, "workloads.py")
    stamp = os.path.join(folder, "made")
    if workload and (not os.path.exists(stamp) or os.path.getmtime(stamp) < os.path.getmtime(maker)):
        print(f"making the data of {workload}", file=sys.stderr)
        shutil.rmtree(folder, ignore_errors=True)
        subprocess.run([sys.executable, maker, folder, workload], check=True)
        open(stamp, "w").close()
    os.makedirs(folder, exist_ok=True)
    return folder


def digest(name):
    told = hashlib.sha256()
    with open(name, "rb") as file:
        while piece := file.read(1 << 20):
            told.update(piece)
    return told.hexdigest()


def measure(words, folder, limit):
    """Runs a program in a folder: its figures, and a digest of what it printed; nothing where it did not end well."""
    handle, name = tempfile.mkstemp()
    os.chdir(folder)
    quiet = (os.POSIX_SPAWN_OPEN, 2, os.devnull, os.O_WRONLY, 0)
    begun = time.perf_counter()
    child = os.posix_spawn(words[0], words, os.environ, file_actions=[(os.POSIX_SPAWN_DUP2, handle, 1), quiet])
    with contextlib.suppress(ProcessLookupError):
        resource.prlimit(child, resource.RLIMIT_CPU, (limit, limit))
    _, status, used = os.wait4(child, 0)
    wall = time.perf_counter() - begun
    os.close(handle)
    figures = Figures(used.ru_utime + used.ru_stime, wall, used.ru_maxrss / 1024)
    printed = digest(name)
    os.remove(name)
    return (figures, printed) if status == 0 else None


def make_files(case, program, folder):
    """The files that the sides of a case read, as the program prints them."""
    for name, words in case.made:
        with open(os.path.join(folder, name), "wb") as to:
            subprocess.run([program, *words], cwd=folder, stdout=to, check=True)


def words_of(name, case, program, folder):
    """The words of a C++ program."""
    if name == "tables":
        return [program, os.path.join(folder, "tables.txt")]
    return [program, folder, case.program, "run"] if case.workload else [program, "--sample", "1"]


def sides_of(case, program, cpp, folder):
    """Each side's words, by name: those of the program first."""
    sides = {name: [program, *words] for name, words in case.ours.items()}
    for name in case.peers:
        if name not in cpp or (name == "plain" and case.program not in ("hops", "dist", "aggregate")):
            continue
        sides[name] = words_of(name, case, cpp[name], folder)
    return sides


def run_case(case, sides, folder, rounds, long, limit):
    """The figures of each side that ended well, and whether all did and printed the same, each time, or as many texts as sides."""
    found, printed, left, spent = {}, set(), dict(sides), 0.0
    for _round in range(case.rounds or rounds):
        if spent > long:
            break
        for name, words in list(left.items()):
            ran = measure(words, folder, limit)
            if ran is None:
                print(f"{case.name} {case.program}: {name} did not end well within {limit} s", file=sys.stderr)
                del left[name]
                continue
            figures, told = ran
            printed.add(told)
            spent += figures.seconds
            found[name] = found[name].least(figures) if name in found else figures
    for name in sides.keys() - left.keys():
        found.pop(name, None)
    return found, len(printed) == (1 if case.alike else len(sides)) and len(left) == len(sides)


def least_peak():
    """This process's own peak in MB, below which none of a process that it began is told."""
    return resource.getrusage(resource.RUSAGE_SELF).ru_maxrss / 1024


def judged(bound, found):
    """A bound, and whether it is met."""
    if bound.side not in found or bound.other not in found:
        return f"{bound.text()}: not measured"
    ours, theirs = (getattr(found[name], bound.measure) for name in (bound.side, bound.other))
    if bound.measure == "peak" and max(ours, theirs) <= least_peak():
        return f"{bound.text()}: too small to tell"
    return f"{bound.text()}: {'met' if ours <= bound.factor * theirs else 'not met'} ({ours / theirs:.2f})"


def row(case, side, found, ratios):
    figures = found[side]
    cells = [case.name, case.program, side, f"{figures.seconds:.3f}", f"{figures.wall:.3f}"]
    cells.append(f"{figures.peak:.0f}" if figures.peak > least_peak() else "")
    for name in ratios:
        told = name in found and name != side
        cells.append(f"{figures.seconds / found[name].seconds:.2f}" if told else "")
    cells.append("; ".join(judged(bound, found) for bound in case.bounds if bound.side == side))
    print("| " + " | ".join(cells) + " |", flush=True)


def head(ratios):
    names = ["Workload", "Program", "Side", "Seconds", "Wall", "Peak MB", *(f"/ {name}" for name in ratios), "Bound"]
    print("| " + " | ".join(names) + " |")
    print("|" + "---|" * len(names), flush=True)


def chosen(asked):
    for case in all_cases():
        named = asked.workloads is None or case.name in asked.workloads.split(",")
        if named and (asked.programs is None or case.program in asked.programs.split(",")):
            yield case


def bench(asked):
    """Runs and prints all cases. The answer is whether the sides of each case printed the same."""
    program, work = binary(asked.binary), work_folder()
    os.makedirs(work, exist_ok=True)
    peers = asked.peers or os.environ.get("PEERS")
    cpp = cpp_programs(peers and os.path.abspath(peers), asked.sides and asked.sides.split(","), work)
    same = True
    head(list(cpp))
    for case in chosen(asked):
        folder = data_of(case.workload, work)
        make_files(case, program, folder)
        sides = sides_of(case, program, cpp, folder)
        found, agree = run_case(case, sides, folder, asked.rounds, asked.long, asked.limit)
        for side in found:
            row(case, side, found, list(cpp))
        if not agree:
            print(f"{case.name} {case.program}: the sides don't all print what they should", file=sys.stderr)
        same = same and agree
    return same


def main():
    asked = options()
    if asked.list:
        for case in all_cases():
            print(case.name, case.program)
        return 0
    try:
        return 0 if bench(asked) else 1
    except Failed as fault:
        print(f"bench: {fault}", file=sys.stderr)
        return 2


if __name__ == "__main__":
    sys.exit(main())
