#!/usr/bin/env python3
"""Explains the fault that surge finds in a script or in its data files.

It runs the program's check on the script, in the folder in which it is run itself, and tells what its line on standard
error means: the line of the script or of the data file with a mark under the place, what is wanted there, the names or
columns that there are, and what is usually meant. Where the check finds nothing, it tells what is no fault and yet hardly
meant, as a run from a node that isn't there.

The status is 0 where there is no fault, 1 where one is explained, and 2 where the program could not be run.

  tools/explain.py s.gv

The program is the one that --surge names, or else the variable SURGE_BINARY, or else what ./surge built.
"""

import argparse
import csv
import os
import re
import subprocess
import sys

TOP = os.path.dirname(os.path.dirname(os.path.realpath(__file__)))
sys.path.insert(0, os.path.dirname(os.path.abspath(__file__)))

import data_faults
import script_faults
from gvdl import Script, Text
from reading import told

OF_TEXT = re.compile(r"surge: script: line (\d+) column (\d+): (\w+)")
OF_STATEMENT = re.compile(r"surge: script: statement (\d+): (\w+)")
OF_DATA = re.compile(r"surge: data: (nodes|edges|insert \d+) record (\d+) column (\d+): (\w+)")
OF_SCRIPT = re.compile(r"surge: script: (\w+)")
ABSENT = re.compile(r"surge: absent: (script|nodes|edges|insert \d+)")

# How much of a line is shown on each side of the place, and how many edges are read for what is no fault.
SIDE = 60
MOST_READ = 64 * 2**20


def program_of(asked):
    """The program that checks the script."""
    named = asked or os.environ.get("SURGE_BINARY")
    built = os.path.join(TOP, "crates", "surge", "out", "surge")
    program = named or built
    if os.path.isfile(program) and os.access(program, os.X_OK):
        return os.path.abspath(program)
    print(f"explain.py: there is no program at {program}: ./surge builds it, or --surge names it", file=sys.stderr)
    sys.exit(2)


def checked(program, path):
    """What the program answers to the script: its line on standard error, and its status."""
    try:
        # (a name that begins with a hyphen is no option)
        done = subprocess.run([program, f"--script={path}", "--mode=check"], stdin=subprocess.DEVNULL, capture_output=True)
    except OSError as fault:
        print(f"explain.py: {program} can't be run: {fault.strerror}", file=sys.stderr)
        sys.exit(2)
    return done.stderr.decode("utf-8", errors="replace").strip(), done.returncode


def underlined(line, begin, end):
    """A line with a mark under its characters from begin to end; of a long line a part."""
    left, right = max(0, begin - SIDE), min(len(line), max(end, begin + 1) + SIDE)
    shown = ("..." if left else "") + line[left:right] + ("..." if right < len(line) else "")
    end = min(max(end, begin + 1), max(right, begin + 1))
    front = ("..." if left else "") + line[left:begin]
    mark = "".join(sign if sign == "\t" else " " for sign in front) + "^" * (end - begin)
    return f"    {shown}\n    {mark}"


def tell_script(path, text, finding):
    """The place of a finding in the script, and what is told of it."""
    number, column = text.place(finding.begin)
    line = text.line(number)
    begin = finding.begin - text.begins[number - 1]
    end = min(finding.end - text.begins[number - 1], len(line))
    print(f"{path}, line {number}, column {column}")
    print(underlined(line, begin, end))
    for sentence in finding.told:
        print(sentence)


def tell_data(finding):
    """The place of a finding in a data file, and what is told of it."""
    if finding.record is None:
        print(finding.path)
    else:
        column = f", column {finding.column}" if finding.column else ""
        print(f"{finding.path}, line {finding.line}, record {finding.record.number}{column}")
        print(underlined(finding.text, finding.begin, finding.end))
    for sentence in finding.told:
        print(sentence)


def tell_absent(what, path, script):
    """A file that isn't there."""
    named = path if what == "script" else script.file_of(what)
    inserted = f"file {named}, which statement {what.split()[-1]} inserts," if what.startswith("insert") else f"{what} file {named}"
    print(f"The {f'script {named}' if what == 'script' else inserted} is not there.")
    near = data_faults.beside(named)
    if near:
        print(near)
    if what != "script" and not os.path.isabs(named):
        print(f"File names in a script are looked up in the folder in which surge is run, now {os.getcwd()}.")
        by_script = os.path.join(os.path.dirname(os.path.abspath(path)), named)
        if os.path.exists(by_script):
            print(f"It is there beside the script: run surge in {os.path.dirname(os.path.abspath(path))}.")


def tell_unread(path, script):
    """A file that can't be read."""
    for what, named in (("script", path), *(script.data_files() if script else ())):
        if named is None:
            continue
        if os.path.isdir(named):
            print(f"The {what} {named} is a folder, and a file is wanted.")
            files = [one for one in sorted(os.listdir(named)) if one.endswith(".gv" if what == "script" else ".csv")]
            if files:
                print(f"In it {'is' if len(files) == 1 else 'are'} {', '.join(os.path.join(named, one) for one in files[:5])}.")
            return
        if os.path.exists(named) and not os.access(named, os.R_OK):
            print(f"The {what} {named} may not be read by this user.")
            return
    print("A file can't be read: the script, the nodes file, the edges file or one that is inserted.")


def hardly_meant(path, text, script):
    """What is no fault and yet hardly meant."""
    sources = list(script_faults.sources_of(text))
    windows = list(script_faults.windows_of_script(text))
    found = []
    if sources:
        ids = ids_of(script.nodes, {number for number, _, _ in sources})
        for number, token, program in sources:
            if number not in ids:
                found.append((token, f"There is no node {number}, so `{program}` has no value at any node. (This is no fault.)"))
    if windows and os.path.getsize(script.edges) <= MOST_READ:
        reach = reach_of(script.edges, {name for name, _, _, _, _ in windows})
        for name, first, last, width, token in windows:
            ends = reach.get(name)
            if ends is None:
                found.append((token, f"No edge has a value of `{name}`, so no view of this window has an edge. (This is no fault.)"))
            elif last + width <= ends[0] or first > ends[1]:
                lie = f"The values of `{name}` lie from {ends[0]} to {ends[1]}"
                found.append((token, f"{lie}, so no view of this window has an edge. (This is no fault.)"))
    for token in script_faults.nones_of(text):
        found.append((token, "A comparison with `none` holds nowhere: it is `is none`. (This is no fault.)"))
    for token, sentence in found:
        tell_script(path, text, script_faults.at(token, sentence))
    return found


def ids_of(path, wanted):
    """Those of these ids that nodes have."""
    found = set()
    for record in data_faults.records_of(path):
        if record.number > 1 and int(record.fields[0]) in wanted:
            found.add(int(record.fields[0]))
            if found == wanted:
                break
    return found


def reach_of(path, names):
    """The least and the greatest value of these columns."""
    columns = [(place, name) for place, (name, _) in enumerate(data_faults.header_of(path)) if name in names]
    found = {}
    for record in data_faults.records_of(path):
        for place, name in columns if record.number > 1 else ():
            if record.fields[place] != "":
                value = int(record.fields[place])
                least, most = found.get(name, (value, value))
                found[name] = min(least, value), max(most, value)
    return found


def tell_whole(fault, path):
    if fault == "BadForm":
        print("The language has the forms 1 and 2: `form 2;`, or no form, which is form 1.")
    elif fault == "TooLarge":
        print(f"The script {path} has more than 1,048,576 bytes (2^20).")
    else:
        with open(path, "rb") as file:
            data = file.read()
        try:
            data.decode("utf-8")
        except UnicodeDecodeError as wrong:
            line = data.count(b"\n", 0, wrong.start) + 1
            print(f"{path}, line {line}")
            print("The script is not UTF-8: it may be Latin-1 or Windows-1252 (iconv -f WINDOWS-1252 -t UTF-8), or UTF-16 (iconv -f UTF-16 -t UTF-8).")


def read_script(path):
    """The script's text and what it names; none where it can't be read."""
    try:
        with open(path, "rb") as file:
            text = Text(file.read())
    except OSError:
        return None, None
    return text, Script(text.text)


def explain(program, path):
    """Tells what the program's answer means, and answers whether there is a fault."""
    answer, status = checked(program, path)
    text, script = read_script(path)
    if status == 0:
        print(f"{path}: no fault")
        try:
            hardly_meant(path, text, script)
        except (OSError, csv.Error, ValueError, IndexError):
            pass
        return False
    print(answer)
    of_text, of_statement, of_data = OF_TEXT.fullmatch(answer), OF_STATEMENT.fullmatch(answer), OF_DATA.fullmatch(answer)
    of_script, absent = OF_SCRIPT.fullmatch(answer), ABSENT.fullmatch(answer)
    if of_text:
        tell_script(path, text, script_faults.of_text(text, of_text[3], int(of_text[1]), int(of_text[2])))
    elif of_statement:
        nodes, edges = data_faults.properties_of(script.nodes, 1), data_faults.properties_of(script.edges, 2)
        finding = script_faults.of_statement(text, of_statement[2], int(of_statement[1]), nodes, edges)
        if finding:
            tell_script(path, text, finding)
    elif of_data:
        tell_data(data_faults.of_data(of_data[1], int(of_data[2]), int(of_data[3]), of_data[4], script))
    elif of_script:
        tell_whole(of_script[1], path)
    elif absent:
        tell_absent(absent[1], path, script)
    elif answer == "surge: read fault":
        tell_unread(path, script)
    elif answer == "surge: out of memory":
        print("There is not memory enough for the graph and what the script asks for: fewer views or fewer edges take less.")
    return True


def main():
    parser = argparse.ArgumentParser(
        description=__doc__, formatter_class=argparse.RawDescriptionHelpFormatter, prog="explain.py"
    )
    parser.add_argument("script", metavar="SCRIPT", help="the script, as surge --script takes it")
    parser.add_argument("--surge", metavar="FILE", help="the program")
    asked = parser.parse_args()
    program = program_of(asked.surge)
    status = []
    told("explain.py", lambda: status.append(explain(program, asked.script)))
    sys.exit(1 if status[0] else 0)


if __name__ == "__main__":
    main()
