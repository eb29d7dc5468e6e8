#!/usr/bin/env python3
"""What surge answers, faults and all: its exit status and what it writes to both streams (README.md, docs/DATA.md, docs/LANGUAGE.md).

    faults.py WORDS..

The words are those of surge; the status and both streams are as its own.
"""

import os
import re
import sys
import tempfile
from collections import namedtuple

import changes
import check_faults
import data_faults
import printing
import script_faults
from oracle import Oracle
from sample import SCRIPT, write_sample
from script import Insert, script_of

Answer = namedtuple("Answer", "status out err")
Asked = namedtuple("Asked", "script sample mode turns replay", defaults=(None,))

USAGE = "usage: surge (--script FILE | --sample N | --replay FILE) [--mode run|check|summary|changes] [--turns N]"
OPTIONS = ("--script", "--sample", "--replay", "--mode", "--turns")


class Refused(Exception):
    """A status but 0, and its line behind `surge: `."""

    def answer(self):
        status, line = self.args
        return Answer(status, b"", f"surge: {line}\n".encode())


# ---- Words


def texts_of(words):
    """The text of each option that is written, or nothing where the words are not of the form."""
    texts, left = {}, list(words)
    while left:
        word = left.pop(0)
        if word == "--" and not left:
            return texts
        option, sign, text = word.partition("=")
        if option not in OPTIONS or option in texts:
            return None
        if not sign:
            # (a word that begins with a dash is no option's text, but a dash alone is)
            if not left or left[0].startswith("-") and left[0] != "-":
                return None
            text = left.pop(0)
        texts[option] = text
    return texts


def is_number(text):
    return re.fullmatch(r"[0-9]{1,20}", text) is not None and int(text) < 2**64


def asked_by(words):
    """What the words ask for, or nothing where they are not of the form."""
    texts = texts_of(words)
    if texts is not None and "--replay" in texts:
        return Asked(None, None, "run", None, texts["--replay"]) if list(texts) == ["--replay"] and texts["--replay"] else None
    if texts is None or ("--script" in texts) == ("--sample" in texts):
        return None
    asked = Asked(texts.get("--script"), texts.get("--sample"), texts.get("--mode", "run"), texts.get("--turns"))
    are_numbers = all(it is None or is_number(it) for it in (asked.sample, asked.turns))
    return asked if asked.script != "" and asked.mode in ("run", "check", "summary", "changes") and are_numbers else None


def asked_for(words):
    asked = asked_by(words)
    if asked is None:
        raise Refused(2, USAGE)
    return asked


# ---- Files


def fetched(role, name, most, line):
    """The bytes of a file; more than the most are too large."""
    try:
        with open(name, "rb") as file:
            data = file.read(most + 1)
    except FileNotFoundError:
        raise Refused(3, f"absent: {role}") from None
    except (OSError, ValueError):
        raise Refused(6, "read fault") from None
    if len(data) > most:
        raise Refused(*line)
    return data


def read_script(name):
    data = fetched("script", name, script_faults.MOST_BYTES, (5, "script: TooLarge"))
    fault = script_faults.first_fault(data)
    if fault is None:
        return script_of(data)
    place = "" if fault.line is None else f"line {fault.line} column {fault.column}: "
    raise Refused(5, f"script: {place}{fault.kind}")


def read_data(script, folder):
    files = []
    for role, name in (("nodes", script.nodes), ("edges", script.edges)):
        line = (4, f"data: {role} record 0 column 0: TooLarge")
        files.append(fetched(role, within(folder, name), data_faults.MOST_BYTES, line))
    loaded = without_fault(data_faults.loaded(*files))
    for number, statement in enumerate(script.statements, 2):
        if isinstance(statement, Insert):
            role = f"insert {number}"
            line = (4, f"data: {role} record 0 column 0: TooLarge")
            data = fetched(role, within(folder, statement.file), data_faults.MOST_BYTES, line)
            loaded = without_fault(data_faults.extended(loaded, files[1], role, data))
    return loaded


def without_fault(loaded):
    if isinstance(loaded, data_faults.Fault):
        raise Refused(4, f"data: {loaded.file} record {loaded.record} column {loaded.column}: {loaded.kind}")
    return loaded


def within(folder, name):
    return os.path.join(folder, name) if name else ""


# ---- Answers


def replayed(name):
    """The answer to words that name a change text."""
    tables = changes.read(fetched("changes", name, changes.MOST_BYTES, (10, "replay: TooLarge")))
    if isinstance(tables, int):
        raise Refused(10, f"replay: line {tables}")
    return Answer(0, changes.tables_text(tables), b"")


def judged(asked, folder):
    """The script that these words name in a folder, and what it loads: all without a fault."""
    if asked.sample is None:
        script = read_script(within(folder, asked.script))
        loaded = read_data(script, folder)
    else:
        script = script_of(SCRIPT)
        with tempfile.TemporaryDirectory() as room:
            write_sample(int(asked.sample), room)
            loaded = read_data(script, room)
    fault = check_faults.first_fault(script, loaded.node_kinds, loaded.edge_kinds)
    if fault:
        place = f"statement {fault.statement}: " if fault.statement else ""
        raise Refused(5, f"script: {place}{fault.kind}")
    return script, loaded


def done(asked, script, loaded):
    """The answer where there is no fault."""
    if asked.mode == "check":
        text = printing.canonical(script)
    else:
        text = Oracle(script, loaded.graph, asked.mode).text()
    return Answer(0, text.encode("utf-8"), b"")


def answer(words, folder="."):
    """What surge answers to these words in a folder."""
    try:
        asked = asked_for(words)
        if asked.replay is not None:
            return replayed(within(folder, asked.replay))
        return done(asked, *judged(asked, folder))
    except Refused as refused:
        return refused.answer()


def main():
    given = answer(sys.argv[1:])
    sys.stdout.buffer.write(given.out)
    sys.stderr.buffer.write(given.err)
    return given.status


if __name__ == "__main__":
    sys.exit(main())
