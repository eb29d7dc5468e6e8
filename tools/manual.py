#!/usr/bin/env python3
"""Makes a man page of README.md's table of options and of its exit statuses.

  tools/manual.py > surge.1 && man ./surge.1
"""

import os
import re
import sys

TOP = os.path.dirname(os.path.dirname(os.path.realpath(__file__)))


def rows_under(lines, head):
    """Returns the rows of the table whose first line is head, as lists of cells."""
    at = next(number for number, line in enumerate(lines) if line.startswith(head))
    rows = []
    for line in lines[at + 2 :]:
        if not line.startswith("|"):
            break
        rows.append([it.strip() for it in re.split(r"(?<!\\)\|", line)[1:-1]])
    return rows


def plain(text):
    """A cell as a man page spells it: code is bold, and nothing begins a request."""
    text = text.replace("\\|", "|").replace("\\", "\\e").replace("-", "\\-")
    return re.sub(r"`([^`]*)`", r"\\fB\1\\fR", re.sub(r"\[([^]]*)\]\([^)]*\)", r"\1", text))


def main():
    if len(sys.argv) > 1:
        print(__doc__.strip())
        return 0 if sys.argv[1:] == ["--help"] else 2
    with open(f"{TOP}/README.md", encoding="utf-8") as it:
        lines = it.read().split("\n")
    print('.TH SURGE 1\n.SH NAME\nsurge \\- one graph program on many filtered views of one graph, each printed table proved')
    print(".SH SYNOPSIS\n.B surge\n(\\-\\-script FILE | \\-\\-sample N | \\-\\-replay FILE) [\\-\\-mode run|check|summary|changes] [\\-\\-turns N]\n.SH OPTIONS")
    for option, meaning in rows_under(lines, "| Option |"):
        print(f".TP\n{plain(option)}\n{plain(meaning)}")
    print(".SH EXIT STATUS")
    for status, meaning, line in rows_under(lines, "| Exit status |"):
        print(f".TP\n.B {status}\n{plain(meaning)}{'' if line == 'none' else ': ' + plain(line)}")
    print(".SH SEE ALSO\nREADME.md, docs/GUIDE.md, docs/LANGUAGE.md, docs/DATA.md and docs/PROOFS.md of the repository.")
    return 0


if __name__ == "__main__":
    sys.exit(main())
