"""A plain, slow reader of change texts: the tables of a text, or its first bad line.

python3 changes.py FILE     writes the tables of the text in the file, or `line N`, the first line, from 1, that no change
                            text has behind the lines before it
python3 changes.py --table  writes the table that stands in the room `room_rows`: each line of a text of a few blocks, cut
                            at each byte, and with each byte exchanged for one of each class
"""

import re
import sys

MOST_BYTES = 2**28

NUMBER = rb"(0|[1-9][0-9]*)"
OPENING = re.compile(rb"(view|change) ([^\n]+) ((?:settled|after|phases) " + NUMBER + rb"|unsettled)")
ROW = re.compile(NUMBER + rb",(-|-?" + NUMBER + rb")")


def opening(line):
    """What the first line of a block says, or nothing."""
    match = OPENING.fullmatch(line)
    if match is None:
        return None
    rounds = match.group(4)
    if rounds is not None and int(rounds) >= 2**32:
        return None
    return match.group(1), match.group(2), match.group(3)


def row(line):
    """The id and the value of a row, or nothing; the value none is None."""
    match = ROW.fullmatch(line)
    if match is None or int(match.group(1)) >= 2**63 or match.group(2) == b"-0":
        return None
    value = None if match.group(2) == b"-" else int(match.group(2))
    if value is not None and abs(value) >= 2**63:
        return None
    return int(match.group(1)), value


def begun(lines):
    """The tables of the lines of a change text, and whether the last of them is ended; or the number of the first line that
    no change text has behind those before it.

    A table is what it is of, how its run ended, and its rows by their ids."""
    tables = []
    kind = rows = None
    for number, line in enumerate(lines, 1):
        if rows is None:
            said = opening(line)
            if said is None:
                return number
            kind, head, outcome = said
            if kind == b"change" and (not tables or b"unsettled" in (tables[-1][1], outcome)):
                return number
            rows, last = {}, -1
        elif line == b"end":
            before = tables[-1][2] if kind == b"change" else {}
            tables.append((head, outcome, before | rows))
            rows = None
        else:
            pair = row(line)
            if pair is None or outcome == b"unsettled" or pair[0] <= last:
                return number
            if kind == b"change" and tables[-1][2].get(pair[0], pair[1]) == pair[1]:
                return number
            last = pair[0]
            rows[last] = pair[1]
    return tables, rows is None


def read(text):
    """The tables of a text, or its first bad line."""
    *lines, rest = text.split(b"\n")
    answer = begun(lines)
    if isinstance(answer, int):
        return answer
    tables, whole = answer
    return tables if whole and rest == b"" else len(lines) + 1


def tables_text(tables):
    """The text of tables."""
    text = b""
    for head, outcome, rows in tables:
        text += b"view " + head + b" " + outcome + b"\n"
        for id_, value in sorted(rows.items()):
            text += b"%d,%s\n" % (id_, b"-" if value is None else b"%d" % value)
        text += b"end\n"
    return text


BLOCKS = b"view x settled 0\n1,0\n7,-\nend\nchange x after 13\n1,-5\n7,20\nend\nview y unsettled\nend\n"
CLASSES = b"019-, \ne~"


def bad(text):
    answer = read(text)
    return answer if isinstance(answer, int) else 0


def main(words):
    if words == ["--table"]:
        print("cut", "".join("%x" % bad(BLOCKS[:n]) for n in range(len(BLOCKS) + 1)))
        for byte in CLASSES:
            print(repr(chr(byte)), "".join("%x" % bad(BLOCKS[:n] + bytes([byte]) + BLOCKS[n + 1 :]) for n in range(len(BLOCKS))))
        return 0
    with open(words[0], "rb") as file:
        answer = read(file.read())
    sys.stdout.buffer.write(b"line %d\n" % answer if isinstance(answer, int) else tables_text(answer))
    return 0


if __name__ == "__main__":
    sys.exit(main(sys.argv[1:]))
