"""Scripts with their data files, without faults for the most part: what random_files.py changes. They are drawn, or lie in the repository."""

import os
import re
from collections import namedtuple

import random_scripts

TOP = os.path.join(os.path.dirname(os.path.abspath(__file__)), "..", "..")
MOST_BYTES = 6000

# The script names the files n.csv and e.csv, and those that it inserts by the names under which they stand in `more`.
Base = namedtuple("Base", "script nodes edges more", defaults=({},))

LOAD = "load graph G nodes 'n.csv' edges 'e.csv';\n"
NODE_COLUMNS = ("name:str", "rank:int", "on:bool", '"or:int"', "travel time:str", "h-1:int")
EDGE_COLUMNS = ("y:int", "w:int", "tag:str", "ok:bool", '"a,b:int"', "by:int", " y:int", "é:str", "_:bool")
NUMBERS = ("", "0", "1", "2", "3", "3", "7", "-1", "-0", "007", "9223372036854775807", "-9223372036854775807")
TEXTS = ("", "a", "b", "Rome", '"San Jose, CA"', '"it""s"', '"two\nlines"', "é", " a", "it's", "\x00", "Zürich")
TRUTHS = ("", "true", "True", "TRUE", "false", "False", "FALSE")
CELLS = {"int": NUMBERS, "str": TEXTS, "bool": TRUTHS}
SIGNS = ("=", "!=", "<", "<=", ">", ">=")
STRINGS = ("''", "'a'", "'b'", "'Rome'", "'San Jose, CA'", "'it''s'", "'two\nlines'", "'é'", "'Zürich'")


class Drawn:
    """A graph with columns of all kinds, and a script that names them, drawn from a source of chance."""

    def __init__(self, draw):
        self.draw = draw
        if draw.randint(0, 2) == 0:
            # (those of the page of the language)
            self.node_columns, self.edge_columns = NODE_COLUMNS[:3], EDGE_COLUMNS[:4]
        else:
            self.node_columns = draw.sample(NODE_COLUMNS, draw.randint(0, 4))
            self.edge_columns = draw.sample(EDGE_COLUMNS, draw.randint(1, 6))
        self.ids = draw.sample([0, 1, 2, 3, 4, 5, 6, 7, 10, 2**63 - 1], draw.randint(1, 7))
        self.bases = ["G"]
        self.collections = []
        self.programs = ["hops", "dist", "wcc", "pagerank"]
        self.kept = []
        self.parameters = {}
        # (the files that a script of form 2 inserts, by name)
        self.is_second = draw.randint(0, 1) == 1
        self.more = {}

    # Data files

    def file(self, keys, columns, rows):
        header = ",".join([*keys, *columns])
        kinds = [it.strip('"').rpartition(":")[2] for it in columns]
        lines = [",".join([*row, *(self.draw.choice(CELLS[kind]) for kind in kinds)]) for row in rows]
        return "".join(line + "\n" for line in [header, *lines])

    def nodes(self):
        return self.file(["id"], self.node_columns, [[str(it)] for it in self.ids])

    def edges(self):
        ends = [[str(self.draw.choice(self.ids)) for _ in range(2)] for _ in range(self.draw.randint(0, 12))]
        return self.file(["src", "dst"], self.edge_columns, ends)

    # Predicates

    def property(self, of, kind=None):
        """A property of this kind, if there is one, as a script names it."""
        columns = self.node_columns if of == "node" else self.edge_columns
        fit = [it.strip('"').rpartition(":")[0] for it in columns if kind is None or it.strip('"').endswith(":" + kind)]
        if not fit:
            return None
        name = self.draw.choice(fit)
        return name if re.fullmatch(r"[A-Za-z_][A-Za-z0-9_-]*", name) and name not in ("or", "by", "on") else f'"{name}"'

    def operand(self, kind):
        of = self.draw.choice(["edge", "edge", "src.", "dst.", "literal"])
        if of == "literal":
            literals = {"int": ("0", "1", "2", "3", "-1", "007"), "str": STRINGS, "bool": ("true", "false")}
            return self.draw.choice(literals[kind])
        name = self.property("edge" if of == "edge" else "node", kind)
        if name is None:
            return {"int": "src.id", "str": "'a'", "bool": "true"}[kind]
        return name if of == "edge" else of + name

    def atom(self):
        kind = self.draw.choice(["int", "int", "str", "bool"])
        if self.draw.randint(0, 7) == 0:
            return self.operand(kind) + " is absent"
        if self.draw.randint(0, 9) == 0:
            return self.draw.choice(["true", "false"])
        sign = self.draw.choice(SIGNS[:2] if kind == "bool" else SIGNS)
        return f"{self.operand(kind)} {sign} {self.operand(kind)}"

    def predicate(self, depth=2):
        form = self.draw.randint(0, 6) if depth else 0
        if form == 1:
            return "not " + self.bracketed(depth)
        if form in (2, 3):
            word = f" {'or' if form == 2 else 'and'} "
            return word.join(self.bracketed(depth) for _ in range(self.draw.randint(2, 3)))
        return self.atom()

    def bracketed(self, depth):
        inner = self.predicate(depth - 1)
        return f"({inner})" if re.search(r" (?:or|and) ", inner) or self.draw.randint(0, 5) == 0 else inner

    # Expressions

    def leaf(self, part, parameters):
        leaves = ["0", "1", "2", "7", "none", "id", *parameters]
        leaves += {"start": [], "send": ["value", "value", "outdeg"], "update": ["start", "value", "gathered", "gathered", "count"]}[part]
        of = {"start": "node", "send": "edge"}.get(part)
        name = self.property(of, "int") if of else None
        return self.draw.choice(leaves if name is None else [*leaves, f"{of}.{name}", f"{of}.{name}"])

    def expression(self, part, parameters, depth=2):
        def inner():
            return self.expression(part, parameters, depth - 1)

        form = self.draw.randint(0, 9) if depth else 0
        if form in (1, 2, 3):
            return f"{inner()} {self.draw.choice('+-*/')} {inner()}"
        if form == 4:
            return f"{self.draw.choice(['min', 'max'])}({inner()}, {inner()})"
        if form == 5:
            return f"({inner()} else {inner()})"
        if form == 6:
            test = f"{inner()} {self.draw.choice(SIGNS)} {inner()}" if self.draw.randint(0, 2) else f"{inner()} is none"
            return f"(if {test} then {inner()} else {inner()})"
        if form == 7:
            return f"-{self.leaf(part, parameters)}"
        return self.leaf(part, parameters)

    # Statements

    def load(self):
        return LOAD.strip()

    def view(self):
        name = f"V{len(self.bases)}"
        text = f"create view {name} on {self.draw.choice(self.bases)} edges where {self.predicate()};"
        self.bases.append(name)
        return text

    def items(self, names):
        return ", ".join(self.item(name) for name in names)

    def item(self, name):
        column = self.property("edge", "int")
        if column is None or self.draw.randint(0, 3):
            return f"[{name}: {self.predicate()}]"
        first = self.draw.randint(-2, 2)
        ends = f"from {first} to {first + self.draw.randint(0, 4)}"
        return f"[{name}: window {column} {ends} width {self.draw.randint(1, 3)} step {self.draw.randint(1, 2)}]"

    def collection(self):
        name = f"C{len(self.collections)}"
        names = [f"v{it}" for it in range(self.draw.randint(1, 4))]
        text = f"create view collection {name} on {self.draw.choice(self.bases)} {self.items(names)};"
        self.collections.append(name)
        return text

    def program(self):
        name = f"p{len(self.programs)}"
        parameters = self.draw.sample(["a", "b", "G"], self.draw.randint(0, 2))
        start, send, update = (self.expression(part, parameters) for part in ("start", "send", "update"))
        self.programs.append(name)
        self.parameters[name] = len(parameters)
        return (
            f"program {name}{'(' + ', '.join(parameters) + ')' if parameters else ''} {{ along {self.draw.choice(['out', 'in', 'both'])}; "
            f"start {start}; send {send}; gather {self.draw.choice(['min', 'max', 'sum', 'count'])}; update {update}; }}"
        )

    def call(self):
        name = self.draw.choice(self.programs)
        node = str(self.draw.choice([*self.ids, -1, 5]))
        if name == "hops":
            return f"hops({node})"
        if name == "dist":
            column = self.property("edge", "int")
            return f"dist({node}, {column})" if column else "wcc"
        count = self.parameters.get(name, 0)
        return f"{name}({', '.join(str(self.draw.randint(-1, 5)) for _ in range(count))})" if count else name

    def run(self):
        draw = self.draw
        text = f"run {self.call()} on {draw.choice(self.collections)} {draw.choice(['within', 'for'])} {draw.randint(1, 6)} rounds"
        text += draw.choice(["", " order greedy", " order declared", *([" order tree"] if self.is_second else [])])
        text += draw.choice(["", " split none", f" split every {draw.randint(1, 3)}", " split auto"])
        if draw.randint(0, 1):
            name = f"K{len(self.kept)}"
            text += f" keep as {name}"
            self.kept.append(name)
        return text + ";"

    def append(self):
        names = [f"a{self.draw.randint(0, 99)}x{it}" for it in range(self.draw.randint(1, 2))]
        return f"append to {self.draw.choice(self.collections)} {self.items(names)};"

    def show(self):
        if self.kept and self.draw.randint(0, 1):
            return f"show work {self.draw.choice(self.kept)};"
        return f"show order {self.draw.choice(self.collections)};"

    def insert(self):
        name = f"i{len(self.more)}.csv"
        self.more[name] = self.edges().encode()
        return f"insert edges '{name}';"

    def remove(self):
        return f"remove edges where {self.predicate()};"

    def aggregate(self):
        by, summed = self.property("node"), self.property("edge", "int")
        if by is None:
            return self.remove()
        more = f" sum {summed}" if summed and self.draw.randint(0, 1) else ""
        return f"aggregate {self.draw.choice(self.collections)} group by {by}{more};"

    def show_tree(self):
        return f"show tree {self.draw.choice(self.collections)};"

    def phased(self):
        phases = f"within {self.draw.randint(1, 4)} rounds phases {self.draw.randint(1, 3)}"
        return f"run {self.call()} on {self.draw.choice(self.collections)} {phases};"

    def script(self):
        draw = self.draw
        form = ["form 2;"] if self.is_second else draw.choice([[], [], ["form 1;"]])
        made = [*form, self.load(), *(self.view() for _ in range(draw.randint(0, 2))), self.collection()]
        made += [self.program() for _ in range(draw.randint(0, 2))]
        forms = [self.view, self.collection, self.program, self.run, self.run, self.run, self.append, self.show, self.show]
        if self.is_second:
            forms += [self.run, self.insert, self.insert, self.remove, self.remove, self.aggregate, self.show_tree, self.phased]
        for _ in range(draw.randint(1, 8 if self.is_second else 5)):
            made.append(draw.choice(forms)())
        return draw.choice(["\n", "\n", "\n", " ", "\r\n", "\n# a comment\n"]).join(made) + draw.choice(["\n", "\n", "", " # no more"])


def drawn(draw):
    """A base that is drawn."""
    if draw.randint(0, 3) == 0:
        ids, nodes = random_scripts.graph(draw)
        edges = random_scripts.edges(draw, ids, 12)
        script, more = either_script(draw, ids, 4)
        return Base(script, nodes.encode(), edges.encode(), more)
    made = Drawn(draw)
    return Base(made.script().encode(), made.nodes().encode(), made.edges().encode(), made.more)


def either_script(draw, ids, most):
    """A script of one of the forms, and the files that it inserts, of at most so many edges."""
    if draw.randint(0, 1):
        return random_scripts.script(draw).encode(), {}
    more = {f"i{place}.csv": random_scripts.edges(draw, ids, most).encode() for place in range(draw.randint(0, 3))}
    return random_scripts.second_script(draw, list(more)).encode(), more


def large(draw):
    """Hundreds of nodes and edges, with ids that lie close together or far apart."""
    count = draw.choice([1, 2, 30, 300, 600])
    ids = draw.sample(range(draw.choice([count, 2 * count, 2 * count + 2, 10**6])), count)
    draw.shuffle(ids)
    if draw.randint(0, 1):
        ids[draw.randrange(count)] = draw.choice([2**32, 2**32 + 1, 2**63 - 1, 10**7])
    edges = [
        f"{draw.choice(ids)},{draw.choice(ids)},{draw.choice(['', '0', '1', '2', '3'])},{draw.randint(0, 3)}\n"
        for _ in range(draw.choice([0, 1, 500, 511, 512, 513, 514, 700, 1023, 1024, 1025, 1100]))
    ]
    nodes = "id,g:int,t:str,b:bool\n" + "".join(f"{it},{draw.randint(0, 2)},{draw.choice('ab')},true\n" for it in ids)
    script, more = either_script(draw, ids, 600)
    return Base(script, nodes.encode(), ("src,dst,w:int,y:int\n" + "".join(edges)).encode(), more)


# ---- What lies in the repository


def read(path):
    with open(path, "rb") as file:
        return file.read()


def with_files(script, folder):
    """A script with the two files that it loads, where they lie in the folder; or nothing."""
    load = re.search(rb"nodes\s+'([^']+)'\s+edges\s+'([^']+)'", script)
    if load is None:
        return None
    paths = [os.path.join(folder, it.decode()) for it in load.groups()]
    if not all(map(os.path.isfile, paths)):
        return None
    for name, path in zip((b"n.csv", b"e.csv"), load.groups()):
        script = script.replace(b"'" + path + b"'", b"'" + name + b"'", 1)
    more = {}
    for path in re.findall(rb"insert edges '([^']+)'", script):
        if os.path.isfile(os.path.join(folder, path.decode())):
            name = f"i{len(more)}.csv"
            more[name] = read(os.path.join(folder, path.decode()))
            script = script.replace(b"insert edges '" + path + b"'", b"insert edges '" + name.encode() + b"'", 1)
    return Base(script, *map(read, paths), more)


def whole_runs():
    """The scripts of the examples and of the whole runs, where their files are no links and nothing has to be made."""
    for root, of_files in (("examples", TOP), ("tests/runs", None)):
        for name in sorted(os.listdir(os.path.join(TOP, root))):
            folder = os.path.join(TOP, root, name)
            if os.path.isfile(f"{folder}/s.gv") and not os.path.exists(f"{folder}/make"):
                yield with_files(read(f"{folder}/s.gv"), of_files or folder)


def bytes_of(text):
    """A part of a row of tests/files: \\n, \\r, \\xHH and \\*N(PIECE) stand for other bytes."""
    many = re.compile(r"\\\*([0-9]+)\(([^)]*)\)")
    text = many.sub(lambda it: int(it[1]) * it[2], text.strip())
    one = re.compile(rb"\\(?:n|r|x([0-9A-F]{2}))")
    return one.sub(lambda it: bytes([int(it[1], 16)]) if it[1] else {b"\\n": b"\n", b"\\r": b"\r"}[it[0]], text.encode())


def rows_of_files():
    """The data files of the tables of tests/files, with a script that asks little of them."""
    script = LOAD.encode() + b"create view collection C on G [all: true], [up: src.id < dst.id];\nrun wcc on C within 9 rounds;\n"
    for name in sorted(os.listdir(f"{TOP}/tests/files")):
        for line in read(f"{TOP}/tests/files/{name}").decode().splitlines():
            parts = line.split("|")
            if len(parts) == 4 and not line.startswith(("#", " ")):
                yield Base(script, bytes_of(parts[1]), bytes_of(parts[2]))


def written_down():
    """All bases of the repository that are small."""
    return [it for it in [*whole_runs(), *rows_of_files()] if it and max(map(len, it[:3])) <= MOST_BYTES]


def answered_statements():
    """The statements of the tables of faults in the page of the language, each with its kind of fault."""
    page = read(f"{TOP}/docs/LANGUAGE.md").decode()
    return [it.encode() for it in re.findall(r"^\| `([^`|]+;[^`|]*)` \| `[A-Za-z]+` at statement", page, re.MULTILINE)]
