"""From the tokens of a script to its tree (docs/LANGUAGE.md, "Statements", "Predicates", "Expressions").

Trees are tuples that begin with a word: a predicate is ("or", [..]), ("and", [..]), ("not", p), ("constant", b),
("compare", left, sign, right) or ("absent", operand); an operand ("number", n), ("string", s), ("bool", b), ("src", field),
("dst", field) or ("edge", property), where a field is None for the id. An expression is ("if", tests, a, b),
("else", [..]), ("sum", first, [(sign, part)..]), ("product", first, [(sign, part)..]), ("minus", a), ("number", n),
("word", w), ("edge", property), ("node", property), ("parameter", name), ("min", a, b) or ("max", a, b).
"""

from collections import namedtuple

from tokens import NotAScript, tokens_of

Script = namedtuple("Script", "form graph nodes edges statements")
View = namedtuple("View", "name base rule")
Collection = namedtuple("Collection", "name base items")
Rule = namedtuple("Rule", "name rule")
Window = namedtuple("Window", "name property first last width step")
Program = namedtuple("Program", "name parameters along start send gather update")
Run = namedtuple("Run", "call target within rounds order split keep phases")
Call = namedtuple("Call", "name arguments")
Append = namedtuple("Append", "target items")
ShowOrder = namedtuple("ShowOrder", "name")
ShowWork = namedtuple("ShowWork", "name")
ShowTree = namedtuple("ShowTree", "name")
Insert = namedtuple("Insert", "file")
Remove = namedtuple("Remove", "rule")
Aggregate = namedtuple("Aggregate", "target by sum")

SIGNS = ("=", "!=", "<", "<=", ">", ">=")
WORDS = ("id", "start", "value", "gathered", "count", "outdeg")


class Reader:
    """Reads from the left, one token ahead."""

    def __init__(self, tokens):
        self.tokens = tokens
        self.place = 0

    def peek(self):
        return self.tokens[self.place]

    def is_next(self, *spellings):
        kind, value = self.peek()
        return kind in ("word", "sign") and value in spellings

    def take(self):
        token = self.peek()
        self.place += 1
        return token

    def taken(self, *spellings):
        """The word or sign that comes next, if it is one of these."""
        return self.take()[1] if self.is_next(*spellings) else None

    def want(self, *spellings):
        found = self.taken(*spellings)
        if found is None:
            raise NotAScript(f"token {self.place} is {self.peek()} in place of {spellings}")
        return found

    def want_kind(self, *kinds):
        if self.peek()[0] not in kinds:
            raise NotAScript(f"token {self.place} is {self.peek()} in place of one of {kinds}")
        return self.take()[1]

    def name(self):
        return self.want_kind("name")

    def property(self):
        return self.want_kind("name", "quoted")

    def number(self):
        return self.want_kind("number")

    def integer(self):
        sign = -1 if self.taken("-") else 1
        return sign * self.number()

    def listed(self, read, opening, closing):
        """Members between brackets, parted by commas, where the opening bracket comes next; else none."""
        members = []
        if self.taken(opening):
            if not self.is_next(closing):
                members.append(read())
                while self.taken(","):
                    members.append(read())
            self.want(closing)
        return members

    def chain(self, read, kind, word):
        """A chain of at least two members is a tree of its kind; one member is itself."""
        members = [read()]
        while self.taken(word):
            members.append(read())
        return members[0] if len(members) == 1 else (kind, members)

    # Statements

    def script(self):
        form = None
        if self.taken("form"):
            form = self.number()
            self.want(";")
        self.want("load")
        self.want("graph")
        graph = self.name()
        self.want("nodes")
        nodes = self.want_kind("string")
        self.want("edges")
        edges = self.want_kind("string")
        self.want(";")
        statements = []
        while self.peek()[0] != "end":
            statements.append(self.statement())
        return Script(form, graph, nodes, edges, statements)

    def statement(self):
        word = self.want("create", "program", "run", "append", "show", "insert", "remove", "aggregate")
        made = {
            "create": self.create,
            "program": self.program,
            "run": self.run,
            "append": self.append,
            "show": self.show,
            "insert": self.insert,
            "remove": self.remove,
            "aggregate": self.aggregate,
        }[word]()
        if word != "program":
            self.want(";")
        return made

    def create(self):
        self.want("view")
        if self.taken("collection"):
            name = self.name()
            self.want("on")
            base = self.name()
            return Collection(name, base, self.items())
        name = self.name()
        self.want("on")
        base = self.name()
        self.want("edges")
        self.want("where")
        return View(name, base, self.predicate())

    def items(self):
        items = [self.item()]
        while self.taken(","):
            items.append(self.item())
        return items

    def item(self):
        self.want("[")
        name = self.name()
        self.want(":")
        made = self.window(name) if self.taken("window") else Rule(name, self.predicate())
        self.want("]")
        return made

    def window(self, name):
        column = self.property()
        self.want("from")
        first = self.integer()
        self.want("to")
        last = self.integer()
        self.want("width")
        width = self.number()
        self.want("step")
        return Window(name, column, first, last, width, self.number())

    def program(self):
        name = self.name()
        parameters = self.listed(self.name, "(", ")")
        self.want("{")
        self.want("along")
        along = self.want("out", "in", "both")
        parts = []
        for word in ("start", "send"):
            self.want(";")
            self.want(word)
            parts.append(self.expression())
        self.want(";")
        self.want("gather")
        gather = self.want("min", "max", "sum", "count")
        self.want(";")
        self.want("update")
        update = self.expression()
        self.want(";")
        self.want("}")
        return Program(name, parameters, along, parts[0], parts[1], gather, update)

    def call(self):
        return Call(self.name(), self.listed(self.argument, "(", ")"))

    def argument(self):
        if self.is_next("-") or self.peek()[0] == "number":
            return ("number", self.integer())
        return ("property", self.property())

    def run(self):
        call = self.call()
        self.want("on")
        target = self.name()
        within = self.want("within", "for") == "within"
        rounds = self.number()
        self.want("rounds", "round")
        if within and self.taken("phases"):
            return Run(call, target, within, rounds, None, None, None, self.number())
        order = self.want("greedy", "declared", "tree") if self.taken("order") else None
        split = self.split() if self.taken("split") else None
        keep = None
        if self.taken("keep"):
            self.want("as")
            keep = self.name()
        return Run(call, target, within, rounds, order, split, keep, None)

    def split(self):
        word = self.want("none", "every", "auto")
        return self.number() if word == "every" else word

    def append(self):
        self.want("to")
        target = self.name()
        return Append(target, self.items())

    def show(self):
        shown = {"order": ShowOrder, "work": ShowWork, "tree": ShowTree}[self.want("order", "work", "tree")]
        return shown(self.name())

    def insert(self):
        self.want("edges")
        return Insert(self.want_kind("string"))

    def remove(self):
        self.want("edges")
        self.want("where")
        return Remove(self.predicate())

    def aggregate(self):
        target = self.name()
        self.want("group")
        self.want("by")
        by = self.property()
        return Aggregate(target, by, self.property() if self.taken("sum") else None)

    # Predicates

    def predicate(self):
        return self.chain(self.conjunction, "or", "or")

    def conjunction(self):
        return self.chain(self.negation, "and", "and")

    def negation(self):
        if self.taken("not"):
            return ("not", self.negation())
        if self.taken("("):
            inner = self.predicate()
            self.want(")")
            return inner
        return self.atom()

    def atom(self):
        left = self.operand()
        if left[0] == "bool" and not self.is_next("is", *SIGNS):
            return ("constant", left[1])
        if self.taken("is"):
            self.want("absent")
            return ("absent", left)
        sign = self.want(*SIGNS)
        return ("compare", left, sign, self.operand())

    def operand(self):
        kind, value = self.peek()
        if kind == "number" or self.is_next("-"):
            return ("number", self.integer())
        if kind in ("string", "name", "quoted"):
            self.take()
            return ("string" if kind == "string" else "edge", value)
        word = self.want("true", "false", "src", "dst")
        if word in ("true", "false"):
            return ("bool", word == "true")
        self.want(".")
        return (word, None if self.taken("id") else self.property())

    # Expressions

    def expression(self):
        if self.taken("if"):
            tests = [self.test()]
            while self.taken("and"):
                tests.append(self.test())
            self.want("then")
            first = self.sum()
            self.want("else")
            return ("if", tests, first, self.expression())
        return self.chain(self.sum, "else", "else")

    def test(self):
        left = self.sum()
        if self.taken("is"):
            self.want("none")
            return ("none", left)
        sign = self.want(*SIGNS)
        return ("compare", left, sign, self.sum())

    def steps(self, read, kind, signs):
        first, rest = read(), []
        while True:
            sign = self.taken(*signs)
            if sign is None:
                return (kind, first, rest) if rest else first
            rest.append((sign, read()))

    def sum(self):
        return self.steps(self.product, "sum", ("+", "-"))

    def product(self):
        return self.steps(self.unary, "product", ("*", "/"))

    def unary(self):
        return ("minus", self.unary()) if self.taken("-") else self.primary()

    def primary(self):
        kind, value = self.peek()
        if kind in ("number", "name"):
            self.take()
            return ("number" if kind == "number" else "parameter", value)
        if self.taken("("):
            inner = self.expression()
            self.want(")")
            return inner
        word = self.want("none", "edge", "node", "min", "max", *WORDS)
        if word in ("edge", "node"):
            self.want(".")
            return (word, self.property())
        if word in ("min", "max"):
            self.want("(")
            first = self.expression()
            self.want(",")
            second = self.expression()
            self.want(")")
            return (word, first, second)
        return ("word", word)


def script_of(data):
    """The script that the bytes of a file are."""
    if data.startswith(b"\xef\xbb\xbf"):
        data = data[3:]
    return Reader(tokens_of(data.decode("utf-8"))).script()
