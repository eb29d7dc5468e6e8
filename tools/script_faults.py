"""What a fault of a script means, and what is usually meant in its place. No command of its own."""

import difflib

import grammar
from gvdl import BUILT_IN, MOST_VIEWS, RESERVED, statements_of, tokens_of, views_of

# What others call the programs that are built in, and what else is there under another name.
OTHER_PROGRAMS = {
    "bfs": "hops", "distance": "hops", "hop_count": "hops",
    "sssp": "dist", "dijkstra": "dist", "shortest_path": "dist", "shortest_paths": "dist", "bellman_ford": "dist",
    "cc": "wcc", "components": "wcc", "connected_components": "wcc",
    "page_rank": "pagerank", "pr": "pagerank",
}  # fmt: skip
NONES = ("infinity", "inf", "null", "nil", "nan", "absent", "undefined", "missing")
CALLS = {"hops": "hops(SOURCE)", "dist": "dist(SOURCE, PROPERTY)", "wcc": "wcc", "pagerank": "pagerank"}
# What each part of a program may name, beside numbers, none and the parameters.
MAY_NAME = {
    "start": ({"id"}, "node"),
    "send": ({"id", "value", "outdeg"}, "edge"),
    "update": ({"id", "start", "value", "gathered", "count"}, None),
}
IN_A_PART = {
    "start": "`id` and `node.PROPERTY`",
    "send": "`id`, `value`, `outdeg` and `edge.PROPERTY`",
    "update": "`id`, `start`, `value`, `gathered` and `count`",
}
PARTS = ("along", "start", "send", "gather", "update")
COMPARISONS = ("=", "!=", "<", "<=", ">", ">=")
COMPARED = {f'"{sign}"' for sign in COMPARISONS}
FORMS = {
    "view": "create view NAME on BASE edges where PREDICATE;",
    "collection": "create view collection NAME on BASE [NAME: PREDICATE], [NAME: window PROPERTY from N to N width N step N];",
    "program": "program NAME { along out; start ..; send ..; gather min; update ..; }",
    "run": "run PROGRAM on COLLECTION within N rounds;",
    "insert": "insert edges 'FILE';",
    "remove": "remove edges where PREDICATE;",
}


class Finding:
    """Where a fault lies in a text, from one offset to another, and what is told of it."""

    def __init__(self, begin, end, *told):
        self.begin, self.end, self.told = begin, end, [line for line in told if line]


def at(token, *told):
    return Finding(token.begin, token.end, *told)


def meant(word, known):
    """'Did you mean ..?', where one of the known words is near: first one that differs in capitals alone."""
    known = list(dict.fromkeys(known))
    near = [one for one in known if one.lower() == word.lower()] or difflib.get_close_matches(word, known, n=1, cutoff=0.6)
    return f"Did you mean `{near[0]}`?" if near and near[0] != word else ""


def listed(words, none="none"):
    words = list(words)
    shown = ", ".join(f"`{word}`" for word in words[:20])
    return none if not words else shown + (f" and {len(words) - 20} more" if len(words) > 20 else "")


# Faults of a text

def of_text(text, fault, line, column):
    """The finding of a fault that `surge` tells with a line and a column."""
    offset = text.offset(line, column)
    tokens = tokens_of(text.text)
    index = next((place for place, token in enumerate(tokens) if token.end > offset), len(tokens))
    token = tokens[index] if index < len(tokens) else None
    if fault == "NumberTooLarge":
        return at(token, "A number is at most 9223372036854775807 (2^63 - 1).")
    if fault == "TooDeep":
        return at(token, "More than 64 brackets, `not`, `if` and minus signs are open here: a view on a view, or two views, take fewer.")
    begun = begin_of(tokens, index)
    before = tokens[begun:index]
    wanted = wanted_at(before, tokens[:begun]) if len(before) < 5000 else None
    told = hints(tokens, index, before, wanted or set(), begun)
    if wanted and not any(hint.startswith("Wanted") for hint in told):
        told.insert(0, f"Wanted here: {grammar.said(wanted)}.")
    if token is None:
        # (it is shown behind the last token)
        end = tokens[-1].end if tokens else 0
        return Finding(end, end, "The script ends here.", *told)
    return at(token, *told)


def wanted_at(before, above):
    """What may stand behind these tokens of a statement, which has these above it: a script begins with its form or its load."""
    starts = ("form", "load") if not above else ("load",) if above[0].text == "form" and len(above) == 3 else ("statement",)
    wanted = [one for one in (grammar.expected(before, start) for start in starts) if one is not None]
    return set().union(*wanted) if wanted else None


def begin_of(tokens, index):
    """Where the statement begins that the token of this index stands in."""
    depth, begun = 0, 0
    for place, token in enumerate(tokens[:index]):
        if token.kind == "sign":
            depth += (token.text == "{") - (token.text == "}")
            if depth <= 0 and token.text in (";", "}"):
                begun, depth = place + 1, 0
    return begun


def hints(tokens, index, before, wanted, begun):
    """What is usually meant by what stands there."""
    token = tokens[index] if index < len(tokens) else None
    last = tokens[index - 1] if index > 0 else None
    behind = tokens[index + 1] if index + 1 < len(tokens) else None
    touches = token is not None and last is not None and last.end == token.begin
    found = []
    for hint in (of_signs, of_quotes, of_words, of_numbers, of_statements):
        found += hint(token, last, behind, touches, before, wanted)
    return list(dict.fromkeys(found))


def has_predicate(before):
    """Whether a statement's text up to here is in a predicate."""
    words = [token.text for token in before]
    return words[:1] in (["create"], ["append"], ["remove"]) and ("where" in words or ":" in words) and "window" not in words[-6:]


def of_signs(token, last, behind, touches, before, wanted):
    if token is None:
        return []
    text = token.text
    if text == "=" and last is not None and last.text == "=":
        return ["`==` is no sign here: equality is one `=`, as in `year = 2018`."]
    if text == ">" and last is not None and last.text == "<":
        return ["`<>` is no sign here: what is not equal is `!=`, as in `year != 2018`."]
    if text == "<" and last is not None and last.text == "=":
        return ["`=<` is no sign here: it is `<=`."]
    if text == ">" and last is not None and last.text == "=":
        return ["`=>` is no sign here: it is `>=`."]
    if text == "\ufeff":
        return ["A byte order mark stands here, which is not seen: it may stand once, at the start of a file. (Was another file put in front?)"]
    if text in COMPARISONS and last is not None and has_predicate(before) and '"and"' in wanted:
        return ["A comparison has two sides: `2018 <= year and year <= 2019` are two of them."]
    if text == "?":
        return ["There is no `?`: an expression has `if .. then .. else ..`."]
    if text == "!":
        return ["`!` is no sign here: it is the word `not`, and `!=` for what is not equal."]
    if text in "&|":
        return [f"`{text}` is no sign here: it is the word `{'and' if text == '&' else 'or'}`."]
    if text == "%":
        return ["There is no remainder: an expression has `+` `-` `*` `/`, where `a - a / b * b` is the remainder of a by b."]
    if text == "/" and behind is not None and behind.text in "/*" or text == "-" and behind is not None and behind.text == "-":
        return ["A comment begins with `#`."]
    if text == "-" and last is not None and last.kind == "number" and touches and behind is not None and behind.kind == "number":
        return ["There are no dates: `tools/edges.py --date` makes whole numbers of them, as years or days, and scripts have these numbers."]
    if text == "(" and last is not None and last.is_name and before and before[0].text == "program":
        return [f"There is no function `{last.text}`: `min` and `max` of two values are the only ones."]
    if text == "," and before and before[0].text == "program" and '")"' in wanted:
        return ["`min` and `max` take two values: of three it is max(a, max(b, c))."]
    if text == "," and before and before[0].text == "run" and '"within"' in wanted:
        return ["A run goes over one collection: over another goes a run of its own."]
    if text == "=" and before and before[0].text == "run" and '")"' in wanted:
        return ["An argument stands by itself: hops(1)."]
    if text == "}" and '";"' in wanted:
        return ["Each part of a program ends with `;`, the last one too."]
    if text in (";", ")") and '"else"' in wanted and lacks_else(before):
        return ["An `if` has an `else`: `if .. then .. else none`, say."]
    if has_predicate(before) and text in ("+", "-", "*", "/") and is_operand_end(last):
        return ["A predicate has no arithmetic: it compares properties, numbers and texts. What is worked out has to be a column of the file."]
    is_joined = len(before) > 1 and before[-2].text in ("and", "or")
    if text in ("]", ";", ")") and last is not None and last.kind in ("number", "string") and COMPARED <= wanted and is_joined:
        return [f"On each side of `{before[-2].text}` stands a whole comparison: `year = 2018 or year = 2019`."]
    if text in ("]", ";", ")", ",") and is_operand_end(last) and last.kind not in ("number", "string") and COMPARED <= wanted:
        return [f"A property alone is no predicate: `{last.text} = true` is one, where it is a truth value."]
    if text == "," and '"]"' in wanted:
        return ["A view has one predicate: two of them are joined by `and` or `or`. Items stand in brackets of their own: `[a: ..], [b: ..]`."]
    return []


def lacks_else(before):
    """Whether the part of a program that is read has an `if` that still wants its `else`."""
    words = [token.text for token in before]
    part = words[len(words) - words[::-1].index(";") :] if ";" in words else words
    return part.count("if") > part.count("else")


def is_operand_end(token):
    return token is not None and (token.kind in ("number", "string", "quoted") or token.is_name or token.text == "id")


def of_quotes(token, last, behind, touches, before, wanted):
    if token is None:
        return []
    text = token.text
    if text in "‘’‚‛“”„´`":
        return [f"{text} is no quote here: texts stand in straight single quotes, as 'Ada'."]
    if text == "'" and token.kind == "other":
        return ["The text that begins here is not closed: it goes on to the end. A quote within a text is written twice: 'O''Brien'."]
    if text == '"' and token.kind == "other":
        return ["The name that begins here is not closed, or is empty. Texts stand in single quotes, as 'Ada'."]
    if last is not None and last.kind == "string" and touches and token.kind in ("word", "number"):
        return ["A quote within a text is written twice: 'O''Brien'."]
    if token.kind == "word" and wanted == {"string"}:
        return ["File names stand in single quotes: 'nodes.csv'."]
    if token.kind == "string" and "number" in wanted and "window" in [one.text for one in before]:
        return ["A window goes over whole numbers. Dates become such by `tools/edges.py --date`, as years or days."]
    if token.kind == "quoted" and "string" in wanted and "quoted" not in wanted:
        return [f"File names stand in single quotes: '{token.value}'."]
    if token.kind == "string" and before and before[0].text == "run":
        return ["A node is named by its id, and not by a text: its id stands in the nodes file."]
    if token.kind == "string" and "quoted" in wanted and "string" not in wanted:
        return [f"Properties stand without quotes, or in double ones: \"{token.value}\"."]
    if token.kind == "quoted" and "name" in wanted and "quoted" not in wanted:
        return ["Only properties may stand in double quotes. Another name has letters, digits, `_` and `-`, and begins with a letter or `_`."]
    return []


def of_words(token, last, behind, touches, before, wanted):
    if token is None or token.kind != "word":
        return []
    text, small = token.text, token.text.lower()
    words = {terminal[1:-1] for terminal in wanted if terminal.startswith('"')}
    if small in words and small != text:
        return [f"Words of the language are written small: `{small}`."]
    in_predicate = has_predicate(before)
    if in_predicate and small in ("like", "in", "between", "matches", "contains", "exists"):
        name = last.text if last is not None and is_operand_end(last) else "x"
        instead = {
            "in": f"it is `{name} = 1 or {name} = 2`",
            "between": f"it is `{name} >= 1 and {name} <= 9`",
            "like": f"whole texts compare by `=`, and `{name} >= 'A' and {name} < 'B'` holds of those that begin with A",
        }.get(small, "sides compare by `=` `!=` `<` `<=` `>` `>=`")
        return [f"There is no {text.upper()}: {instead}."]
    if last is not None and last.text == "is":
        if small in ("null", "none", "empty", "missing") and '"absent"' in wanted:
            return ["What has no value is `is absent`."]
        if small == "not":
            return ["`not` stands in front: `not year is absent`."]
        return []
    if small == "is" and in_predicate:
        return []
    if text in ("and", "or") and is_operand_end(last) and COMPARED <= wanted and in_predicate:
        return [f"A property alone is no predicate: `{last.text} = true` is one, where it is a truth value."]
    if text in ("or", "not") and before and before[0].text == "program":
        return ["The tests of an `if` are joined by `and` alone: an `or` is a second `if` behind `else`."]
    if text in ("src", "dst") and before and before[0].text in ("program", "run"):
        if before[0].text == "program":
            return ["An expression has no `src` or `dst`: `start` names `node.PROPERTY`, `send` names `edge.PROPERTY`."]
    if text in ("src", "dst", "node") and last is not None and last.text == "window":
        return ["A window goes over a property of the edges: over one of its ends there is none."]
    if text in ("edge", "node") and in_predicate:
        return ["In a predicate a property of the edge stands alone, as `year`, and those of its ends behind `src.` and `dst.`."]
    if text == "id" and in_predicate:
        return ["An edge has no id: its ends have, as `src.id` and `dst.id`."]
    if text == "nodes" and "edges" in words and before[0].text == "create":
        return ["A view has all nodes and chooses edges: `edges where src.PROPERTY = ..` goes by what their ends are."]
    if small in ("avg", "mean", "average") and "sum" in words:
        return ["There is no average: `gather sum`, and in `update` it is `gathered / count`."]
    if small in ("undirected", "any", "all", "either") and "both" in words:
        return ["Both ways along each edge is `both`."]
    if text in RESERVED and ("quoted" in wanted or "name" in wanted) and text not in words:
        if "quoted" in wanted and text in ("where", "create", "run", "window"):
            return []
        if "quoted" in wanted:
            return [f'`{text}` is a word of the language: a property of this name stands in double quotes, "{text}".']
        return [f"`{text}` is a word of the language: it can't be a name."]
    if text in PARTS and before and before[0].text == "program" and text not in words:
        return ["The parts of a program stand in this order: `along`, `start`, `send`, `gather`, `update`, each ended by `;`."]
    return [meant(text, words)] if meant(text, words) and not starts(text) else []


def of_numbers(token, last, behind, touches, before, wanted):
    if token is None:
        return []
    if token.text == "." and last is not None and last.kind == "number":
        return ["Numbers are whole ones, without a point: decimals become whole numbers by `tools/edges.py --scale w=100`."]
    if token.kind == "word" and last is not None and last.kind == "number" and touches and token.text[0] in "eE" and token.text[1:].isdigit():
        return ["Numbers are written out: 1000 in place of 1e3."]
    if token.text == "," and last is not None and last.kind == "number" and touches and behind is not None and behind.kind == "number":
        if len(behind.text) == 3 and behind.begin == token.end and '","' not in wanted:
            return ["A number has no commas: 1000 in place of 1,000."]
    if token.kind == "number" and "name" in wanted and "number" not in wanted:
        return ["A name begins with a letter or `_`."]
    return []


def starts(text):
    return text in ("form", "load", "create", "program", "run", "append", "show", "insert", "remove", "aggregate")


def of_statements(token, last, behind, touches, before, wanted):
    found = []
    if last is not None and '";"' in wanted and (token is None or starts(token.text)):
        found.append("A `;` is missing behind the statement that stands before." if token is not None else "A `;` is missing at its end.")
    if token is None:
        return found
    if not before and token.text == ";" and last is not None:
        return ["No `;` stands here: a program ends with `}`." if last.text == "}" else "One `;` ends a statement."]
    words = [one.text for one in before]
    if token.text == "where" and '"edges"' in wanted:
        found.append(f"The word `edges` is missing: {FORMS['remove' if words[:1] == ['remove'] else 'view']}")
    if words[:1] == ["insert"] and token.kind == "string" and '"edges"' in wanted:
        found.append(f"The word `edges` is missing: {FORMS['insert']}")
    if token.text == "where" and '"["' in wanted:
        found.append(f"A collection has items in brackets: {FORMS['collection']}")
    if token.text == "[" and '"edges"' in wanted:
        found.append(f"Items in brackets belong to a collection: {FORMS['collection']}")
    if words[:1] == ["run"] and token.kind == "number" and '"("' in wanted:
        found.append(f"Arguments stand in brackets: {last.text}({token.text}).")
    if words[:1] == ["run"] and '"within"' in wanted and token.text != ",":
        found.append(f"A run says for how many rounds it may go on: {FORMS['run']}")
    if words[:1] == ["run"] and token.kind == "number" and '"every"' in wanted:
        found.append("A split into segments of N views is `split every N`.")
    if not before and "load" in {terminal[1:-1] for terminal in wanted} and starts(token.text):
        found.append("A script begins with its load: load graph NAME nodes 'nodes.csv' edges 'edges.csv';")
    if not before and token.text == "load" and '"run"' in wanted:
        found.append("A script loads one graph.")
    if not before and token.text == "form" and '"form"' not in wanted:
        found.append("The form of a script stands once, before its load.")
    if words[:1] == ["run"] and token.text == "phases":
        found.append("Phases stand right behind the rounds of a run that goes on `within` them, without an order, a split or a name.")
    return found


# Faults against a graph


class Known:
    """What is known in front of a statement: names with what they are, programs with their parameters."""

    def __init__(self):
        self.graph = None
        self.kinds, self.lines = {name: "a program that is built in" for name in BUILT_IN}, {}
        self.programs = {"hops": 1, "dist": 2, "wcc": 0, "pagerank": 0}
        self.views, self.collections, self.kept = [], {}, []
        # What is named further down.
        self.later = {}

    def below(self, word, text):
        """What is told of a name that stands further down."""
        token = self.later.get(word)
        line = text.place(token.begin)[0] if token is not None else 0
        return f"It is named in line {line}, which is further down: a name is known behind its statement." if token is not None else ""

    def add(self, token, kind):
        self.kinds.setdefault(token.text, kind)
        self.lines.setdefault(token.text, token)

    def take(self, statement):
        words = [token.text for token in statement]
        if words[0] == "load":
            self.graph = words[2]
            self.add(statement[2], "the graph")
        elif words[:3] == ["create", "view", "collection"]:
            self.collections[words[3]] = dict(views_of(statement[6:]))
            self.add(statement[3], "a collection")
        elif words[0] == "create":
            self.views.append(words[2])
            self.add(statement[2], "a single view")
        elif words[0] == "program":
            self.programs[words[1]] = len(parameters_of(statement))
            self.add(statement[1], "a program")
        elif words[0] == "append":
            self.collections.get(words[2], {}).update(views_of(statement[3:]))
        elif words[0] == "run" and words[-4:-2] == ["keep", "as"]:
            self.kept.append(words[-2])
            self.add(statement[-2], "a kept run")


def parameters_of(statement):
    """The tokens of a program's parameters."""
    opened = next((place for place, token in enumerate(statement) if token.text == "{"), len(statement))
    return [token for token in statement[2:opened] if token.is_name]


def numbered(text):
    """The statements that `surge` numbers, from the load on: a form is none."""
    statements = statements_of(tokens_of(text.text))
    return statements[1:] if statements and statements[0][0].text == "form" else statements


def of_statement(text, fault, number, nodes, edges):
    """The finding of a fault that `surge` tells with a statement: nodes and edges are the kinds of the columns, by name."""
    statements = numbered(text)
    if number > len(statements):
        return None
    if fault == "WorkEdited":
        return at(statements[number - 1][0], "Edges come or go behind this run: only of a run that is kept behind the last insert and removal the work is shown.")
    if fault == "NeedsForm":
        return at(statements[number - 1][0], "Only form 2 of the language has this statement: such a script begins with `form 2;`, before its load.")
    known = Known()
    for statement in statements[: number - 1]:
        known.take(statement)
    below = Known()
    for statement in statements[number:]:
        below.take(statement)
    known.later = below.lines
    statement = statements[number - 1]
    words = [token.text for token in statement]
    judge = {"load": of_load, "create": of_create, "program": of_program, "append": of_append, "run": of_run, "show": of_show}[words[0]]
    finding = judge(statement, fault, known, nodes, edges, text)
    return finding or Finding(statement[0].begin, statement[-1].end)


def repeated(token, known, text):
    """A name that stands already."""
    kind = known.kinds.get(token.text, "a name")
    where = known.lines.get(token.text)
    line = f" in line {text.place(where.begin)[0]}" if where is not None else ""
    return at(token, f"`{token.text}` is {kind} already{line}: the graph, views, collections, programs and kept runs share one set of names.")


def of_load(statement, fault, known, nodes, edges, text):
    return repeated(statement[2], known, text)


def of_base(token, known, text):
    """A base that is neither the graph nor a single view."""
    if token.text == known.graph or token.text in known.views:
        return None
    bases = [known.graph, *known.views]
    kind = known.kinds.get(token.text)
    is_what = f"`{token.text}` is {kind}" if kind else f"There is nothing called `{token.text}` above this statement"
    return at(token, f"{is_what}: views stand on the graph or on a single view, which are {listed(bases)}.", known.below(token.text, text) or meant(token.text, bases))


def of_create(statement, fault, known, nodes, edges, text):
    is_collection = statement[2].text == "collection"
    name, base = (statement[3], statement[5]) if is_collection else (statement[2], statement[4])
    if fault == "RepeatedName" and name.text in known.kinds:
        return repeated(name, known, text)
    if fault == "UnknownName":
        return of_base(base, known, text)
    if is_collection:
        return of_items(statement[6:], fault, {}, nodes, edges, text)
    return of_predicate(statement[7:-1], fault, nodes, edges)


def of_append(statement, fault, known, nodes, edges, text):
    name = statement[2]
    if fault == "UnknownName":
        return no_collection(name, known, "Views are appended to a collection", text)
    return of_items(statement[3:], fault, dict(known.collections.get(name.text, {})), nodes, edges, text)


def no_collection(token, known, rule, text):
    """A name that is no collection."""
    kind = known.kinds.get(token.text)
    there = f"{rule}. Collections are {listed(known.collections)}." if known.collections else f"{rule}, and there is none above this statement."
    if kind == "a single view" or token.text == known.graph:
        cure = f"create view collection {fresh(known)} on {token.text} [all: true];"
        return at(token, f"`{token.text}` is {kind}. {there}", f"A collection with this one view: {cure}")
    if kind:
        return at(token, f"`{token.text}` is {kind}. {there}")
    more = known.below(token.text, text) or meant(token.text, known.collections)
    return at(token, f"There is nothing called `{token.text}` above this statement. {there}", more)


def fresh(known):
    return next(name for name in ("C", "D", "All", "Views", "Collection") if name not in known.kinds)


def of_items(tokens, fault, views, nodes, edges, text):
    """The finding in the items of a collection, which has these views already."""
    item, first = [], {}
    for token in tokens:
        if token.text == "[" and token.kind == "sign":
            item = []
        elif token.text == "]" and token.kind == "sign":
            finding = of_item(item, fault, views, first, nodes, edges, text)
            if finding:
                return finding
        else:
            item.append(token)
    return None


def of_item(item, fault, views, first, nodes, edges, text):
    name, is_window = item[0], item[2].text == "window" and item[2].kind == "word"
    if is_window:
        finding = of_window(item, fault, edges, nodes)
        if finding:
            return finding
        made = windows_in(item)
    else:
        made = [name.text]
    for view in made:
        if fault == "RepeatedName" and view in views:
            where = f" in line {text.place(first[view].begin)[0]}" if view in first else ""
            return at(name, f"The collection has a view `{view}` already{where}: its views have names of their own.")
        if fault == "TooManyViews" and len(views) >= MOST_VIEWS:
            return at(name, *too_many(item, is_window, len(views)))
        views[view] = None
        first.setdefault(view, name)
    return None if is_window else of_predicate(item[2:], fault, nodes, edges)


def bounds_of(item):
    numbers, sign = [], 1
    for token in item[4:]:
        if token.kind == "number":
            numbers.append(sign * token.value)
            sign = 1
        elif token.text == "-":
            sign = -1
    return numbers


def windows_in(item):
    """The names of the views that a window makes, at most one more than a collection may have."""
    first, last, _, step = bounds_of(item)
    count = (last - first) // step + 1 if step else 0
    return [f"{item[0].text}-{place}" for place in range(1, min(count, MOST_VIEWS + 1) + 1)]


def too_many(item, is_window, so_far):
    told = f"A collection has at most {MOST_VIEWS:,} views, those of its appends among them."
    if not is_window:
        return [told]
    first, last, _, step = bounds_of(item)
    count = (last - first) // step + 1
    least = -(-(last - first + 1) // MOST_VIEWS)
    more = f"This window makes {count:,} views, one for each step from {first} to {last}."
    return [told, more, f"With a step of {least} or more they fit." if count > MOST_VIEWS else ""]


def of_window(item, fault, edges, nodes):
    word = item[3]
    if fault == "UnknownProperty" and word.value not in edges:
        return at(word, *no_property(word, "edges", edges, nodes, "A window goes over a property of the edges"))
    if fault == "WrongType" and edges.get(word.value) != "int":
        kind = edges.get(word.value)
        return at(word, f"A window goes over whole numbers, and `{word.value}` is of kind {kind}: write `{word.value}:int` in the header.", dates(kind))
    if fault == "WrongArguments":
        first, last, width, step = bounds_of(item)
        numbers = [token for token in item[4:] if token.kind == "number"]
        if width == 0:
            return at(numbers[2], "A window is at least 1 wide.")
        if step == 0:
            return at(numbers[3], "A step is at least 1.")
        if first > last:
            return at(numbers[0], f"The first, {first}, lies above the last, {last}.")
        if last + width > 2**63 - 1:
            return at(numbers[1], "The last and the width together are at most 2^63 - 1.")
    return None


def dates(kind):
    return "Dates become whole numbers by `tools/edges.py --date`, decimals by `--scale`." if kind == "str" else ""


class Side:
    """A side of a comparison: its tokens, its kind, and the property that it names."""

    def __init__(self, tokens):
        self.tokens = tokens
        self.owner, self.property, self.is_id = "edges", None, False
        last = tokens[-1]
        if tokens[0].text in ("src", "dst") and len(tokens) > 2:
            self.owner = "nodes"
            self.is_id = last.text == "id" and last.kind == "word"
        is_truth = len(tokens) == 1 and last.kind == "word" and last.text in ("true", "false")
        if not self.is_id and not is_truth and (last.kind == "quoted" or last.kind == "word"):
            self.property = last

    def kind(self, nodes, edges):
        if self.property is not None:
            return (nodes if self.owner == "nodes" else edges).get(self.property.value)
        last = self.tokens[-1]
        return "int" if self.is_id or last.kind == "number" else "str" if last.kind == "string" else "bool"


def comparisons_of(tokens):
    """The comparisons of a predicate, from the left: pairs of sides with their sign, or one side of `is absent`."""
    place = 0
    while place < len(tokens):
        if tokens[place].text in ("and", "or", "not", "(", ")") and tokens[place].kind in ("word", "sign"):
            place += 1
            continue
        left, place = side_at(tokens, place)
        if place < len(tokens) and tokens[place].text == "is":
            yield left, None, None
            place += 2
        elif place < len(tokens) and tokens[place].kind == "sign" and tokens[place].text in COMPARISONS:
            sign = tokens[place]
            right, place = side_at(tokens, place + 1)
            yield left, sign, right


def side_at(tokens, place):
    end = place + 1
    if tokens[place].text in ("src", "dst") and place + 2 < len(tokens) and tokens[place + 1].text == ".":
        end = place + 3
    elif tokens[place].text == "-":
        end = place + 2
    return Side(tokens[place:end]), end


def of_predicate(tokens, fault, nodes, edges):
    """The first comparison that has this fault."""
    for left, sign, right in comparisons_of(tokens):
        for side, other in ((left, right), (right, left)):
            if side is None or side.property is None or fault != "UnknownProperty":
                continue
            if side.kind(nodes, edges) is None:
                return unknown_property(side, other, nodes, edges)
        if fault == "WrongType" and right is not None:
            kinds = left.kind(nodes, edges), right.kind(nodes, edges)
            if kinds[0] != kinds[1] or kinds[0] == "bool" and sign.text not in ("=", "!="):
                return wrong_kinds(left, sign, right, kinds)
    return None


def unknown_property(side, other, nodes, edges):
    token = side.property
    word = token.value
    own, others = (nodes, edges) if side.owner == "nodes" else (edges, nodes)
    told = []
    is_beside_text = other is not None and other.kind(nodes, edges) == "str" and other.property is not None
    if word.lower() in ("null", "none", "nil", "nan"):
        told.append(f"What has no value is `is absent`, as in `{shown(other)} is absent`." if other is not None else "")
    elif word.lower() in ("true", "false"):
        told.append(f"Truth values are written small: `{word.lower()}`.")
    elif token.kind == "quoted" and word not in others:
        told.append(f"Double quotes are for properties. A text stands in single quotes: '{word}'.")
    elif is_beside_text and side.owner == "edges" and word not in others and not meant(word, own):
        told.append(f"A text stands in single quotes: '{word}'.")
    elif "-" in word and word.partition("-")[0] in own:
        told.append(f"A `-` within a name belongs to it, so this is one name. A predicate has no arithmetic: `{word.partition('-')[0]}` is a property.")
    return at(token, *no_property(token, side.owner, own, others, None), *told)


def shown(side):
    return "".join(token.text for token in side.tokens)


def no_property(token, owner, own, others, rule):
    """What is told of a property that is not there."""
    word = token.value
    told = [f"The {owner} have no property `{word}`: they have {listed(own, 'none')}."]
    if rule and word not in others:
        told[0] = f"{rule}. {told[0]}"
    if word in others and owner == "edges":
        told.append(f"The nodes have one: `src.{word}` is that of an edge's source, `dst.{word}` that of its target." if not rule else f"{rule}: `{word}` is one of the nodes.")
    elif word in others:
        told.append(f"The edges have one: it stands alone, as `{word}`.")
    elif word in ("id",) or not meant(word, own):
        near = meant(word, others)
        told.append(near and f"{near} It is a property of the {'nodes' if owner == 'edges' else 'edges'}.")
    else:
        told.append(meant(word, own))
    return [line for line in told if line]


def wrong_kinds(left, sign, right, kinds):
    told = [f"`{shown(left)}` is {of_kind(kinds[0])}, and `{shown(right)}` is {of_kind(kinds[1])}: both sides are of one kind."]
    if kinds == ("bool", "bool"):
        told = [f"Truth values compare by `=` and `!=` alone, and not by `{sign.text}`."]
    for side, other, kind, wanted in ((right, left, kinds[1], kinds[0]), (left, right, kinds[0], kinds[1])):
        token = side.tokens[-1]
        if token.kind == "string" and wanted == "int":
            is_number = token.value.lstrip("-").isdigit() and token.value != ""
            told.append(f"A number stands without quotes: {token.value}." if is_number else "")
        elif token.kind == "string" and wanted == "bool":
            told.append(f"Truth values stand without quotes: `{token.value.lower()}`." if token.value.lower() in ("true", "false") else "")
        elif token.kind == "number" and wanted == "str":
            told.append(f"A text stands in single quotes, also where it is a number: '{token.value}'. Or write `{name_of(other)}:int` in the header.")
        elif token.kind == "number" and wanted == "bool":
            told.append(f"Truth values are `true` and `false`, and not {token.value}.")
        elif token.kind == "quoted" and wanted == "str" and kind != "str":
            told.append(f"Double quotes are for properties. A text stands in single quotes: '{token.value}'.")
    return Finding(left.tokens[0].begin, right.tokens[-1].end, *told)


def name_of(side):
    return side.property.value if side is not None and side.property is not None else "NAME"


def of_kind(kind):
    return {"int": "a whole number", "str": "a text", "bool": "a truth value"}.get(kind, "nothing")


def of_program(statement, fault, known, nodes, edges, text):
    if fault == "RepeatedName":
        if statement[1].text in known.kinds:
            return repeated(statement[1], known, text)
        seen = set()
        for token in parameters_of(statement):
            if token.text in seen:
                return at(token, f"There is a parameter `{token.text}` already.")
            seen.add(token.text)
        return None
    parameters = {token.text for token in parameters_of(statement)}
    for part, tokens in parts_of_program(statement):
        finding = of_expression(tokens, part, fault, parameters, nodes, edges)
        if finding:
            return finding
    return None


def parts_of_program(statement):
    """The expressions of a program: each part's word with its tokens."""
    opened = next(place for place, token in enumerate(statement) if token.text == "{")
    so_far = []
    for token in statement[opened + 1 :]:
        if token.text == ";" and token.kind == "sign":
            if so_far and so_far[0].text in MAY_NAME:
                yield so_far[0].text, so_far[1:]
            so_far = []
        else:
            so_far.append(token)


def of_expression(tokens, part, fault, parameters, nodes, edges):
    words, owner = MAY_NAME[part]
    place = 0
    while place < len(tokens):
        token = tokens[place]
        if token.kind == "word" and token.text in ("node", "edge") and place + 2 < len(tokens):
            finding = of_cell(token, tokens[place + 2], part, owner, fault, nodes, edges)
            place += 3
            if finding:
                return finding
            continue
        place += 1
        if token.kind != "word" or fault != "UnknownName":
            continue
        if token.text in ("id", "start", "value", "gathered", "count", "outdeg"):
            if token.text not in words:
                return at(token, f"`{part}` can't name `{token.text}`: it names {IN_A_PART[part]}, and the parameters.", in_other(token.text, part))
        elif token.is_name and token.text not in parameters:
            return at(token, *unknown_word(token.text, part, parameters, nodes, edges))
    return None


def in_other(word, part):
    if word == "gathered" and part == "send":
        return "What was gathered is the node's `value`, where `update` makes it so."
    if word == "outdeg":
        return "How many arcs begin at a node is known in `send` alone."
    return ""


def of_cell(owner, cell, part, allowed, fault, nodes, edges):
    """A property of a node or an edge in an expression."""
    columns, name = (nodes, "nodes") if owner.text == "node" else (edges, "edges")
    whole = Finding(owner.begin, cell.end)
    if fault == "UnknownName" and owner.text != allowed:
        rule = f"`{part}` can't name `{owner.text}.{cell.text}`: it names {IN_A_PART[part]}, and the parameters."
        more = {
            ("send", "node"): "What a node has of its own goes into its `start`, and from there into `value`.",
            ("update", "node"): "What a node has of its own goes into its `start`, which `update` names.",
            ("update", "edge"): "What an edge has goes into the message: `send value + edge.PROPERTY`.",
            ("start", "edge"): "A node has no edge by itself: what edges have goes into `send`.",
        }.get((part, owner.text), "")
        return Finding(whole.begin, whole.end, rule, more)
    if owner.text != allowed:
        return None
    if fault == "UnknownProperty" and cell.value not in columns:
        other = edges if name == "nodes" else nodes
        told = [f"The {name} have no property `{cell.value}`: they have {listed(columns)}.", meant(cell.value, columns)]
        if cell.value in other:
            told[1] = f"The {'edges' if name == 'nodes' else 'nodes'} have one, which `{part}` can't name."
        return at(cell, *told)
    if fault == "WrongType" and columns.get(cell.value) not in (None, "int"):
        return at(cell, f"An expression has whole numbers alone, and `{cell.value}` is of kind {columns[cell.value]}.", dates(columns[cell.value]))
    return None


def unknown_word(word, part, parameters, nodes, edges):
    words, owner = MAY_NAME[part]
    told = [f"`{part}` knows no `{word}`: it names {IN_A_PART[part]}, and the parameters, which are {listed(sorted(parameters))}."]
    head, hyphen, tail = word.partition("-")
    columns = {"node": nodes, "edge": edges}.get(owner, {})
    if hyphen:
        told.append(f"A `-` within a name belongs to it: a subtraction wants a blank, as in `{head} - {tail}`.")
    elif word.lower() in NONES:
        told.append("What has no value is `none`: `min` and `max` pass it over, and it is not sent.")
    elif word in columns:
        told.append(f"A property stands behind its owner: `{owner}.{word}`.")
    elif word in nodes or word in edges:
        told.append(f"`{word}` is a property of the {'nodes' if word in nodes else 'edges'}, which `{part}` can't name.")
    else:
        told.append(meant(word, [*words, *parameters]))
    return told


def of_run(statement, fault, known, nodes, edges, text):
    program = statement[1]
    on = next(place for place in range(len(statement) - 1, -1, -1) if statement[place].text == "on" and statement[place].kind == "word")
    collection = statement[on + 1]
    if fault == "UnknownName":
        if program.text not in known.programs:
            kind = known.kinds.get(program.text)
            is_what = f"`{program.text}` is {kind}." if kind else f"There is no program `{program.text}` above this statement."
            there = ", ".join(CALLS.get(name, name + ("(..)" if count else "")) for name, count in known.programs.items())
            other = OTHER_PROGRAMS.get(program.text.lower())
            near = f"What is often called so is `{other}` here." if other else meant(program.text, known.programs)
            return at(program, is_what, known.below(program.text, text) or near, f"Programs are {there}.")
        return no_collection(collection, known, "A run goes over a collection", text)
    arguments = split_arguments(statement[2:on])
    if fault in ("WrongArguments", "UnknownProperty", "WrongType"):
        return of_arguments(program, arguments, fault, known, nodes, edges)
    if fault == "BadRounds":
        number = next(token for token in statement[on + 2 :] if token.kind == "number")
        return at(number, "A run has 1 to 1,000,000 rounds.")
    if fault == "BadSplit":
        number = [token for token in statement[on + 2 :] if token.kind == "number"][1]
        return at(number, "A segment has at least one view.")
    if fault == "RepeatedName":
        return repeated(statement[-2], known, text)
    if fault == "TooManyKept":
        return at(statement[-2], "At most 64 runs are kept.")
    return None


def split_arguments(tokens):
    """The arguments of a call, each as its tokens."""
    found, so_far = [], []
    for token in tokens:
        if token.kind == "sign" and token.text in "(,)":
            if so_far:
                found.append(so_far)
            so_far = []
        else:
            so_far.append(token)
    return found


def of_arguments(program, arguments, fault, known, nodes, edges):
    wanted = known.programs[program.text]
    call = CALLS.get(program.text, program.text)
    if len(arguments) != wanted:
        form = f"it is called as {call}" if program.text in CALLS else f"it has {wanted} parameters"
        usual = {"hops": "as hops(1), from the node with the id 1", "dist": "as dist(1, w)", "pagerank": "for as many rounds as its run says"}
        more = f" ({usual[program.text]})" if program.text in usual else ""
        return at(program, f"`{program.text}` is called with {len(arguments)} argument{'s' if len(arguments) != 1 else ''}, and takes {wanted}: {form}{more}.")
    for place, argument in enumerate(arguments):
        last = argument[-1]
        is_property = program.text == "dist" and place == 1
        if fault == "WrongArguments" and is_property == (last.kind == "number"):
            what = "a property of the edges" if is_property else "a whole number, as the id of a node"
            more = "" if is_property else "A node is named by its id, and not by a text: its id stands in the nodes file."
            return at(last, f"Argument {place + 1} of {call} is {what}.", more)
        if is_property and fault == "UnknownProperty" and last.value not in edges:
            return at(last, *no_property(last, "edges", edges, nodes, "The weight is a property of the edges"))
        if is_property and fault == "WrongType" and edges.get(last.value) != "int":
            return at(last, f"A weight is a whole number, and `{last.value}` is of kind {edges.get(last.value)}.", dates(edges.get(last.value)))
    return None


def of_show(statement, fault, known, nodes, edges, text):
    what, name = statement[1].text, statement[2]
    if what == "order":
        return no_collection(name, known, "`show order` names a collection", text)
    kind = known.kinds.get(name.text)
    is_what = f"`{name.text}` is {kind}." if kind else f"There is nothing called `{name.text}` above this statement."
    if known.kept:
        return at(name, is_what, f"`show work` names a kept run. Kept runs are {listed(known.kept)}.", meant(name.text, known.kept))
    return at(name, is_what, "`show work` names a kept run, and none is kept: `keep as K` at the end of a run keeps it.")


# What is no fault


def sources_of(text):
    """The numbers of `hops` and `dist` from which their runs start, with their tokens."""
    for statement in statements_of(tokens_of(text.text)):
        words = [token.text for token in statement]
        if words[:1] == ["run"] and words[1] in ("hops", "dist") and len(statement) > 4:
            token = next((token for token in statement[2:] if token.kind == "number"), None)
            if token is not None and statement[2].text == "(":
                yield (-token.value if statement[3].text == "-" else token.value), token, statement[1].text


def nones_of(text):
    """The comparisons with `none` in a script's programs, which hold nowhere: the tokens of their signs."""
    for statement in statements_of(tokens_of(text.text)):
        if statement[0].text != "program":
            continue
        for before, token, behind in zip(statement, statement[1:], statement[2:]):
            if token.text in COMPARISONS and token.kind == "sign" and "none" in (before.text, behind.text):
                yield token


def windows_of_script(text):
    """The windows of a script: the property, first, last and width, and the token of the name."""
    for statement in statements_of(tokens_of(text.text)):
        item = []
        for token in statement:
            if token.kind == "sign" and token.text == "[":
                item = []
            elif token.kind == "sign" and token.text == "]":
                if len(item) > 3 and item[2].text == "window":
                    first, last, width, _ = bounds_of(item)
                    yield item[3].value, first, last, width, item[0]
            else:
                item.append(token)
