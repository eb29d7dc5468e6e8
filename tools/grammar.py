"""What a script may go on with at a place, by the grammar of docs/LANGUAGE.md. No command of its own."""

import re

GRAMMAR = """
form = "form" number ";"
load = "load" "graph" name "nodes" string "edges" string ";"
create = "create" "view" ( collection | single ) ";"
single = name "on" name "edges" "where" pred
collection = "collection" name "on" name item { "," item }
item = "[" name ":" ( window | pred ) "]"
window = "window" prop "from" int "to" int "width" number "step" number
int = [ "-" ] number
prop = name | quoted
program = "program" name [ "(" [ name { "," name } ] ")" ] "{" "along" ( "out" | "in" | "both" ) ";" "start" expr ";"
          "send" expr ";" "gather" ( "min" | "max" | "sum" | "count" ) ";" "update" expr ";" "}"
run = "run" call "on" name ( "within" | "for" ) number ( "rounds" | "round" ) [ "order" ( "greedy" | "declared" | "tree" ) ]
      [ "split" ( "none" | "every" number | "auto" ) ] [ "keep" "as" name ] ";"
    | "run" call "on" name "within" number ( "rounds" | "round" ) "phases" number ";"
call = name [ "(" [ arg { "," arg } ] ")" ]
arg = int | prop
append = "append" "to" name item { "," item } ";"
show = "show" ( "order" name | "work" name | "tree" name ) ";"
insert = "insert" "edges" string ";"
remove = "remove" "edges" "where" pred ";"
aggregate = "aggregate" name "group" "by" prop [ "sum" prop ] ";"
pred = conj { "or" conj }
conj = neg { "and" neg }
neg = "not" neg | "(" pred ")" | atom
atom = operand ( cmp operand | "is" "absent" ) | "true" | "false"
operand = int | string | "true" | "false" | "src" "." field | "dst" "." field | prop
field = "id" | prop
cmp = "=" | "!=" | "<" | "<=" | ">" | ">="
expr = "if" cond "then" sum "else" expr | sum { "else" sum }
cond = test { "and" test }
test = sum ( cmp sum | "is" "none" )
sum = product { ( "+" | "-" ) product }
product = unary { ( "*" | "/" ) unary }
unary = "-" unary | primary
primary = number | "none" | "id" | "start" | "value" | "gathered" | "count" | "outdeg" | "edge" "." prop | "node" "." prop
        | name | ( "min" | "max" ) "(" expr "," expr ")" | "(" expr ")"
statement = create | program | run | append | show | insert | remove | aggregate
"""

TERMINALS = ("name", "number", "string", "quoted")


def rules_of(text):
    """The rules without brackets: for each name its alternatives, each a tuple of symbols. A terminal stands as it is written."""
    signs = re.findall(r'"[^"]*"|[a-z]+|[=|(){}\[\]]', text)
    rules = {}
    place = 0

    def alternatives(owner, closing):
        nonlocal place
        found, so_far = [], []
        while place < len(signs) and signs[place] != closing:
            if closing is None and place + 1 < len(signs) and signs[place + 1] == "=":
                break
            sign = signs[place]
            place += 1
            if sign == "|":
                found.append(tuple(so_far))
                so_far = []
            elif sign in "({[":
                inner = f"{owner}.{place}"
                them = alternatives(owner, {"(": ")", "{": "}", "[": "]"}[sign])
                place += 1
                if sign == "{":
                    # (what is read again stands in front: so long lists take no more time an item)
                    them = [(inner,) + alternative for alternative in them]
                rules[inner] = them if sign == "(" else them + [()]
                so_far.append(inner)
            else:
                so_far.append(sign)
        found.append(tuple(so_far))
        return found

    while place < len(signs):
        name = signs[place]
        place += 2
        rules[name] = alternatives(name, None)
    return rules


RULES = rules_of(GRAMMAR)


def empty_ones():
    """The rules that may be of no token."""
    found = set()
    while True:
        more = {
            name for name, them in RULES.items() if name not in found and any(all(part in found for part in one) for one in them)
        }
        if not more:
            return found
        found |= more


EMPTY = empty_ones()


def is_of(token, terminal):
    """Whether a token is of a terminal."""
    if terminal == "name":
        return token.is_name
    if terminal in TERMINALS:
        return token.kind == terminal
    return token.kind in ("word", "sign") and token.text == terminal[1:-1]


def expected(tokens, start):
    """The terminals that may stand behind these tokens, which begin a statement; None where they begin none."""
    # (Earley's sets: an item is a rule's name, one of its alternatives, how much of it is read, and from where on)
    waiting = [dict() for _ in range(len(tokens) + 1)]
    items = {(start, one, 0, 0) for one in RULES[start]}
    for place in range(len(tokens) + 1):
        terminals, following = set(), set()
        todo, seen = list(items), set(items)

        def add(item):
            if item not in seen:
                seen.add(item)
                todo.append(item)

        while todo:
            item = todo.pop()
            name, one, read, begin = item
            if read == len(one):
                for above in list(waiting[begin].get(name, ())):
                    add((above[0], above[1], above[2] + 1, above[3]))
                continue
            wanted = one[read]
            if wanted not in RULES:
                terminals.add(wanted)
                if place < len(tokens) and is_of(tokens[place], wanted):
                    following.add((name, one, read + 1, begin))
                continue
            waiting[place].setdefault(wanted, set()).add(item)
            for alternative in RULES[wanted]:
                add((wanted, alternative, 0, place))
            if wanted in EMPTY:
                add((name, one, read + 1, begin))
        if place == len(tokens):
            return terminals
        if not following:
            return None
        items = following
    return None


COMPARISONS = {'"="', '"!="', '"<"', '"<="', '">"', '">="'}
ARITHMETIC = {'"+"', '"-"', '"*"', '"/"'}
OPERAND = {"name", "quoted", "number", "string", '"-"', '"true"', '"false"', '"src"', '"dst"'}
PREDICATE = OPERAND | {'"not"', '"("'}
VALUE = {
    "name", "number", '"-"', '"none"', '"id"', '"start"', '"value"', '"gathered"', '"count"', '"outdeg"', '"edge"', '"node"',
    '"min"', '"max"', '"("',
}  # fmt: skip
GROUPS = (
    (VALUE | {'"if"'}, "an expression"),
    (VALUE, "an expression"),
    (PREDICATE, "a predicate"),
    (OPERAND, "a number, a text in single quotes, `true`, `false` or a property"),
    (COMPARISONS, "a comparison (`=` `!=` `<` `<=` `>` `>=`)"),
    (ARITHMETIC, "`+` `-` `*` `/`"),
)
SAID = {"name": "a name", "quoted": 'a property in double quotes, as "travel time"', "number": "a whole number", "string": "a text in single quotes"}


def said(terminals):
    """What is expected, in words: 'wanted here: ..'."""
    left, found = set(terminals), []
    for group, words in GROUPS:
        if group <= left:
            left -= group
            found.append(words)
    found += [SAID[terminal] for terminal in TERMINALS if terminal in left]
    found += sorted(f"`{terminal[1:-1]}`" for terminal in left if terminal not in TERMINALS)
    return found[0] if len(found) == 1 else ", ".join(found[:-1]) + " or " + found[-1]
