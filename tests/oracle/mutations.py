"""Small changes of data files, scripts and words, for random_files.py. Each function takes a source of chance and what it changes."""

import re

MARK = b"\xef\xbb\xbf"

# ---- Bytes of any kind

PIECES = [b"\r", b"\n", b"\r\n", b"\x00", b'"', b'""', b"'", b"''", b",", b";", b":", b" ", b"\t", b"\x7f", b"\x1f", b"\xff", b"\xc0\x80"]
PIECES += [b"\xe2\x82", b"\xed\xa0\x80", b"\xf4\x90\x80\x80", b"\xc2\xa0", MARK, b"\xef\xbc\x91", b"#", b"-", b"+", b"0", b"\x0b", b"\xe2\x80\xa8"]


def at(draw, data):
    return draw.randint(0, len(data))


def slice_of(draw, data):
    """The two ends of a short piece."""
    begins = at(draw, data)
    return begins, min(len(data), begins + draw.choice([1, 1, 1, 2, 3, 8, 30]))


def flipped(draw, data):
    if not data:
        return data
    place = draw.randrange(len(data))
    byte = data[place] ^ (1 << draw.randint(0, 7)) if draw.randint(0, 1) else draw.randint(0, 255)
    return data[:place] + bytes([byte]) + data[place + 1 :]


def put_in(draw, data):
    place = at(draw, data)
    return data[:place] + draw.choice(PIECES) + data[place:]


def taken_out(draw, data):
    begins, ends = slice_of(draw, data)
    return data[:begins] + data[ends:]


def doubled(draw, data):
    begins, ends = slice_of(draw, data)
    return data[:ends] + data[begins:]


def moved(draw, data):
    begins, ends = slice_of(draw, data)
    rest = data[:begins] + data[ends:]
    place = at(draw, rest)
    return rest[:place] + data[begins:ends] + rest[place:]


def cut(draw, data):
    return data[: at(draw, data)]


def whole(draw, data):
    """The whole file in another form."""
    return draw.choice(
        [
            lambda: b"",
            lambda: MARK,
            lambda: MARK + data,
            lambda: MARK + data,
            lambda: MARK + MARK + data,
            lambda: b"\n",
            lambda: data.replace(b"\n", b"\r\n"),
            lambda: data.replace(b"\n", b"\r"),
            lambda: data.replace(b"\n", b"\n\n"),
            lambda: data.replace(b"\n", b"\n\r"),
            lambda: data.rstrip(b"\n"),
            lambda: data + data,
            lambda: data + b"\x00",
            lambda: data + b"\x1a",
            lambda: data.decode("utf-8", "replace").encode("latin-1", "replace"),
            lambda: data.decode("utf-8", "replace").encode("utf-16"),
            lambda: b"\r\n \t"[: draw.randint(1, 4)] + data,
            lambda: data + b"\r\n \t"[: draw.randint(1, 4)],
        ]
    )()


OF_BYTES = [flipped, put_in, taken_out, doubled, moved, cut, whole]

# ---- Data files: records are taken to be lines, and fields to be parted by commas; what is no such file is changed all the same.

FIELDS = [b"", b"0", b"1", b"01", b"2", b"3", b"7", b"8", b"99", b"-1", b"-0", b"+1", b" 1", b"1 ", b"1.0", b"1e3", b"0x1", b"1_000", b"--1", b"-"]
FIELDS += [b"9223372036854775807", b"9223372036854775808", b"-9223372036854775807", b"-9223372036854775808", b"0000000000000000001"]
FIELDS += [b"00000000000000000001", b"-0000000000000000001", b"-00000000000000000001", b"18446744073709551617", b"9" * 400, b"-9999999999999999999"]
FIELDS += [b"true", b"True", b"TRUE", b"tRUE", b"false", b"False", b"FALSE", b"yes", b"no", b"t", b"1.5", b"NA", b"null", b"2020-01-01"]
FIELDS += [b'"1"', b'"01"', b'""', b'"', b'"a"b', b'a"b"', b'"a""b"', b'"a,b"', b'"a\nb"', b'"true"', b'""1""', b'"1']
FIELDS += ["١".encode(), "１".encode(), "é".encode(), b"\xff", b"\xe9", b"a\x00b", b"\x00", MARK + b"1", b"a" * 5000, b"Rome", b"id", b"src"]
FIELDS += [b"b" * 70_000]
NAMES = [b"y", b"w", b"id", b"src", b"dst", b"", b" y", b"y ", b"a:b", b"int", b"or", b"rank", b"name", b"n" * 3000, "é".encode(), b"\xe9", b"a\x1fb"]
NAMES += [b"a\x7fb", b"a\tb", b"ID", b"id ", b"\xc2\x80", b'"a,b"', b'"a""b"', b"a\x00", b"x.y", b"-", b"'"]
KINDS = [b"int", b"str", b"bool", b"int", b"str", b"bool", b"Int", b"float", b"integer", b"", b"int ", b" int", b"string", b"boolean", b"int:str", b"i\x00nt"]


def lines_of(data):
    return re.findall(rb"[^\n]*\n|[^\n]+", data)


def split_line(line):
    """The fields of a line, and its end."""
    body = line.rstrip(b"\r\n")
    return body.split(b","), line[len(body) :]


def lines_changed(draw, data):
    """Two records exchanged, one doubled or left out, or all behind the header in another order."""
    lines = lines_of(data)
    if not lines:
        return data
    one, other = draw.randrange(len(lines)), draw.randrange(len(lines))
    form = draw.randint(0, 4)
    if form == 0:
        lines[one], lines[other] = lines[other], lines[one]
    elif form == 1:
        lines.insert(other, lines[one])
    elif form == 2:
        del lines[one]
    elif form == 3:
        lines[one] = draw.choice([b"\n", b",\n", b'""\n', b" \n", b"\r", b"," * 20 + b"\n"])
    else:
        behind = lines[1:]
        draw.shuffle(behind)
        lines[1:] = behind
    return b"".join(lines)


def on_a_line(draw, data, change, header=None):
    """Changes the fields of one line: of the header, of another, or of any."""
    lines = lines_of(data)
    if not lines or header is False and len(lines) == 1:
        return data
    place = 0 if header else draw.randrange(1 if header is False else 0, len(lines))
    fields, end = split_line(lines[place])
    change(fields)
    lines[place] = b",".join(fields) + end
    return b"".join(lines)


def fields_changed(draw, data):
    """Fields of a record exchanged, doubled, left out, or put in quotes."""

    def change(fields):
        one, other = draw.randrange(len(fields)), draw.randrange(len(fields))
        form = draw.randint(0, 3)
        if form == 0:
            fields[one], fields[other] = fields[other], fields[one]
        elif form == 1:
            fields.insert(other, fields[one])
        elif form == 2:
            del fields[one]
        else:
            fields[one] = draw.choice([b'"%b"', b'"%b', b'%b"', b' "%b"', b'"%b" ', b'""%b""', b"%b"]) % fields[one]

    return on_a_line(draw, data, change)


def field_written(draw, data):
    def change(fields):
        fields[draw.randrange(len(fields))] = draw.choice(FIELDS)

    return on_a_line(draw, data, change, header=draw.randint(0, 7) == 0)


def cells_exchanged(draw, data):
    """Two records exchange what stands in one column."""
    lines = lines_of(data)
    if len(lines) < 2:
        return data
    places = [draw.randrange(1, len(lines)) for _ in range(2)]
    (one, end), (other, other_end) = (split_line(lines[place]) for place in places)
    column = draw.randrange(min(len(one), len(other)))
    one[column], other[column] = other[column], one[column]
    lines[places[0]], lines[places[1]] = b",".join(one) + end, b",".join(other) + other_end
    return b"".join(lines)


def key_written(draw, data):
    """An id, a source or a target is one of another record, or any small number."""
    lines = lines_of(data)

    def change(fields):
        place = draw.randrange(min(2, len(fields)))
        fields[place] = split_line(draw.choice(lines))[0][0] if draw.randint(0, 1) else b"%d" % draw.randint(0, 12)

    return on_a_line(draw, data, change, header=False)


def property_written(draw, data):
    """Another name or kind of a property of the header."""

    def change(fields):
        place = draw.randrange(len(fields))
        name, _, kind = fields[place].rpartition(b":")
        form = draw.randint(0, 3)
        if form == 0:
            fields[place] = name + b":" + draw.choice(KINDS)
        elif form == 1:
            fields[place] = draw.choice(NAMES) + b":" + kind
        elif form == 2:
            fields.insert(place + draw.randint(0, 1), draw.choice(NAMES) + b":" + draw.choice(KINDS))
        else:
            fields[place] = draw.choice([kind, name, draw.choice(NAMES), name + kind, fields[draw.randrange(len(fields))]])

    return on_a_line(draw, data, change, header=True)


def columns_added(draw, data):
    """A property more in the header and in each record, or as many as make the most, and one too many."""
    lines = lines_of(data)
    if not lines:
        return data
    have = len(split_line(lines[0])[0])
    count = draw.choice([1, 2, max(1, 17 - have), max(1, 18 - have), max(1, 19 - have)])
    kind, cell = draw.choice([(b"int", b"1"), (b"int", b""), (b"str", b"a"), (b"bool", b"true"), (b"int", b"x"), (b"str", b"\xff")])
    made = []
    for place, line in enumerate(lines):
        fields, end = split_line(line)
        fields += [b"p%d:%b" % (it, kind) if place == 0 else cell for it in range(count)]
        made.append(b",".join(fields) + end)
    return b"".join(made)


OF_RECORDS = [lines_changed, lines_changed, fields_changed, fields_changed, field_written, field_written, field_written]
OF_RECORDS += [key_written, key_written, key_written, cells_exchanged, cells_exchanged]
OF_DATA = [*OF_RECORDS, property_written, property_written, columns_added, whole]

# ---- Scripts

TOKEN = re.compile(rb"""[A-Za-z_][A-Za-z0-9_-]*|[0-9]+|'(?:[^']|'')*'|"(?:[^"]|"")*"|[!<>]=|#[^\n]*|[ \t\r\n]+|.""", re.DOTALL)
WORDS = b"""load graph nodes edges create view collection on where window from to width step program along out in both start send gather
update min max sum count run within for rounds round order greedy declared split none every auto keep as append show work and or not is
absent true false src dst id value gathered outdeg edge node if then else form insert remove tree group by aggregate phases changes replay
; , : . ( ) [ ] { } + - * / = != < <= > >= G C V1 C0 K0 p4 w y rank name tag ok hops dist wcc pagerank Load GRAPH x x-1 _ 0 1 10 'a' ''
"a" "or" "w" "" ! == <> && % & | ~ $ @ ? ^ \\ 1.5 0x1 1e3 10rounds <=> ' " """.split()
NUMBERS = [b"1", b"2", b"3", b"4", b"5", b"0", b"1", b"2", b"3", b"00", b"007", b"63", b"64", b"65", b"1023", b"1024", b"1025", b"999999", b"1000000", b"1000001", b"4294967296"]
NUMBERS += [b"9223372036854775806", b"9223372036854775807", b"9223372036854775808", b"09223372036854775807", b"18446744073709551616", b"9" * 60, b"-1"]
OTHER_NAMES = [b"G", b"H", b"C", b"C0", b"C1", b"V1", b"V2", b"K0", b"K1", b"p4", b"p5", b"v0", b"v1", b"hops", b"dist", b"wcc", b"pagerank", b"w"]
OTHER_NAMES += [b"y", b"tag", b"ok", b"rank", b"name", b"on", b"nobody", b"w-1", b"w-2", b"v0-1", b"n" * 2000, b"or", b"id", b'"on"', b'"id"', b'" y"']
LITERALS = [b"1", b"-1", b"'a'", b"''", b"true", b"false", b"none", b"src.id", b"dst.id", b"src.name", b"dst.rank", b"src.on", b"w", b"y", b"tag", b"ok"]
LITERALS += [b"edge.w", b"edge.tag", b"node.rank", b"node.name", b"node.w", b"id", b"start", b"value", b"gathered", b"count", b"outdeg", b"a", b"x"]
SIGNS = [b"=", b"!=", b"<", b"<=", b">", b">=", b"==", b"<>", b"is", b"is absent", b"is none", b"+", b"-", b"*", b"/"]
GAPS = [b"", b" ", b"  ", b"\n", b"\t", b"\r\n", b"#x\n", b"# 'x\r;\n", b"\xc2\xa0", b"\x0c", b"\x00", b"#"]


def pieces_of(data):
    """The tokens and what stands between them."""
    return TOKEN.findall(data)


def places_of(pieces, form):
    return [place for place, it in enumerate(pieces) if re.fullmatch(form, it, re.DOTALL)]


def tokens_changed(draw, data):
    """Tokens exchanged, doubled, left out, put in, or another one in the place of one."""
    pieces = pieces_of(data)
    places = places_of(pieces, rb"[^ \t\r\n#].*")
    if not places:
        return data
    one, other = draw.choice(places), draw.choice(places)
    form = draw.randint(0, 5)
    if form == 0:
        pieces[one], pieces[other] = pieces[other], pieces[one]
    elif form == 1:
        pieces[one] += draw.choice([b"", b" "]) + pieces[one]
    elif form == 2:
        del pieces[one]
    elif form == 3:
        pieces[one] = pieces[other]
    elif form == 4:
        pieces[one] = draw.choice(WORDS)
    else:
        pieces[one] = draw.choice(WORDS) + draw.choice([b" ", b"", b"\n"]) + pieces[one]
    return b"".join(pieces)


def replaced(draw, data, form, others):
    """One of the tokens of this form is another."""
    pieces = pieces_of(data)
    places = places_of(pieces, form)
    if places:
        pieces[draw.choice(places)] = draw.choice(others)
    return b"".join(pieces)


def gap_changed(draw, data):
    return replaced(draw, data, rb"[ \t\r\n]+", GAPS)


def name_changed(draw, data):
    own = re.findall(rb"[A-Za-z_][A-Za-z0-9_-]*", data)
    return replaced(draw, data, rb'[A-Za-z_][A-Za-z0-9_-]*|".*"', own if own and draw.randint(0, 1) else OTHER_NAMES)


def defined_name_changed(draw, data):
    """A name behind a word that makes it known or looks it up is another."""
    behind = rb"((?:graph|view|collection|on|program|run|as|to|order|work)\s+|\[\s*)([A-Za-z_][A-Za-z0-9_-]*)"
    found = list(re.finditer(behind, data))
    if not found:
        return data
    one = draw.choice(found)
    name = draw.choice(found)[2] if draw.randint(0, 2) else draw.choice(OTHER_NAMES)
    return data[: one.start(2)] + name + data[one.end(2) :]


def number_changed(draw, data):
    return replaced(draw, data, rb"[0-9]+", NUMBERS)


def literal_changed(draw, data):
    return replaced(draw, data, rb"[0-9]+|'.*'|true|false|none|value|id|gathered|[A-Za-z_][A-Za-z0-9_-]*|\".*\"", LITERALS)


def kind_changed(draw, data):
    """One side of a comparison, or a property of a program or window, is of another kind."""
    sides = rb"((?:=|!=|<|<=|>|>=)\s*|(?:edge|node)\.|window\s+)([0-9]+|'[^']*'|[A-Za-z_][A-Za-z0-9_-]*)"
    found = list(re.finditer(sides, data))
    if not found:
        return data
    one = draw.choice(found)
    others = [b"y", b"w", b"tag", b"ok", b"rank", b"name", b"on"]
    if not one[1].endswith((b".", b"w")) and not one[1].startswith(b"window"):
        others += [b"1", b"-1", b"'a'", b"true", b"src.id", b"src.name", b"dst.on"]
    return data[: one.start(2)] + draw.choice(others) + data[one.end(2) :]


def sign_changed(draw, data):
    return replaced(draw, data, rb"=|!=|<|<=|>|>=", SIGNS)


def statements_of(data):
    """Each statement with the blanks behind it."""
    made, depth = [b""], 0
    for piece in pieces_of(data):
        made[-1] += piece
        depth += (piece == b"{") - (piece == b"}")
        if piece == b"}" or piece == b";" and depth <= 0:
            made.append(b"\n")
    return made


def statements_changed(draw, data):
    """Statements exchanged, doubled, left out, or cut off."""
    made = statements_of(data)
    one, other = draw.randrange(len(made)), draw.randrange(len(made))
    form = draw.randint(0, 3)
    if form == 0:
        made[one], made[other] = made[other], made[one]
    elif form == 1:
        made.insert(other, made[one])
    elif form == 2:
        del made[one]
    else:
        del made[one + 1 :]
    return b"".join(made)


def statement_added(draw, data, others):
    made = statements_of(data)
    made.insert(draw.randint(1, len(made)), b"\n" + draw.choice(others) + b"\n")
    return b"".join(made)


def deeper(draw, data):
    """A predicate or an expression behind many words or brackets that open levels."""
    places = list(re.finditer(rb"(?:where|start|send|update|(\[\s*[A-Za-z0-9_-]+\s*:))\s+([^\[\];{}]*)(?=[\];])", data))
    if not places:
        return data
    place = draw.choice(places)
    is_predicate = place[0].startswith((b"where", b"["))
    form = draw.choice([(b"(", b")"), (b"not ", b"")] if is_predicate else FORMS_OF_EXPRESSIONS)
    other = draw.choice([(b"(", b")"), (b"not (", b")")] if is_predicate else FORMS_OF_EXPRESSIONS)
    count = draw.choice([1, 2, 3, 31, 32, 33, 61, 62, 63, 64, 64, 65, 65, 66])
    more = draw.choice([0, 0, 0, 1, 2])
    inner = place[2]
    for opening, closing in [form] * count + [other] * more:
        inner = opening + inner + closing
    return data[: place.start(2)] + inner + data[place.end(2) :]


FORMS_OF_EXPRESSIONS = [(b"(", b")"), (b"-", b""), (b"- (", b")"), (b"min(1, ", b")"), (b"max(", b", none)"), (b"if 1 = 1 then 1 else ", b""), (b"1 + (", b")")]


def collection_in(draw, data):
    found = re.findall(rb"collection\s+([A-Za-z_][A-Za-z0-9_-]*)", data)
    return draw.choice(found) if found else b"C"


def window_added(draw, data):
    """A collection or an append with as many views as there may be, one less, or more."""
    column = draw.choice([b"w", b"y", b"w", b"y", b"tag", b"z", b'"a,b"'])
    first = draw.choice([b"0", b"1", b"-1", b"-9223372036854775807", b"9223372036854775806"])
    last = draw.choice([b"0", b"1", b"5", b"1022", b"1023", b"1024", b"9223372036854775806", b"9223372036854775807"])
    width, step = (draw.choice([b"0", b"1", b"1", b"1", b"2", b"9223372036854775807"]) for _ in range(2))
    window = b"[%b: window %b from %b to %b width %b step %b]" % (draw.choice([b"w", b"v0", b"t"]), column, first, last, width, step)
    other = draw.choice([b"", b", [w-1: true]", b", [z: w = 1]", b", [w-1024: true]", b", [a: true], [b: true]"])
    items = draw.choice([window + other, b"[w-2: true], " + window, window])
    if draw.randint(0, 1):
        return statement_added(draw, data, [b"append to " + collection_in(draw, data) + b" " + items + b";"])
    behind = draw.choice([b"", b"\nappend to Many [m: true];", b"\nshow order Many;"])
    return data + b"\ncreate view collection Many on G " + items + b";" + behind


def kept_added(draw, data):
    """As many kept runs as there may be, one less, or more."""
    count = draw.choice([62, 63, 64, 65, 66])
    form = b"\nrun %b on %b within 1 round keep as R%d;"
    call = draw.choice([b"wcc", b"hops(1)", b"pagerank"])
    return data + b"".join(form % (call, collection_in(draw, data), it) for it in range(count)) + b"\nshow work R0;"


def names_added(draw, data):
    """Hundreds of names, and then a statement that looks one up, or takes it again."""
    count = draw.choice([100, 250])
    view, program = b"create view %b on %b edges where true;", b"program %b { along in; start 0; send 0; gather sum; update 0; }"
    made = []
    for number in range(count):
        base = b"G" if number == 0 or draw.randint(0, 1) else b"n%d" % draw.randrange(number)
        made.append(program % (b"p-%d" % number) if draw.randint(0, 5) == 0 else view % (b"n%d" % number, base))
    name = draw.choice([b"n", b"p-"]) + b"%d" % draw.randint(0, count + 20)
    made.append(draw.choice([view % (name, b"G"), view % (b"m", name), program % name, b"run %b on C for 1 round;" % name]))
    return data + b"\n" + b"\n".join(made)


def call_changed(draw, data):
    """The program or the arguments of a run, its rounds, or its split."""
    arguments = [b"", b"()", b"(1)", b"(w)", b"(1, w)", b"(w, 1)", b"(1, 1)", b"(1, tag)", b"(1, z)", b"(-1)", b"(1, 2, 3)", b'(1, "w")', b"(y, y)"]
    form = draw.randint(0, 4)
    if form <= 1:
        called = draw.choice([b"hops", b"dist", b"wcc", b"pagerank", b"indeg", b"worn", b"p4", b"nobody"]) + draw.choice(arguments)
        change = (rb"run\s+[A-Za-z_][A-Za-z0-9_-]*\s*(?:\([^()]*\))?", b"run " + called)
    elif form == 2:
        numbers = [b"0", b"00", b"1", b"1000000", b"1000001", b"9223372036854775807", b"9223372036854775808", b"-1", b"''"]
        change = (rb"(?:within|for)\s+[0-9]+", draw.choice([b"within ", b"for "]) + draw.choice(numbers))
    elif form == 3:
        splits = [b"every 0", b"every 1", b"every 9223372036854775807", b"every", b"none", b"auto", b"every 00", b"1"]
        change = (rb"rounds?(?:\s+order\s+\w+)?(?:\s+split[^;]*)?", b"rounds split " + draw.choice(splits))
    elif form == 4 and draw.randint(0, 1):
        change = (rb"(?:within|for)\s+[0-9]+\s+rounds?[^;]*", b"within %b round split every 0 keep as C" % draw.choice([b"0", b"1", b"1000001"]))
    else:
        kept = [b"as C", b"as K0", b"as G", b"as V1", b"as hops", b"as K9", b"K9", b"as w", b"as v0", b"as p4"]
        change = (rb"(?:\s+keep\s+as\s+[^;]*)?;\s*$", b" keep " + draw.choice(kept) + b";")
    found = list(re.finditer(change[0], data, re.MULTILINE))
    if not found:
        return data
    place = draw.choice(found)
    return data[: place.start()] + change[1] + data[place.end() :]


def filled_up(draw, data):
    """A script of as many bytes as it may have, one less, or one more."""
    count = max(0, 2**20 + draw.choice([-1, 0, 0, 1, 1]) - len(data))
    fill = draw.choice([b" " * count, b"\n" * count, b"#" * count, b"\n" + b"a" * max(0, count - 1)])
    return data + fill if draw.randint(0, 1) else fill + data


OF_SCRIPTS = [tokens_changed, tokens_changed, gap_changed, gap_changed, name_changed, defined_name_changed, defined_name_changed]
OF_SCRIPTS += [defined_name_changed, number_changed, number_changed, literal_changed, kind_changed, kind_changed, sign_changed, statements_changed]
OF_SCRIPTS += [statements_changed, deeper, deeper, window_added, window_added, window_added, call_changed, call_changed, call_changed, call_changed]

LARGE = [kept_added, names_added, filled_up]

# ---- Words

SCRIPT_WORDS = [["--script", "s.gv"], ["--script=s.gv"], ["--script", "./s.gv"]]
MODE_WORDS = [[], [], [], [], ["--mode", "run"], ["--mode", "summary"], ["--mode=summary"], ["--mode", "check"], ["--mode=check"]]
MODE_WORDS += [["--mode", "changes"], ["--mode=changes"]]
TURN_WORDS = [[], [], [], ["--turns", "7"], ["--turns=0"], ["--turns", "18446744073709551615"]]
OTHER_WORDS = ["--script", "--sample", "--mode", "--turns", "--script=", "--mode=", "--turns=", "--sample=", "--help", "--version", "-h", "-V", "--", "-"]
OTHER_WORDS += ["", "s.gv", "run", "check", "summary", "Run", "--Script", "--scrip", "-script", "--mode=fly", "--turns=-1", "--turns=x", "--turns=+1"]
OTHER_WORDS += ["--turns=18446744073709551616", "--turns=00000000000000000001", "--turns=000000000000000000001", "--script=s.gv", "--script=-x", "--=", "="]
OTHER_WORDS += ["--script==s.gv", "--script=a=b", "--mode= run", "é", "--é", "--script=é.gv", "--turns=1 ", "--sample=1", "--sample=x", "--script=.", "--script=no.gv"]
OTHER_WORDS += ["--replay", "--replay=", "--replay=s.gv", "--replay=.", "--replay=no", "--Replay", "changes", "--mode=changes"]
REPLAY_WORDS = [["--replay", "s.gv"], ["--replay=e.csv"], ["--replay", "no"]]


def words_drawn(draw):
    if draw.randint(0, 49) == 0:
        return list(draw.choice(REPLAY_WORDS))
    parts = [draw.choice(SCRIPT_WORDS), draw.choice(MODE_WORDS), draw.choice(TURN_WORDS)]
    draw.shuffle(parts)
    return [word for part in parts for word in part]


def words_changed(draw, words):
    """A word left out, doubled, put in, exchanged, or another one in the place of one."""
    words = list(words)
    for _ in range(draw.randint(1, 2)):
        place = draw.randint(0, len(words))
        form = draw.randint(0, 3)
        if form == 0:
            words.insert(place, draw.choice(OTHER_WORDS))
        elif form == 1 and words:
            words[place % len(words)] = draw.choice(OTHER_WORDS)
        elif form == 2 and words:
            words.insert(place, draw.choice(words))
        elif words:
            del words[place % len(words)]
    return words
