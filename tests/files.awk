# The rows of a table of data files as runs. A row gives seven lines, as printf '%b' takes them: its name, the nodes file, the
# edges file, the script, the status, and what has to be written to standard error and to standard output.
#
#   NAME | NODES | EDGES | FAULT         the line on standard error, behind 'surge: data: ', for the status 4
#   NAME | NODES | EDGES | loads         the status 0, and then at least one of these lines, each a run for one round:
#       start EXPRESSION | TABLE         what each node starts with
#       send EXPRESSION | TABLE          the greatest value that the edges send to each node
#       where PREDICATE | TABLE          how many edges for which it holds lead to each node
#
# A TABLE is 'id,value' for each node, by rising id, parted by blanks. Blanks around a part don't count, nor do lines that begin with #,
# nor blank lines. In each part \n and \r are LF and CR, \xHH is a byte, and \*N(PIECE) is PIECE N times, without a ) in it.

function refuse(text) {
    print FILENAME ":" FNR ": " text > "/dev/stderr"
    failed = 1
    exit 1
}

function trimmed(text) {
    gsub(/^ +| +$/, "", text)
    return text
}

function digit(text) {
    return index("0123456789ABCDEF", text) - 1
}

# A text with its escapes as those of printf '%b'.
function bytes(text,    out, at, count, piece) {
    out = ""
    while ((at = index(text, "\\")) > 0) {
        out = out substr(text, 1, at - 1)
        text = substr(text, at + 1)
        if (text ~ /^[nr]/) {
            out = out "\\" substr(text, 1, 1)
            text = substr(text, 2)
        } else if (text ~ /^x[0-9A-F][0-9A-F]/) {
            out = out sprintf("\\0%03o", 16 * digit(substr(text, 2, 1)) + digit(substr(text, 3, 1)))
            text = substr(text, 4)
        } else if (match(text, /^\*[0-9]+\([^)]*\)/)) {
            piece = substr(text, 2, RLENGTH - 2)
            text = substr(text, RLENGTH + 1)
            count = piece + 0
            sub(/^[0-9]+\(/, "", piece)
            piece = bytes(piece)
            while (count-- > 0) out = out piece
        } else {
            refuse("no escape: \\" text)
        }
    }
    return out text
}

# The lines of a table behind its head.
function lines(table,    row, count, i, out) {
    count = split(table, row, / +/)
    out = ""
    for (i = 1; i <= count; i++) out = out row[i] "\\n"
    return out "end\\n"
}

# Ends the row that was begun.
function finish() {
    if (name == "") return
    if (status == 0 && probes == 0) refuse("nothing says what the row before loads as")
    print name
    print nodes
    print edges
    print script
    print status
    print errors
    print output
    name = ""
}

/^ *$/ || /^#/ { next }

{ count = split($0, part, /[|]/) }

# A row.
/^[^ ]/ {
    finish()
    if (count != 4) refuse("a row has four parts")
    name = trimmed(part[1])
    if (name in known) refuse("the name of this row stands before")
    known[name] = 1
    nodes = bytes(trimmed(part[2]))
    edges = bytes(trimmed(part[3]))
    wanted = trimmed(part[4])
    script = "load graph G nodes 'n' edges 'e';\\n"
    errors = output = ""
    probes = 0
    if (wanted == "loads") {
        status = 0
        script = script "create view collection A on G [all: true];\\n"
    } else if (wanted ~ /^(nodes|edges) record [0-9]+ column [0-9]+: [A-Za-z0-9]+$/) {
        status = 4
        errors = "surge: data: " wanted "\\n"
    } else {
        refuse("no answer: " wanted)
    }
    rows++
    next
}

# What a row has to show of what it loads.
{
    if (name == "" || status != 0 || count != 2) refuse("this line belongs to no row that loads")
    probe = trimmed(part[1])
    text = bytes(substr(probe, index(probe, " ") + 1))
    table = lines(trimmed(part[2]))
    probes++
    called = "p" probes
    on = "A"
    view = "A.all"
    if (probe ~ /^start /) {
        parts = "start " text "; send none; gather min; update start;"
    } else if (probe ~ /^send /) {
        parts = "start none; send " text "; gather max; update gathered;"
    } else if (probe ~ /^where /) {
        parts = "start 0; send 1; gather count; update gathered;"
        on = "V" probes
        view = on ".v"
        script = script "create view collection " on " on G [v: " text "];\\n"
    } else {
        refuse("neither start, send nor where")
    }
    script = script "program " called " { along out; " parts " }\\nrun " called " on " on " for 1 round;\\n"
    output = output "view " view " " called " after 1\\n" table
}

END {
    if (failed) exit 1
    finish()
    if (rows == 0) refuse("there is no row")
}
