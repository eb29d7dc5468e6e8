# The rows of the tables of tests/scripts as runs, one a line: the row's number, the run's name, the words, the text of the
# script, and what is wanted on standard output, on standard error and as the status, parted by the byte 31. Texts are for
# printf's %b. tests/README.md says how a row is written.

# A text with each \N{T} in it written out: N times T.
function written_out(text,    count, part, made) {
    while (match(text, /\\[1-9][0-9]*[{][^}]*[}]/)) {
        part = substr(text, RSTART + 1, RLENGTH - 2)
        count = part + 0
        sub(/^[0-9]*[{]/, "", part)
        for (made = ""; count > 0; count--) made = made part
        text = substr(text, 1, RSTART - 1) made substr(text, RSTART + RLENGTH)
    }
    return text
}

# A text with this in place of its first mark.
function with(text, mark, this,    at) {
    at = index(text, mark)
    return at ? substr(text, 1, at - 1) this substr(text, at + length(mark)) : text
}

function run(name, text, out, err) {
    print row, table ": " name, words, text, out, err, status
    runs++
}

function refuse(why) {
    print "tests/scripts/" table ".rows, " name ": " why
    refused = 1
    exit 1
}

# The row whose lines have been read, as runs.
function finish(    text, word, names, blank, cut) {
    if (name == "front") {
        front = script == "" ? "" : script "\\n"
        canonical = out == "" ? front : out
    } else if (name == "word") {
        gsub(/\\n/, " ", script)
        reserved = script
    } else if (name != "") {
        if (!answered) refuse("it has no answer")
        row++
        runs = 0
        script = written_out(script)
        text = front script
        if (own) out = script "\\n"
        out = written_out(out)
        if (words == usual && err == "") out = canonical out
        if (status == "") status = err == "" ? 0 : 5
        if (index(script, "\\word")) {
            split(reserved, names, " ")
            for (word = 1; word in names; word++) run(name ", " names[word], with(text, "\\word", names[word]), out, err)
        } else if (index(err, "\\cut")) {
            # (the place behind a blank is the end of what is left)
            for (cut = 0; (blank = index(substr(script, cut + 1), " ")) > 0; ) {
                cut += blank
                run(name ", before column " cut + 1, front substr(script, 1, cut), out, with(err, "\\cut", cut + 1))
            }
        } else {
            run(name, text, out, err)
            if (words == usual && out != "" && out != text) run(name ", its canonical text", out, out, err)
        }
        if (!runs) refuse("it is never run")
    }
    name = ""
}

BEGIN {
    OFS = "\037"
    usual = "--script s.gv --mode check"
}

FNR == 1 {
    finish()
    table = FILENAME
    gsub(/.*\/|\.rows$/, "", table)
    front = canonical = ""
}

/^#/ || /^$/ { next }

/^  / {
    script = script between substr($0, 3)
    between = "\\n"
    next
}

/^(=|==|= .*|! .*)$/ { answered = 1 }
/^==$/ { own = 1; next }
/^=$/ { next }
/^= / { out = out substr($0, 3) "\\n"; next }
/^! / { err = err substr($0, 3) "\\n"; next }
/^[$] / { words = substr($0, 3); next }
/^status [0-9]+$/ { status = $2; next }

{
    finish()
    name = $0
    script = between = out = err = status = own = answered = ""
    words = usual
}

END {
    if (!refused) finish()
    exit refused
}
