# Compares the fenced blocks of a document with the files that they are copies of. In the document a block stands behind
# a line
#     <!-- file: PATH -->    where it is all of that file, or
#     <!-- from: PATH -->    where it is some whole lines of it, one behind the other.
# PATH is from the top of the repository, which is the variable top. A block with neither is told, unless its opening
# fence names a language of what is not run (sh, ebnf, text).

function text_of(path,    line, text) {
    text = ""
    while ((getline line < path) > 0) {
        # (a line may end with CR LF in data files)
        sub(/\r$/, "", line)
        text = text line "\n"
    }
    close(path)
    return text
}

function judge(    text) {
    if (path == "") return
    text = text_of(top "/" path)
    if (text == "") {
        print FILENAME ":" begun ": there is no file " path
        wrong = 1
    } else if (kind == "file" ? block != text : index("\n" text, "\n" block) == 0) {
        print FILENAME ":" begun ": this block is not " (kind == "file" ? "the file " : "a part of the file ") path
        wrong = 1
    }
}

!inside && /^<!-- (file|from): [^ ]+ -->$/ {
    kind = substr($2, 1, 4)
    path = $3
    next
}

/^```/ {
    if (inside) {
        judge()
        inside = 0
        path = ""
    } else {
        inside = 1
        begun = FNR
        block = ""
        language = substr($0, 4)
        if (path == "" && language !~ /^(sh|ebnf|text)$/) {
            print FILENAME ":" FNR ": this block names no file"
            wrong = 1
        }
    }
    next
}

inside { block = block $0 "\n"; next }

# (only blank lines may stand between a path and its block)
/[^ ]/ { path = "" }

END {
    if (inside) {
        print FILENAME ": a block is not closed"
        wrong = 1
    }
    exit wrong
}
