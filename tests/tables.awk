# The rows of two tables of docs/LANGUAGE.md as runs, one a line: the kind, the text and the answer, parted by tabs.
# A row of 'Faults against a graph' is statements, and the line on standard error; one of the values of expressions is the
# start of a node with the id 1, and its value as a table shows it.

/^## / { graph = ($0 == "## Faults against a graph"); values = 0 }
/the start of a node with the id 1/ { values = 1 }

graph && /^\| `.*[;}]` \| / {
    split($0, cells, / \| /)
    text = cells[1]
    sub(/^\| `/, "", text)
    sub(/`$/, "", text)
    answer = cells[2]
    sub(/ \|$/, "", answer)
    if (answer ~ /^not built at statement /) {
        sub(/^not built at /, "", answer)
        print "refused\t" text "\tsurge: not built: " answer
    } else {
        fault = answer
        gsub(/`/, "", fault)
        sub(/ at statement .*/, "", fault)
        sub(/.* at statement /, "", answer)
        print "refused\t" text "\tsurge: script: statement " answer ": " fault
    }
}

values && /^\| `.*` \| [^ ]+ \|$/ {
    split($0, cells, / \| /)
    text = cells[1]
    sub(/^\| `/, "", text)
    sub(/`$/, "", text)
    answer = cells[2]
    sub(/ \|$/, "", answer)
    if (answer == "`none`") answer = "-"
    print "value\t" text "\t" answer
}
