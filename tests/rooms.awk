# Compares the table of rooms in docs/ARCHITECTURE.md with crates.txt: each crate has to have a row, and the rows have to
# stand in the order of that file, each once, and each of a crate. Called with crates.txt and then the page.

FNR == 1 { file++ }

file == 1 && /^[a-z]/ {
    sub(/[ :].*/, "")
    crate[++crates] = $0
    next
}

file == 2 && /^## / { inside = ($0 == "## The rooms") }

file == 2 && inside && /^\| `/ {
    name = $2
    gsub(/`/, "", name)
    if (name in place) {
        print "docs/ARCHITECTURE.md has two rows of " name
        twice = 1
    }
    place[name] = ++rows
}

END {
    last = 0
    wrong = twice + 0
    for (i = 1; i <= crates; i++) {
        known[crate[i]] = 1
        if (!(crate[i] in place)) {
            print "docs/ARCHITECTURE.md has no row of " crate[i]
            wrong = 1
        } else if (place[crate[i]] < last) {
            print "docs/ARCHITECTURE.md has " crate[i] " before rooms that stand before it in crates.txt"
            wrong = 1
        } else {
            last = place[crate[i]]
        }
    }
    for (name in place) {
        if (!(name in known)) {
            print "docs/ARCHITECTURE.md has a row of " name ", which is no crate"
            wrong = 1
        }
    }
    exit wrong
}
