# Compares what many runs wrote, and how they ended, with what is wanted. The variable rows names a file with a line for each
# run, of the number of its row and its name, parted from the rest by the byte 31; want and got name folders with the files
# status, stderr and stdout, where the answer of each run ends at the byte 30. Of each row the first run that differs is told,
# and how many rows passed and failed goes to the file that counts names.

function first_lines(text,    lines, count, i) {
    count = split(text, lines, "\n")
    for (i = 1; i <= count && i <= 8; i++) if (i < count || lines[i] != "") print "        " lines[i]
}

# Notes this part of the next run, where it differs.
function look(part) {
    wanted[part] = found[part] = ""
    getline wanted[part] < (want "/" part)
    if ((getline found[part] < (got "/" part)) <= 0) found[part] = "(no answer)"
    if (wanted[part] != found[part]) shown = shown " " part
}

BEGIN {
    while ((getline line < rows) > 0) {
        split(line, cells, "\037")
        row[++runs] = cells[1]
        name[runs] = cells[2]
    }
    RS = "\036"
    split("status stderr stdout", parts, " ")
    for (i = 1; i <= runs; i++) {
        shown = ""
        for (p = 1; p in parts; p++) look(parts[p])
        if (shown == "" || row[i] == wrong) continue
        wrong = row[i]
        failed++
        print "FAILED " name[i] ": differs in" shown
        for (p = 1; p in parts; p++) {
            if (index(shown, parts[p]) == 0) continue
            print "    --- " parts[p] ", wanted (first lines)"
            first_lines(wanted[parts[p]])
            print "    --- " parts[p] ", got (first lines)"
            first_lines(found[parts[p]])
        }
    }
    print row[runs] - failed, failed + 0 > counts
}
