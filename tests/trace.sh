#!/bin/sh
# Checks docs/TRACE.md, from the repository's root: each row has five columns, none of them empty, and a known state; ids are unique; the
# count line that ends the file is true; each must-fail edit, guard and knot is in some row by its path. Code in backticks under 'Carried
# by' and 'Guard' is a path (a file or folder, from the root) or a name, which belongs to the last path before it in its column. A path
# exists, and a name stands in its file: in .antt and .rt it is declared there (a definition, law, constructor, field, function, type or the
# label of an `ensures`; `Type::method` as the method); in any other file, in a folder, or where it is no name (`&mut [u32]`) it occurs. A
# row that is open names what is meant to come, and is not held to this.
# Prints a line for each fault, then 'N passed, M failed': N rows without fault, M faults. Exit 0 only with M = 0. Tried with wrong copies
# of TRACE.md: a name that its file has not, a name that it only mentions, a name before any path, a path that is not there, an edit in no
# row, a row of four columns, a wrong count: each fails.
# Usage: sh tests/trace.sh [FILE]
trace=${1:-docs/TRACE.md}
if [ ! -r "$trace" ]; then
    echo "$trace: cannot be read"
    echo "0 passed, 1 failed"
    exit 1
fi
find crates/*/must-fail crates/*/guards tests/knots -name '*.edit' 2>/dev/null | sort | awk -v name="$trace" '
function fault(where, text) {
    print name ":" where ": " text
    faults++
}
function trim(s) {
    sub(/^[ \t]+/, "", s)
    sub(/[ \t]+$/, "", s)
    return s
}
function known(state) {
    return state == "open" || state == "done" || state == "form later"
}
function is_path(s) {
    return s == "reference" || s ~ /^(crates|reference|docs|tests|examples|include|host|bench)\//
}
function is_name(s) {
    return s ~ /^[A-Za-z][A-Za-z0-9_-]*$/
}
# keeps what a file declares and its whole text
function load(file,    line, words, n, i, inside) {
    if (file in text) return
    text[file] = ""
    while ((getline line < file) > 0) {
        text[file] = text[file] line "\n"
        sub(/^ +/, "", line)
        if (line ~ /^(--|\/\/|use |ghost |let )/) continue
        if (file ~ /\.antt$/) {
            while (sub(/^(pub|abbrev|unfoldable) /, "", line)) continue
            if (line ~ /^(record|data|module) /) {
                split(line, words, " ")
                declared[file, words[2]] = 1
            } else if (line ~ /^[^ (){}=:]+( [^ (){}=:]+)* : /) {
                sub(/ : .*/, "", line)
                n = split(line, words, " ")
                for (i = 1; i <= n; i++) declared[file, words[i]] = 1
            }
        } else {
            while (sub(/^(pub|pub\(crate\)|extern "C") /, "", line)) continue
            if (line ~ /^(struct|enum) /) inside = 1
            if (line ~ /^}/) inside = 0
            if (line ~ /^(fn|struct|enum|const|mod|type|ensures|impl) /) {
                sub(/^[a-z]+ /, "", line)
                sub(/[^A-Za-z0-9_-].*/, "", line)
                declared[file, line] = 1
            } else if (inside && line ~ /^[A-Za-z_][A-Za-z0-9_]*(:|,|\()/) {
                sub(/[:,(].*/, "", line)
                declared[file, line] = 1
            }
        }
    }
    close(file)
}
function stands(word, file,    parts, n) {
    if (system("test -d \"" file "\"") == 0) {
        gsub(/[\\"$`]/, "\\\\&", word)
        return system("grep -rqF -e \"" word "\" \"" file "\"") == 0
    }
    load(file)
    n = split(word, parts, "::")
    if (file ~ /\.rt$/ && n == 2) return (file, parts[1]) in declared && (file, parts[2]) in declared
    if (file ~ /\.(antt|rt)$/ && is_name(word)) return (file, word) in declared
    return index(text[file], word) > 0
}
# every second piece between backticks is code
function check_column(column,    pieces, n, i, file) {
    n = split(column, pieces, "`")
    file = ""
    for (i = 2; i <= n; i += 2) {
        if (is_path(pieces[i])) {
            file = pieces[i]
            if (file ~ /[^A-Za-z0-9_.\/-]/ || file ~ /\.\./) {
                fault(NR, id ": not a plain path: " file)
                file = ""
            } else if (system("test -e \"" file "\"") != 0) {
                fault(NR, id ": there is no " file)
                file = ""
            } else given[file] = 1
        } else if (file == "") {
            fault(NR, id ": a name without a file: " pieces[i])
        } else if (!stands(pieces[i], file)) {
            fault(NR, id ": " file " has no " pieces[i])
        }
    }
}
# first the list of edits, then the rows
FILENAME == "-" {
    edits[++edit_count] = $0
    next
}
{ sub(/\r$/, "") }
/[^ \t]/ { last = $0; last_at = FNR }
/^[ \t]*\|/ {
    row = trim($0)
    if (row ~ /^\|[-|: \t]+\|$/) next
    gsub(/\\\|/, "\001", row)
    n = split(row, cell, "|")
    NR = FNR
    if (trim(cell[2]) == "Id") {
        if (row != "| Id | Sentence | Carried by | Guard | State |") fault(NR, "heading of other columns")
        next
    }
    rows++
    before = faults
    id = trim(cell[2])
    if (n != 7 || cell[1] != "" || trim(cell[7]) != "") {
        fault(NR, id ": not five columns")
        next
    }
    for (i = 2; i <= 6; i++) if (trim(cell[i]) == "") fault(NR, id ": column " i - 1 " is empty")
    if (id in seen) fault(NR, id ": id already used in line " seen[id])
    else seen[id] = NR
    state = trim(cell[6])
    if (known(state)) count[state]++
    else fault(NR, id ": unknown state: " state)
    if (state != "open") {
        check_column(cell[4])
        check_column(cell[5])
    }
    if (faults == before) passed++
}
END {
    truth = "Rows: " rows + 0 " (open " count["open"] + 0 ", done " count["done"] + 0 ", form later " count["form later"] + 0 ")"
    if (rows == 0) fault(last_at + 0, "no rows")
    if (last != truth) fault(last_at + 0, "last line should be: " truth)
    if (edit_count == 0) fault(last_at + 0, "there are no edits")
    for (i = 1; i <= edit_count; i++) if (!(edits[i] in given)) fault(last_at + 0, "in no row: " edits[i])
    print passed + 0 " passed, " faults + 0 " failed"
    exit faults > 0
}
' - "$trace"
