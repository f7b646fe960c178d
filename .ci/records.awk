# The records of specs that clauses name, from lines 'SPEC WORD', and those that these name: for
# .ci/contracts. A list of cases counts as a record, and so does a word whose meaning begins with one.
# A record without parameters is a type of values, and isn't printed.
#
# Where `texts` is set it lists them, a line 'NUMBER record SPEC WORD' each, whose text goes to the file
# NUMBER of this folder, blanks folded. Fields go to the file `clauses`, as lines 'WORD FIELD'.

# The words of specs that a line of imports of the file brings.
function read_import(file, line,    path, words, n, i) {
    path = spec_file(line)
    n = path == "" ? 0 : imported(line, words)
    for (i = 1; i <= n; i++) from[file, words[i]] = path
}

# Reads a file of specs once: its imports, and its records and words with what stands above each.
function read_spec(file,    line, above, name, parts, sides, begun) {
    if (file in known) return
    known[file] = 1
    above = name = ""
    while ((getline line < file) > 0) {
        if (line == "") {
            above = name = begun = ""
            continue
        }
        if (line ~ /^use Rattle\..*\.\{/) {
            read_import(file, line)
            continue
        }
        split(line, parts, " ")
        if (line ~ /^pub (record|data) [A-Za-z_0-9]+ [({]/) name = parts[3]
        else if (line ~ /^abbrev pub [A-Z][A-Za-z_0-9]* :/) name = parts[3]
        else if (name != "" && !((file, name) in meant) && (begun || parts[1] == name && line ~ / =( [A-Z]|$)/)) {
            begun = line ~ / =$/
            sides = line
            sub(/^.* = /, "", sides)
            split(sides, parts, " ")
            if (!begun) meant[file, name] = parts[1]
        }
        above = above "    " line "\n"
        if (name == "") continue
        if (line ~ /^pub (record|data) /) record[file, name] = 1
        if (!((file, name) in text)) names[file] = names[file] " " name
        text[file, name] = above
    }
    close(file)
}

# The file that the word has its meaning in, of those that the file sees.
function home(file, name) { return (file, name) in text ? file : from[file, name] }

# Whether the word is a record, or its meaning begins with one.
function is_record(file, name,    other) {
    read_spec(file)
    if ((file, name) in record) return 1
    if (!((file, name) in meant)) return 0
    other = home(file, meant[file, name])
    if (other == "") return 0
    read_spec(other)
    return (other, meant[file, name]) in record
}

function want(file, name) {
    if (file == "" || (file, name) in wanted) return
    wanted[file, name] = 1
    ahead[++last] = file
    word[last] = name
}

# Notes what the record names, and its fields.
function follow(file, name,    lines, n, i, words, m, j) {
    n = split(text[file, name], lines, "\n")
    for (i = 1; i <= n; i++) {
        if (lines[i] ~ /^ *--/) continue
        m = split(lines[i], words, " ")
        if (clauses != "" && words[1] == "pub" && words[3] == ":") print name, words[2] >> clauses
        gsub(/[^A-Za-z0-9_]/, " ", lines[i])
        m = split(lines[i], words, " ")
        for (j = 1; j <= m; j++) want(home(file, words[j]), words[j])
    }
}

# The files of what is printed, rising.
function show(file,    i) {
    if (file in shown) return
    shown[file] = 1
    for (i = ++files; i > 1 && sorted[i - 1] > file; i--) sorted[i] = sorted[i - 1]
    sorted[i] = file
}

{ want($1, $2) }

# The record goes to the list.
function list_record(file, name,    number, told) {
    number = sprintf("records.%05d", ++listed)
    told = text[file, name]
    gsub(/[ \n]+/, " ", told)
    print told > (texts "/" number)
    close(texts "/" number)
    print number, "record", file, name
}

END {
    for (at = 1; at <= last; at++) {
        if (!is_record(ahead[at], word[at])) continue
        printed[ahead[at], word[at]] = 1
        follow(ahead[at], word[at])
        show(ahead[at])
    }
    if (texts == "" && files) print "\n## The records that these clauses name"
    for (at = 1; at <= files; at++) {
        if (texts == "") printf "\n**Of `%s`.**\n", sorted[at]
        n = split(names[sorted[at]], list, " ")
        for (i = 1; i <= n; i++) {
            if (!((sorted[at], list[i]) in printed)) continue
            if (texts == "") printf "\n%s", text[sorted[at], list[i]]
            else list_record(sorted[at], list[i])
        }
    }
}
