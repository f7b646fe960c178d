# What words of specs stand on, from lines 'FILE WORD': a row for each file of specs with the definitions that they reach, how many these are, and of how
# many lines; and then all of them together. For .ci/model. It follows words through the imports of a file, by its text.

# The words of specs that a line of imports of the file brings, and the names of whole files.
function read_import(file, line,    path, words, parts, n, i) {
    path = spec_file(line)
    if (path == "") return
    if (line ~ / as / && line !~ /\.\{/) {
        sub(/^.* as /, "", line)
        alias[file, line] = path
        return
    }
    n = imported(line, words)
    for (i = 1; i <= n; i++) {
        if (split(words[i], parts, / as /) == 2) origin[file, parts[2]] = parts[1]
        from[file, parts[split(words[i], parts, / as /)]] = path
    }
}

# Reads a file once: its imports, and its definitions, each with its lines.
function read_spec(file,    line, name, parts, n, i) {
    if (file in known) return
    known[file] = 1
    name = ""
    while ((getline line < file) > 0) {
        if (line ~ /^(pub )?use Rattle\./) {
            read_import(file, line)
        } else if (line ~ /^(abbrev|unfoldable|pub|record|data|mod) /) {
            n = split(line, parts, " ")
            name = ""
            for (i = 1; i <= n && name == ""; i++) if (parts[i] !~ /^(abbrev|unfoldable|pub|record|data|mod|module)$/) name = parts[i]
            add_line(file, name, line)
        } else if (name != "" && line !~ /^(--|[ \t]*$)/) {
            add_line(file, name, line)
        }
    }
    close(file)
}

function add_line(file, name, line) {
    text[file, name] = text[file, name] " " line
    lines[file, name]++
}

function reach(file, name) {
    if ((file, name) in origin) name = origin[file, name]
    read_spec(file)
    if (!((file, name) in text) || (file, name) in reached) return
    reached[file, name] = 1
    waiting[++last] = file SUBSEP name
}

# What a word in a definition of the file names.
function follow(file, word,    parts, head) {
    head = word
    sub(/\..*/, "", head)
    if ((file, word) in text) reach(file, word)
    else if ((file, head) in text) reach(file, head)
    else if ((file, word) in from) reach_there(file, word)
    else if ((file, head) in from) reach_there(file, head)
    else if ((file, head) in alias && split(word, parts, ".") > 1) reach(alias[file, head], parts[2])
}

function reach_there(file, word) { reach(from[file, word], (file, word) in origin ? origin[file, word] : word) }

{ reach($1, $2) }

END {
    for (first = 1; first <= last; first++) {
        split(waiting[first], at, SUBSEP)
        body = text[at[1], at[2]]
        while (match(body, /[A-Za-z_][A-Za-z0-9_'-]*(\.[A-Za-z_][A-Za-z0-9_'-]*)*/)) {
            follow(at[1], substr(body, RSTART, RLENGTH))
            body = substr(body, RSTART + RLENGTH)
        }
        if (!(at[1] in count)) files[++many] = at[1]
        count[at[1]]++
        length_of[at[1]] += lines[at[1], at[2]]
    }
    for (i = 1; i <= many; i++) {
        printf "| `%s` | %d | %d |\n", files[i], count[files[i]], length_of[files[i]]
        definitions += count[files[i]]
        all += length_of[files[i]]
    }
    printf "| all, in %d files | %d | %d |\n", many, definitions, all
}
