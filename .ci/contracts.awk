# The public calls of one crate, from its files, its root first: for .ci/contracts.
#
# Without `names` it lists them: a line 'NUMBER KIND NAME CLAUSES' for each call, trait and type that
# shows what it is made of, whose text goes to the file NUMBER of the folder `texts`, blanks folded.
# What clauses name goes to the file `named`, as lines 'SPEC WORD'; each call and clause to the file
# `clauses`, as lines 'CALL' and 'CALL CLAUSE'; and each call that is given an object with a count of
# faults, or an environment, to the file `reaching`.
# With `names` it prints what has one of these names: a call, a type with its calls, or the crate. What
# their clauses name goes to `named`, and each name that it found to the file `found`.

# The paragraphs of what stands above an item, each one line, behind `head`.
function told(head, doc,    lines, n, i, text, out) {
    n = split(doc, lines, "\n")
    text = head
    out = ""
    for (i = 1; i <= n + 1; i++) {
        if (i > n || lines[i] == "") {
            if (text != "") out = out text "\n\n"
            text = ""
        } else text = text (text == "" ? "" : " ") lines[i]
    }
    return out
}

# The name of a type as it is spoken of: without what it is generic over.
function bare(text) {
    sub(/<.*/, "", text)
    gsub(/[^A-Za-z0-9_]/, "", text)
    return text
}

# Takes a balanced <..> off the front.
function without_generics(text,    depth, i, c) {
    if (substr(text, 1, 1) != "<") return text
    for (i = 1; i <= length(text); i++) {
        c = substr(text, i, 1)
        if (c == "<") depth++
        if (c == ">" && substr(text, i - 1, 1) != "-") depth--
        if (depth == 0) return substr(text, i + 1)
    }
    return ""
}

# The words of specs that a line of imports brings.
function read_import(line,    file, words, n, i) {
    file = spec_file(line)
    n = file == "" ? 0 : imported(line, words)
    for (i = 1; i <= n; i++) from[words[i]] = file
}

# Notes what a clause of this item names of specs.
function note_words(item, text,    words, n, i) {
    gsub(/[^A-Za-z0-9_]/, " ", text)
    n = split(text, words, " ")
    for (i = 1; i <= n; i++) {
        if (words[i] in from) need[item] = need[item] from[words[i]] " " words[i] "\n"
    }
}

# Writes an item down under its type, its trait or its module: a call, or what the type shows.
function add(owner, name, kind, head, text) {
    if (!(owner in seen)) order[++count] = owner
    seen[owner] = 1
    items[owner] = items[owner] " " ++last
    name_of[last] = name
    kind_of[last] = kind
    head_of[last] = head
    text_of[last] = text
}

# The name of the function whose header the line begins.
function name_in(line) { match(line, /fn [a-z_0-9]+/); return substr(line, RSTART + 3, RLENGTH - 3) }

# The word that a clause without a name says, as the record `Begins`, and "_" if it isn't one word with a capital.
function word_of(clause) {
    sub(/^.*[ ({]in /, "", clause)
    sub(/^[{ ]+/, "", clause)
    if (clause ~ /^(If|On)(Ok|Err|Some) |^Is(True|Some|OkUnless) / || !match(clause, /^[A-Z][A-Za-z0-9]*/)) return "_"
    return substr(clause, RSTART, RLENGTH)
}

# Takes the header that begins with this line, up to the body, and writes it down under its owner.
function take_call(line, owner, name,    indent, text, part, clause, in_clauses, needs, gives, unnamed) {
    match(line, /^ */)
    indent = RLENGTH
    said[name] = 1
    text = ""
    do {
        part = substr(line, indent + 1)
        if (part == "{" || part == "{}") break
        if (part ~ /^    (requires|ensures) /) {
            in_clauses = 1
            if (unnamed != "") gives = gives " " word_of(unnamed)
            unnamed = ""
            clause = part
            sub(/^    (requires|ensures) /, "", clause)
            if (clause ~ /^\{/ && part ~ /^    ensures/) unnamed = clause
            else {
                if (clause ~ /^\{/) clause = "_"
                else {
                    sub(/ .*/, "", clause)
                    said[name " " clause] = 1
                }
                if (part ~ /^    requires/) needs = needs " " clause
                else gives = gives " " clause
            }
        } else if (unnamed != "") {
            clause = part
            sub(/^ */, " ", clause)
            unnamed = unnamed clause
        }
        if (!in_clauses && part ~ /: (Store|Source|Sink|MergeOperator|BlockTransformer)([^A-Za-z]|$)|[( ]env: &mut /) reaches[last + 1] = 1
        if (in_clauses) note_words(last + 1, part)
        else if (sub(/ *\{\}?$/, "", part)) {
            text = text "    " part "\n"
            break
        }
        if (part !~ /^( *| *\/\/ .*)$/) text = text "    " part "\n"
        if (part ~ /;$/ && (!in_clauses || part ~ /\};$/)) break
    } while ((getline line) > 0)
    if (unnamed != "") gives = gives " " word_of(unnamed)
    add(owner, name, "fn", told("**`" name "`.**", doc), text)
    given[last] = gives (needs == "" ? "" : " requires" needs)
}

FNR == 1 {
    split("", from)
    doc = raw = current = trait = ""
    module = FILENAME
    sub(/^.*\/src\//, "", module)
    sub(/\.rt$/, "", module)
    gsub(/\//, "::", module)
    is_root = module == "lib"
    parent = leaf = module
    if (!sub(/::[a-z_0-9]+$/, "", parent)) parent = "lib"
    sub(/^.*::/, "", leaf)
    is_open = is_root || (parent " " leaf) in opened
}

/^pub mod / {
    name = $3
    sub(/;.*/, "", name)
    opened[module " " name] = 1
}

# What the root passes on, and from which of its modules.
is_root && /^pub use [a-z_]+::/ {
    text = $0
    while (text !~ /;/ && (getline line) > 0) text = text line
    sub(/^pub use /, "", text)
    path = text
    sub(/(::\{|::[A-Za-z_0-9]+;).*/, "", path)
    sub(/^[a-z_0-9:]*::/, "", text)
    gsub(/[{};]/, "", text)
    n = split(text, items, ",")
    for (i = 1; i <= n; i++) {
        gsub(/ /, "", items[i])
        if (items[i] != "") passed_on[items[i]] = path
    }
    next
}

/^ *ghost use Rattle\./ { read_import($0); next }

/^ *\/\/\/ ?/ {
    line = $0
    sub(/^ *\/\/\/ ?/, "", line)
    doc = doc (doc == "" ? "" : "\n") line
    raw = raw $0 "\n"
    next
}

/^ *#\[/ || /^ *$/ { next }

/^(impl|pub trait)/ {
    head = $0
    while (head !~ /\{\}?$/ && (getline line) > 0) head = head " " line
    trait = current = ""
    if (sub(/^pub trait /, "", head)) {
        sub(/:.*/, "", head)
        trait = bare(head)
        type_doc[trait] = doc
        is_public[trait] = is_open || trait in passed_on
    } else if (head !~ /\{\}$/) {
        sub(/^impl/, "", head)
        head = without_generics(head)
        if (head !~ / for /) current = bare(head)
    }
}

# Of a type that shows what it is made of that is printed.
/^pub (struct|enum|type) / {
    name = bare($3)
    text = "    " $0 "\n"
    shows = $2 == "enum"
    if ($0 ~ /\{$/) do {
        if ((getline line) <= 0) break
        if (line ~ /^    pub [a-z]/) shows = 1
        if (line !~ /^ *(#\[.*)?$/) text = text "    " line "\n"
    } while (line !~ /^\}/)
    if (!(name in passed_on) || passed_on[name] == module) {
        type_doc[name] = doc
        is_public[name] = is_open || name in passed_on
        if (shows) add(name, name, "type", "", text)
    }
}

/^\}/ { current = trait = "" }

trait != "" && /^    ghost [a-z_]+:/ {
    text = $0
    while (text !~ /;$/ && (getline line) > 0) text = text "\n" line
    note_words(last + 1, text)
    add(trait, trait, "trait", "", raw text "\n")
    match(text, /ghost [a-z_]+/)
    given[last] = " " substr(text, RSTART + 6, RLENGTH - 6)
}

trait != "" && /^    fn / { take_call($0, trait, trait "::" name_in($0)) }

current != "" && /^    pub (const )?fn / { take_call($0, current, current "::" name_in($0)) }

/^pub (const )?fn / {
    name = name_in($0)
    if (!is_root && passed_on[name] != module) name = module "::" name
    is_public[name] = is_open || name in passed_on
    take_call($0, name, name)
}

{ doc = raw = "" }

# The item goes to the list.
function list_item(item,    number, text) {
    number = sprintf("%s.%05d", crate, item)
    text = text_of[item]
    gsub(/[ \n]+/, " ", text)
    print text > (texts "/" number)
    close(texts "/" number)
    print number, kind_of[item], name_of[item] given[item]
    if (item in need) printf "%s", need[item] >> named
    if (item in reaches) print name_of[item] >> reaching
}

function print_item(item) {
    printf "%s%s\n", head_of[item], text_of[item]
    if (item in need) printf "%s", need[item] >> named
}

# Prints those items of a type that are asked for.
function print_owner(owner, whole,    list, n, i, shown, item) {
    n = split(items[owner], list, " ")
    for (i = 1; i <= n; i++) {
        item = list[i]
        if (!whole && !(name_of[item] in asked)) continue
        if (!shown++) {
            if (!begun++) printf "\n## %s\n", crate
            printf "\n### %s\n\n", owner
            if (whole && owner in type_doc) printf "%s", told("", type_doc[owner])
        }
        print_item(item)
        print name_of[item] >> found
    }
    if (shown) print owner >> found
}

END {
    if (names == "") {
        for (k in said) print k >> clauses
        for (j = 1; j <= count; j++) {
            if (!is_public[order[j]]) continue
            n = split(items[order[j]], list, " ")
            for (i = 1; i <= n; i++) list_item(list[i])
        }
        exit
    }
    n = split(names, list, " ")
    for (i = 1; i <= n; i++) asked[list[i]] = 1
    if (crate in asked) print crate >> found
    for (j = 1; j <= count; j++) {
        owner = order[j]
        if (is_public[owner]) print_owner(owner, crate in asked || owner in asked)
    }
}
