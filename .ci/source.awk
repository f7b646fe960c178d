# Reads the functions of source files, with what their bodies call and name, the types with their
# fields, and what files import: for .ci/uncalled. The root of a crate comes before its other files.

# Takes texts and comments out of a line. `in_text` says whether the line begins within a text.
function code_of(line,    out, c, i, n) {
    if (!in_text && line !~ /["']|\/\//) return line
    out = ""
    n = length(line)
    for (i = 1; i <= n; i++) {
        c = substr(line, i, 1)
        if (in_text) {
            if (c == "\\") i++
            else if (c == "\"") in_text = 0
        } else if (c == "\"") in_text = 1
        else if (c == "/" && substr(line, i + 1, 1) == "/") break
        else if (c == "'" && match(substr(line, i), /^'(\\[^']+|[^\\'])'/)) {
            i += RLENGTH - 1
        } else out = out c
    }
    return out
}

# The name of a type without what it is generic over.
function bare(text) {
    sub(/^ *(&('[a-z_]+ )?(mut )?)?(dyn )?/, "", text)
    sub(/<.*/, "", text)
    sub(/^.*::/, "", text)
    gsub(/[^A-Za-z0-9_]/, "", text)
    return text
}

# Takes a balanced <..> off the front.
function without_generics(text,    depth, i, c) {
    if (substr(text, 1, 1) != "<") return text
    for (i = 1; i <= length(text); i++) {
        c = substr(text, i, 1)
        if (c == "<") depth++
        if (c == ">" && substr(text, i - 1, 1) != "-") depth--
        if (depth == 0) return substr(text, i + 1)
    }
    return ""
}

# Goes on to the end of a statement.
function whole(line, end,    more) {
    while (line !~ end && (getline more) > 0) line = line " " code_of(more)
    return line
}

# Notes the imports of a line `use PATH::{NAME, ..};`: from which crate and module each name comes.
function read_use(text,    path, items, n, i, name, at) {
    sub(/^(pub(\([a-z]+\))? )?use /, "", text)
    sub(/;.*/, "", text)
    path = text
    if (path ~ /\{/) sub(/::\{.*/, "", path)
    else sub(/::[A-Za-z_0-9]+( as .*)?$/, "", path)
    sub(/^[a-z_0-9:]*::/, "", text)
    gsub(/[{}]/, "", text)
    sub(/^crate/, crate, path)
    at = path
    sub(/::.*/, "", at)
    sub(/^[^:]*(::)?/, "", path)
    n = split(text, items, ",")
    for (i = 1; i <= n; i++) {
        name = items[i]
        gsub(/^ +| +$/, "", name)
        sub(/^.*::/, "", name)
        if (name ~ / as /) continue
        if (name == "") continue
        import_crate[FILENAME, name] = at
        import_module[FILENAME, name] = path
        if (is_root) passed_on[crate, name] = 1
    }
}

# Reads the function whose header begins with this line, to the end of its body.
function read_function(line,    indent, text, header, in_clauses, body, i) {
    match(line, /^ */)
    indent = substr(line, 1, RLENGTH)
    i = ++count
    match(line, /fn [a-z_0-9A-Z]+/)
    name_of[i] = substr(line, RSTART + 3, RLENGTH - 3)
    crate_of[i] = crate
    module_of[i] = module
    file_of[i] = FILENAME
    owner_of[i] = owner
    trait_of[i] = trait
    test[i] = is_test
    public[i] = line ~ /^ *pub (final |const |unsafe )*fn /
    header = ""
    in_clauses = 0
    text = substr(line, length(indent) + 1)
    for (;;) {
        if (text ~ /^    (requires|ensures)\*? /) in_clauses = 1
        if (text == "{" || text == "{}") break
        if (!in_clauses) {
            header = header " " text
            if (text ~ /\{\}?$/) break
        }
        if (text ~ /;$/ && (!in_clauses || text ~ /\};$/)) {
            header_of[i] = header
            is_declared[i] = 1
            return
        }
        if ((getline line) <= 0) break
        line = code_of(line)
        text = substr(line, length(indent) + 1)
    }
    header_of[i] = header
    body = ""
    if (text !~ /\{\}$/) {
        while ((getline line) > 0) {
            line = code_of(line)
            if (line == indent "}") break
            body = body line "\n"
        }
    }
    body_of[i] = body
}

FNR == 1 {
    crate = module = FILENAME
    sub(/^crates\//, "", crate)
    sub(/\/.*/, "", crate)
    sub(/^.*\/src\//, "", module)
    sub(/\.rt$/, "", module)
    gsub(/\//, "::", module)
    is_root = module == "lib" || module == "main"
    if (is_root) module = ""
    owner = trait = struct = ""
    is_test = in_text = 0
}

{ line = code_of($0) }

line ~ /^ *ghost use / { next }

line ~ /^ *#\[test\]/ { is_test = 1; next }

line ~ /^ *(#\[.*)?$/ { next }

line ~ /^(pub )?mod [a-z_0-9]+;/ {
    name = line
    sub(/^(pub )?mod /, "", name)
    sub(/;.*/, "", name)
    if (line ~ /^pub /) opened[crate, module == "" ? name : module "::" name] = 1
}

line ~ /^(pub(\([a-z]+\))? )?use / { read_use(whole(line, ";")); next }

line ~ /^(pub(\([a-z]+\))? )?type / {
    text = whole(line, ";")
    name = text
    sub(/^(pub(\([a-z]+\))? )?type /, "", name)
    sub(/ =.*/, "", name)
    name = bare(name)
    sub(/^[^=]*=/, "", text)
    alias[crate, name] = alias[crate, name] " " text
    next
}

line ~ /^(pub(\([a-z]+\))? )?trait / {
    text = whole(line, "[{][}]?$")
    sub(/^(pub(\([a-z]+\))? )?trait /, "", text)
    sub(/[:<{].*/, "", text)
    owner = ""
    trait = bare(text)
    is_trait[trait] = 1
    next
}

line ~ /^impl/ {
    text = whole(line, "[{][}]?$")
    trait = owner = ""
    if (text ~ /\{\}$/) next
    sub(/^impl/, "", text)
    text = without_generics(text)
    if (match(text, / for /)) {
        trait = bare(substr(text, 1, RSTART - 1))
        owner = bare(substr(text, RSTART + 5))
    } else owner = bare(text)
    next
}

line ~ /^\}/ { owner = trait = struct = ""; next }

line ~ /^(    )?(pub(\([a-z]+\))? )?(final |const |unsafe )*fn / {
    read_function(line)
    is_test = 0
}

line ~ /^(pub(\([a-z]+\))? )?(struct|enum) / {
    name = line
    sub(/^(pub(\([a-z]+\))? )?(struct|enum) /, "", name)
    sub(/[^A-Za-z0-9_].*/, "", name)
    is_type[name] = 1
    if (line ~ /^pub /) type_module[crate, name] = module
    if (line ~ /\{$/) struct = name
}

struct != "" && line ~ /^    (pub(\([a-z]+\))? )?[a-z_0-9]+: / {
    text = line
    sub(/^ *(pub(\([a-z]+\))? )?/, "", text)
    name = text
    sub(/:.*/, "", name)
    sub(/^[^:]*: /, "", text)
    field[struct, name] = text
}

# Notes that the body of the function calls this name: a function of a type or a module, a method of
# ".PATH", the receiver, or of "." where that isn't a path, or, where `type` is "", a function.
function note_call(i, type, name) { edges[i] = edges[i] " " type ":" name }

# What the alias stands for that the function's file sees; "" where it is none.
function aliased(i, type,    text) {
    text = alias[crate_of[i], type]
    if (text != "" || !((file_of[i], type) in import_crate)) return text
    return alias[import_crate[file_of[i], type], type]
}

# What a body calls and names.
function read_body(i,    text, rest, before, word, next_part, type) {
    text = " " body_of[i]
    gsub(/\n/, " ", text)
    name_types(i, text)
    # Types that calls give in brackets.
    while (gsub(/(::)?<[A-Za-z_0-9:, &'+]*>/, "", text)) {}
    rest = text
    before = ""
    while (match(rest, /[A-Za-z_][A-Za-z_0-9]*/)) {
        word = substr(rest, RSTART, RLENGTH)
        before = before substr(rest, 1, RSTART - 1)
        rest = substr(rest, RSTART + RLENGTH)
        if (word ~ /^[a-z_]/) {
            next_part = substr(rest, 1, 1)
            if (before ~ /\.$/ && before !~ /\.\.$/) {
                if (next_part == "(") note_call(i, "." receiver(before), word)
            } else if (before ~ /::$/) {
                type = before
                sub(/::$/, "", type)
                if (match(type, /[A-Za-z_0-9]+$/)) {
                    type = substr(type, RSTART)
                    if (type == "Self") type = owner_of[i]
                    note_call(i, type, word)
                } else note_call(i, ".", word)
            } else if (next_part == "(" || is_handed(i, before, word, rest)) note_call(i, "", word)
        }
        before = substr(before word, length(before word) - 60)
    }
}

# The path before a method's name; "" where it is no path, as behind another call.
function receiver(before) {
    if (!match(before, /[a-z_][a-z_0-9.]*\.$/)) return ""
    if (substr(before, 1, RSTART - 1) ~ /[)?\].]$/) return ""
    return substr(before, RSTART, RLENGTH - 1)
}

# Whether a name is handed over that is a function's and no parameter's or variable's.
function is_handed(i, before, word, rest) {
    if (before !~ /[(,] ?$/ || rest !~ /^[,)]/) return 0
    if ((header_of[i] " " body_of[i]) ~ ("(^|[^A-Za-z_0-9])" word ":")) return 0
    if (body_of[i] ~ ("let (mut )?" word "[^A-Za-z_0-9]")) return 0
    return body_of[i] !~ ("[|(,] *(mut )?" word "[|,]")
}

# Notes the types that a text names, and those that aliases among them name.
function name_types(i, text,    word, more) {
    while (match(text, /[A-Z][A-Za-z_0-9]*/)) {
        word = substr(text, RSTART, RLENGTH)
        text = substr(text, RSTART + RLENGTH)
        if (word == "Self") word = owner_of[i]
        if ((i, word) in named_in) continue
        named_in[i, word] = 1
        names[i] = names[i] " " word
        more = aliased(i, word)
        if (more != "") name_types(i, more)
    }
}

function sees_crate(from, to) { return (from, to) in can_see }
