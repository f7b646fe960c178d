# The types of receivers, as far as parameters, fields, and the results of calls say them: for
# .ci/uncalled. "" is one that isn't known, and "[]" one that has no functions here.

# The type within references, results and the like; "" where it isn't one name.
function core_type(i, text,    more) {
    for (;;) {
        sub(/^ +/, "", text)
        if (sub(/^&('[a-z_]+ )?(mut )?/, "", text)) continue
        if (sub(/^(Result|Option|Box|Arc)</, "", text)) continue
        if (sub(/^dyn /, "", text)) continue
        break
    }
    if (text !~ /^[A-Z]/) return text ~ /^(u8|u16|u32|u64|usize|i64|bool|\[)/ ? "[]" : ""
    sub(/[^A-Za-z0-9_].*/, "", text)
    if (text == "Self") return owner_of[i]
    more = aliased(i, text)
    if (more != "") return core_type(i, more)
    return text
}

# The type that a function's header says of a parameter.
function parameter_type(i, name,    text, c, k, depth) {
    text = header_of[i]
    if (!match(text, "[( ]" name ": ")) return ""
    text = substr(text, RSTART + RLENGTH)
    depth = 0
    for (k = 1; k <= length(text); k++) {
        c = substr(text, k, 1)
        if (c ~ /[<(\[]/) depth++
        if (c ~ /[>)\]]/ && --depth < 0) break
        if (c == "," && depth == 0) break
    }
    return core_type(i, substr(text, 1, k - 1))
}

function result_type(i,    text) {
    text = header_of[i]
    if (!sub(/^.*\) -> /, "", text)) return "[]"
    return core_type(i, text)
}

# Whether the function stands in this file, or is imported there.
function is_seen(i, found) {
    return file_of[found] == file_of[i] || (file_of[i], name_of[found]) in import_crate
}

# What the functions of this name answer, of a type or, where it is "", of none.
function answer_type(i, type, name,    list, n, k, found, one) {
    n = split(type == "" ? free_named[name] : functions_of[type], list, " ")
    found = ""
    for (k = 1; k <= n; k++) {
        if (name_of[list[k]] != name) continue
        if (type == "" && !is_seen(i, list[k])) continue
        one = result_type(list[k])
        if (found != "" && one != found) return ""
        found = one
    }
    return found
}

# The type of an expression, by its first call and the methods behind it.
function expression_type(i, text, depth,    type, name, path) {
    gsub(/[\n ]+/, " ", text)
    while (sub(/^ *(&(mut )?|\*)/, "", text)) {}
    sub(/^ +/, "", text)
    while (gsub(/::<[A-Za-z_0-9:, &'+]*>/, "", text)) {}
    if (match(text, /^[A-Z][A-Za-z_0-9]*::[a-z_0-9]+\(/)) {
        type = name = substr(text, 1, RLENGTH - 1)
        sub(/::.*/, "", type)
        sub(/^.*::/, "", name)
        type = answer_type(i, core_type(i, type), name)
    } else if (match(text, /^[A-Z][A-Za-z_0-9]* \{/)) {
        return core_type(i, text)
    } else if (match(text, /^[a-z_][a-z_0-9.]*\.[a-z_0-9]+\(/)) {
        path = name = substr(text, 1, RLENGTH - 1)
        sub(/\.[a-z_0-9]+$/, "", path)
        sub(/^.*\./, "", name)
        type = type_of(i, path, depth + 1)
        if (type != "") type = answer_type(i, type, name)
    } else if (match(text, /^[a-z_][a-z_0-9]*\(/)) {
        type = answer_type(i, "", substr(text, 1, RLENGTH - 1))
    } else return ""
    text = after_call(substr(text, RLENGTH))
    gsub(/^(\?|\.(ok|flatten)\(\))+/, "", text)
    return text ~ /^ ?(;|else|$)/ ? type : ""
}

# What stands behind a balanced (..).
function after_call(text,    depth, k, c) {
    for (k = 1; k <= length(text); k++) {
        c = substr(text, k, 1)
        if (c ~ /[(\[{]/) depth++
        if (c ~ /[)\]}]/ && --depth == 0) return substr(text, k + 1)
    }
    return ""
}

# The type of a parameter, a variable, or a field of one.
function type_of(i, path, depth,    name, rest, type, text, lets) {
    if (depth > 4) return ""
    name = path
    rest = ""
    if (match(path, /\./)) {
        name = substr(path, 1, RSTART - 1)
        rest = substr(path, RSTART + 1)
    }
    if (name == "self") type = trait_of[i] != "" && owner_of[i] == "" ? "" : owner_of[i]
    else {
        text = body_of[i]
        lets = "let ((Some|Ok)\\()?(mut )?" name "\\)?(: [^=]*)? ="
        if (match(text, lets)) {
            text = substr(text, RSTART + RLENGTH)
            # Two of one name may differ.
            if (text ~ lets) return ""
            sub(/;.*/, ";", text)
            type = expression_type(i, text, depth)
        } else type = parameter_type(i, name)
    }
    while (rest != "" && type != "") {
        name = rest
        sub(/\..*/, "", name)
        if (!sub(/^[^.]*\./, "", rest)) rest = ""
        type = (type, name) in field ? core_type(i, field[type, name]) : ""
    }
    return type
}
