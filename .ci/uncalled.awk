# The public calls that nothing reaches: for .ci/uncalled, which hands in `sees`, lines
# 'CRATE CRATE ..' of what a crate stands on, itself among them.
#
# A test is reached, and the `main` of a program, and what the body of a reached function calls:
#     T::f(..)   the functions f of the type T, or of the type that the alias T names
#     x.f(..)    the method f of the type of x, if a parameter, a field or a call says which it is;
#                else the methods f of all types that reached bodies and results name
#     f(..)      the function f of the file, or the one that the file imports
# What std calls by itself, as `drop` and `fmt`, is reached with its type.

function reach(i) {
    if (i in reached) return
    reached[i] = 1
    queue[++queued] = i
}

# A type is named in what is reached.
function enliven(type,    list, n, k) {
    if (type in alive) return
    alive[type] = 1
    n = split(functions_of[type], list, " ")
    for (k = 1; k <= n; k++) try_method(list[k])
}

# A method of a living type is reached if its name was called where it is seen, or if std calls it.
function try_method(i,    list, n, k) {
    if (i in reached || !(owner_of[i] in alive)) return
    if (trait_of[i] != "" && !is_trait[trait_of[i]]) reach(i)
    else if (trait_of[i] != "") {
        if (name_of[i] in called) reach(i)
    } else {
        n = split(callers[name_of[i]], list, " ")
        for (k = 1; k <= n; k++) if (sees_crate(list[k], crate_of[i])) { reach(i); return }
    }
}

# A method of this name of any living type.
function call_method(from, name,    list, n, k) {
    if ((from, name) in called_from) return
    called_from[from, name] = 1
    called[name] = 1
    callers[name] = callers[name] " " from
    n = split(methods_named[name], list, " ")
    for (k = 1; k <= n; k++) {
        if (owner_of[list[k]] == "") reach(list[k])
        else try_method(list[k])
    }
}

# A function of a type, of what an alias names, or of a trait.
function call_of_type(i, type, name,    list, n, k, text, first, hit) {
    text = aliased(i, type)
    if (text != "") {
        first = bare(text)
        if (first != type) { call_of_type(i, first, name); return }
    }
    if (is_trait[type] || type ~ /^[A-Z]$/) { call_method(crate_of[i], name); return }
    n = split(functions_of[type], list, " ")
    for (k = 1; k <= n; k++) {
        if (name_of[list[k]] != name || !sees_crate(crate_of[i], crate_of[list[k]])) continue
        reach(list[k])
        hit = 1
    }
    # A default of a trait.
    if (!hit) call_method(crate_of[i], name)
}

# A method of the receiver's type, if that is known.
function call_of_receiver(i, path, name,    type, list, n, k) {
    type = path == "" ? "" : type_of(i, path, 0)
    if (type == "" || is_trait[type] || type ~ /^[A-Z]$/) {
        call_method(crate_of[i], name)
        return
    }
    if (!(type in is_type)) return
    n = split(functions_of[type], list, " ")
    for (k = 1; k <= n; k++) {
        if (name_of[list[k]] != name) continue
        call_of_type(i, type, name)
        return
    }
    # A default of a trait, or a method of what holds the value.
    n = split(methods_named[name], list, " ")
    for (k = 1; k <= n; k++) if (owner_of[list[k]] == "") reach(list[k])
}

# A function of the file, or else one that the file imports.
function call_function(i, name,    list, n, k, f, at, from, here) {
    n = split(free_named[name], list, " ")
    for (k = 1; k <= n; k++) if (file_of[list[k]] == file_of[i]) here = 1
    at = import_crate[file_of[i], name]
    from = import_module[file_of[i], name]
    for (k = 1; k <= n; k++) {
        f = list[k]
        if (here) {
            if (file_of[f] == file_of[i]) reach(f)
        } else if (at == crate_of[f]) {
            # If its module has no such function, that module passes it on.
            if (from == "" || from == module_of[f] || !((at, from, name) in free_at)) reach(f)
        }
    }
}

# A function of the module, or of the crate, before its name.
function call_of_module(i, path, name,    list, n, k, f, at) {
    n = split(free_named[name], list, " ")
    at = import_crate[file_of[i], path]
    for (k = 1; k <= n; k++) {
        f = list[k]
        if (path == crate_of[f]) reach(f)
        else if (leaf(module_of[f]) != path) continue
        else if (at == "" ? sees_crate(crate_of[i], crate_of[f]) : at == crate_of[f]) reach(f)
    }
}

function leaf(path) { sub(/^.*::/, "", path); return path }

# Reaches what the function calls.
function step(i,    list, n, k, part, name) {
    n = split(names[i], list, " ")
    for (k = 1; k <= n; k++) enliven(list[k])
    n = split(edges[i], list, " ")
    for (k = 1; k <= n; k++) {
        match(list[k], /:[^:]*$/)
        part = substr(list[k], 1, RSTART - 1)
        name = substr(list[k], RSTART + 1)
        if (part ~ /^\./) call_of_receiver(i, substr(part, 2), name)
        else if (part == "") call_function(i, name)
        else if (part ~ /^[a-z_]/) call_of_module(i, part, name)
        else call_of_type(i, part, name)
    }
}

# Whether the module, and each that it stands in, is public in its crate.
function is_open(at, path) {
    while (path != "") {
        if (!((at, path) in opened)) return 0
        if (!sub(/::[a-z_0-9]+$/, "", path)) break
    }
    return 1
}

# Whether a caller of the crate can name the function.
function is_public(i,    type, at) {
    type = owner_of[i]
    if (trait_of[i] != "" && (type == "" || !is_trait[trait_of[i]])) return 0
    if (trait_of[i] == "" && !public[i]) return 0
    if (type == "") at = module_of[i]
    else if ((crate_of[i], type) in type_module) at = type_module[crate_of[i], type]
    else return 0
    return (crate_of[i], type == "" ? name_of[i] : type) in passed_on || is_open(crate_of[i], at)
}

# Whether it does nothing, as a law, a vector, or a list of types that cross threads. Such a
# function may call others of its kind.
function is_empty(i,    text) {
    text = body_of[i]
    gsub(/(crosses|goes)::<[^;]*;/, "", text)
    gsub(/let _[a-z_]* = [a-z_0-9.]+;/, "", text)
    gsub(/[a-z_0-9:]+\(\);?/, "", text)
    gsub(/[ \n]/, "", text)
    return text == ""
}

# Its crate and its type, or its crate and its module, and its name.
function full_name(i,    at) {
    at = owner_of[i] != "" ? owner_of[i] : module_of[i]
    return crate_of[i] "::" (at == "" ? "" : at "::") name_of[i]
}

END {
    n = split(sees, rows, "\n")
    for (k = 1; k <= n; k++) {
        m = split(rows[k], row, " ")
        for (j = 1; j <= m; j++) can_see[row[1], row[j]] = 1
    }
    for (i = 1; i <= count; i++) {
        if (i in is_declared) continue
        read_body(i)
        text = header_of[i]
        if (sub(/^.*\) -> /, "", text)) name_types(i, text)
        if (owner_of[i] != "") functions_of[owner_of[i]] = functions_of[owner_of[i]] " " i
        name = name_of[i]
        if (owner_of[i] trait_of[i] != "") methods_named[name] = methods_named[name] " " i
        else {
            free_named[name] = free_named[name] " " i
            free_at[crate_of[i], module_of[i], name] = 1
        }
    }
    for (i = 1; i <= count; i++)
        if (test[i] || (name_of[i] == "main" && file_of[i] ~ /main\.rt$/)) reach(i)
    for (at = 1; at <= queued; at++) step(queue[at])
    for (i = 1; i <= count; i++) {
        if (i in reached || i in is_declared || is_empty(i) || crate_of[i] ~ /_tests$/) continue
        if (is_public(i)) print full_name(i)
    }
}
