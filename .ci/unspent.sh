# shellcheck shell=bash
# A transaction that is dropped unspent is refused by the front end, before any proof: a check of ./test. Source this file in ./test.

# apply_edit EDIT FOLDER: makes the edit's change in a copy of its crate. Fails where the old text doesn't stand there once.
apply_edit() {
    local file old new text
    file=$(sed -n 's/^file: //p' "$1")
    old=$(sed -n 's/^old: //p' "$1")
    new=$(sed -n 's/^new: \{0,1\}//p' "$1")
    text=$(<"$2/$file") || return
    [[ $text == *"$old"* && ${text#*"$old"} != *"$old"* ]] || return
    printf '%s\n' "${text%%"$old"*}$new${text#*"$old"}" >"$2/$file"
}

# Sets `libraries` to the words that name what the crate stands on, as the gate left it.
name_libraries() {
    local word kit=$2
    libraries=(--extern "std=$kit/rlibs/std.rlib" -L "dependency=$kit/rlibs")
    for word in ${needs[$1]}; do
        if [[ -v needs[$word] ]]; then
            libraries+=(--extern "$word=$top/crates/$word/out/rlib/$word.rlib")
        else
            libraries+=(--extern "$word=$kit/rlibs/$word.rlib")
        fi
    done
    for word in "${crates[@]}"; do
        [[ ! -d crates/$word/out/rlib ]] || libraries+=(-L "dependency=$top/crates/$word/out/rlib")
    done
}

# Each edit of slatedb that names a rule of the front end is refused by that rule.
check_unspent() {
    local edit rule copy kit said tried=0 libraries=()
    if ((gate != 0)); then
        say "transactions that are dropped unspent: skipped, since the gate left no libraries"
        return
    fi
    kit=$(dirname "$(rt doc)")
    read_crates
    name_libraries slatedb "$kit"
    for edit in crates/slatedb/edits/*.edit; do
        rule=$(sed -n 's/^by: //p' "$edit")
        [[ -n $rule ]] || continue
        copy=$(mktemp -d) || { fail "no folder for a copy"; return; }
        cp -r crates/slatedb/{src,specs,proofs} "$copy"
        if ! apply_edit "$edit" "$copy"; then
            fail "$edit can't be made"
        else
            said=$(cd "$copy" && "$kit/bin/rattle" check --crate-name slatedb src/lib.rt "${libraries[@]}" \
                --antt-project "$kit/rattle/logic/antt-project.json" --logic-built "$kit/logic_built" \
                --links slatedb= --only '' 2>&1)
            [[ $said == *"error[$rule]"* ]] || fail "$edit isn't refused by the rule $rule"
            tried=$((tried + 1))
        fi
        rm -rf "$copy"
    done
    if ((tried == 2)); then
        say "transactions that are dropped unspent: refused by the front end"
    else
        fail "$tried edits of slatedb name a rule of the front end, not 2"
    fi
}
