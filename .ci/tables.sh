# shellcheck shell=bash disable=SC2154
# Checks of ./test of the program that reads a folder of tables. Source this file after program.sh; `fail`, `say`, `has_proved` and
# `table_of_one_row` are those of ./test.

# reads STATUS FOLDER WORDS LINES: a call over the folder ends so, and writes just these lines. Lines are taken with printf's escapes.
reads() {
    local got
    # shellcheck disable=SC2086
    got=$(./slate_tables "$2" $3 2>/dev/null; printf '%s' $?)
    [[ $got == "$(printf '%b' "$4"; printf '%s' "$1")" ]] || fail "./slate_tables doesn't say of a folder what it should: words '$3', lines $got"
}

# leave FOLDER WORDS SCRIPT: a run leaves its tables there. The script is taken with printf's escapes.
leave() {
    # shellcheck disable=SC2086
    printf '%b' "$3" | ./slate "$1" $2 >/dev/null || fail "a run into a folder doesn't end with 0: words '$2', script $3"
}

# put_byte PLACE BYTE: the table of one row with another byte at a place, in three octal digits.
put_byte() {
    table_of_one_row | head -c "$1"
    printf '%b' "\\0$2"
    table_of_one_row | tail -c "+$(($1 + 2))"
}

# part_at PLACE: the part of that table to which a byte belongs, as a line of damage has it.
part_at() {
    if (($1 < 35)); then
        echo "block 0 0"
    elif (($1 < 54)); then
        echo "index - 35"
    elif (($1 < 108)); then
        echo "stats - 54"
    else
        echo "info - -"
    fi
}

# The table that docs/FORMATS.md has whole, as each mode tells it; and with each of its bytes changed.
check_known_table() {
    local folder=$1/known file=$1/known/$first i byte
    mkdir -p "$folder/db/compacted"
    table_of_one_row >"$file"
    reads 0 "$folder" list "table 1 0 1 182 1 0 0 'a 'a\ntables 1 damaged 0 rows 1\n"
    reads 0 "$folder" check "whole 1 0 1 1 1 1 'a 'a\ntables 1 damaged 0 rows 1\n"
    for byte in rows 'rows 1' 'rows 1 0' 'rows format=v1 filter=none' 'rows 1 0 op=max'; do
        reads 0 "$folder" "$byte" "put 1 0 'a '1 1 0 -\ntables 1 damaged 0 rows 1\n"
    done
    reads 0 "$folder" 'rows 2' "tables 0 damaged 0 rows 0\n"
    reads 0 "$folder" 'rows 1 1' "tables 0 damaged 0 rows 0\n"
    # The checksums fit under another transformer, and the statistics have 16843008 blocks: their bytes end in the second.
    reads 16 "$folder" 'check xor=1' "damaged 1 0 stats - 54 CorruptTable 50\ntables 1 damaged 1 rows 0\n"
    # Files that are no tables.
    printf 'note' >"$folder/note"
    printf 'note' >"$folder/db/compacted/00000000000000010000000000000000.SST"
    printf 'note' >"$folder/db/compacted/0000000000000001000000000000000A.sst"
    reads 0 "$folder" list "table 1 0 1 182 1 0 0 'a 'a\nother 'db/compacted/00000000000000010000000000000000.SST\nother 'db/compacted/0000000000000001000000000000000A.sst\nother 'note\ntables 1 damaged 0 rows 1\n"
    rm -f "$folder/note" "$folder"/db/compacted/*.SST "$folder"/db/compacted/*A.sst
    printf 'note' >"$folder/${first%0.sst}f.sst"
    reads 16 "$folder" check "whole 1 0 1 1 1 1 'a 'a\ndamaged 1 15 info - - EmptySSTable 4\ntables 2 damaged 1 rows 1\n"
    rm -f "$folder/${first%0.sst}f.sst"
    # The row's value, 2 in the place of 1: the block's checksum, and the one of the changed bytes. No list reads a block.
    put_byte 26 062 >"$file"
    for byte in check rows; do
        reads 12 "$folder" "$byte" "damaged 1 0 block 0 0 ChecksumMismatch 3827995144 2743789784\ntables 1 damaged 1 rows 0\n"
    done
    reads 0 "$folder" list "table 1 0 1 182 1 0 0 'a 'a\ntables 1 damaged 0 rows 1\n"
    for ((i = 0; i < 182; i++)); do
        printf -v byte '%03o' $((8#$(table_of_one_row | od -An -to1 -j "$i" -N 1 | tr -d ' ') ^ 1))
        put_byte "$i" "$byte" >"$file"
        byte=$(./slate_tables "$folder" check)
        [[ $byte == "damaged 1 0 $(part_at "$i") "*$'\n'"tables 1 damaged 1 rows 0" ]] || fail "a change of byte $i of a table isn't told of its part: $byte"
    done
}

# The rows of a run, as they are stored, from the script's own lines.
check_stored_rows() {
    local folder words n=0
    for words in '' format=v1 format=v3 'xor=7 block=1' 'filter=none table=1'; do
        folder=$1/rows$((n++))
        leave "$folder" "op=concat $words" "now 5\nwrite put 'a '1 t10\nwrite merge 'k 'x\nwrite delete 'gone\nflush\nnow -7\nwrite put 0x00 0x\nflush\n"
        [[ $words != *table=1* ]] || {
            reads 0 "$folder" "rows op=concat $words" "put 1 0 'a '1 1 5 15\ndelete 1 1 'gone - 3 5 -\nmerge 1 2 'k 'x 2 5 -\nput 2 0 0x00 ' 4 -7 -\ntables 4 damaged 0 rows 4\n"
            continue
        }
        reads 0 "$folder" "rows op=concat $words" "put 1 0 'a '1 1 5 15\ndelete 1 0 'gone - 3 5 -\nmerge 1 0 'k 'x 2 5 -\nput 2 0 0x00 ' 4 -7 -\ntables 2 damaged 0 rows 4\n"
        reads 0 "$folder" "rows 2 op=concat $words" "put 2 0 0x00 ' 4 -7 -\ntables 1 damaged 0 rows 1\n"
    done
}

# What each example leaves in a folder is whole, in each version, with filters and without, and with each byte changed by a number.
check_example_folders() {
    local file name words given folder=$1/examples tables n=0
    for file in examples/*.slate; do
        name=${file#examples/}
        given=''
        [[ ! -f examples/${name%.slate}.words ]] || given=$(<"examples/${name%.slate}.words")
        for words in format=v1 'format=v2 min=0' 'format=v3 xor=7'; do
            [[ " $given " != *" ${words%%=*}="* && " $given " != *\ xor=* ]] || words=''
            rm -rf "$folder"
            # shellcheck disable=SC2086
            ./slate "$folder" $given $words <"$file" >/dev/null
            tables=("$folder"/db/compacted/*.sst)
            [[ -e ${tables[0]} ]] || continue
            n=$((n + ${#tables[@]}))
            # shellcheck disable=SC2086
            is_whole "$folder" "$given $words" "${#tables[@]}" || fail "$file leaves tables by '$given $words' of which some aren't whole"
        done
    done
    ((n > 0)) || fail "no example leaves a table"
    say "tables of examples: $n, all whole"
}

# is_whole FOLDER WORDS N: it has so many tables, each whole, and all modes count the same rows.
is_whole() {
    local last
    # shellcheck disable=SC2086
    last=$(./slate_tables "$1" check $2 | tail -n 1) && [[ $last == "tables $3 damaged 0 rows "* ]] || return 1
    # shellcheck disable=SC2086
    [[ $(./slate_tables "$1" list $2 | tail -n 1) == "$last" && $(./slate_tables "$1" rows $2 | tail -n 1) == "$last" ]] || return 1
    # shellcheck disable=SC2086
    (($(./slate_tables "$1" rows $2 | grep -cE '^(put|merge|delete) ') == ${last##* }))
}

# The known table exported: the row as a get answers it, and the lines that load it; nothing of a damaged table. Then the tables of an
# example: the script that is exported of them, in a new store, makes the same state but for sequences and moments.
check_exports() {
    local folder=$1/exported file=$1/exported/$first script
    mkdir -p "$folder/db/compacted"
    table_of_one_row >"$file"
    reads 0 "$folder" 'state format=v1 filter=none' "row 'a '1 1 0 -\n"
    reads 0 "$folder" script "# for a new store\nnow 0\nwrite put 'a '1 t-\n# whole: rows 1 moved 0 seq=1\n"
    put_byte 40 377 >"$file"
    for script in state script; do
        [[ -z $(./slate_tables "$folder" $script) ]] || fail "./slate_tables $script writes rows of a damaged table"
    done
    rm -rf "$folder"
    printf '%b' "write put 'b '1 put 'a '2\nflush\nwrite delete 'b put 'c 0x00ff\nwrite put 'a '3\nflush\n" | ./slate "$folder" >/dev/null
    script=$(./slate_tables "$folder" script && echo flush) || fail "./slate_tables script doesn't end with 0"
    ./slate "$1/loaded" >/dev/null <<<"$script" || fail "an exported script doesn't run"
    check_ranges "$folder"
    [[ $(./slate_tables "$folder" state | cut -d ' ' -f 1-3) == "$(printf '%s\n' "row 'a '3" "row 'c 0x00ff")" ]] || fail "./slate_tables state isn't the state of two flushes"
    [[ $(./slate_tables "$folder" state | cut -d ' ' -f 1-3,6) == "$(./slate_tables "$1/loaded" state | cut -d ' ' -f 1-3,6)" ]] || fail "an exported script makes another state"
}

# check_ranges FOLDER: the rows of the two keys a and c, of which b was deleted, between bounds in both orders, and the row of each.
check_ranges() {
    local a="row 'a '3 3 0 -" c="row 'c 0x00ff 2 0 -"
    set -f
    reads 0 "$1" "state asc * * format=v2" "$a\n$c\n"
    reads 0 "$1" "state desc * *" "$c\n$a\n"
    reads 0 "$1" "state asc e'a *" "$c\n"
    reads 0 "$1" "state desc i'a e'c" "$a\n"
    reads 0 "$1" "state asc i'b i'b" ''
    reads 0 "$1" "get 'a" "$a\n"
    reads 0 "$1" "get 0x63 format=v2" "$c\n"
    reads 0 "$1" "get 'b" 'none\n'
    reads 2 "$1" "state asc i'b e'b" ''
    reads 2 "$1" "state asc i'c i'a" ''
    reads 2 "$1" "state asc i'a" ''
    reads 2 "$1" "state up * *" ''
    reads 2 "$1" "state asc * * n1" ''
    reads 2 "$1" "get a" ''
    reads 2 "$1" get ''
    set +f
}

# tells_of_tables STATUS TEXT WORDS..: with the word `tell` a call of ./slate_tables ends so, and says the text in a line.
tells_of_tables() {
    local got
    got=$(./slate_tables tell "${@:3}" 2>&1 >/dev/null; printf 'status %s' $?)
    [[ $got == *"tables: status $1: $2"$'\n'*"status $1" ]] || fail "./slate_tables tell ${*:3} doesn't say '$2': $got"
}

# What a person is told: which folder failed and why, and which part of which table is damaged.
check_told_tables() {
    local folder=$1/told file=$1/told/$first mode
    tells_of_tables 7 "$1/nowhere couldn't be read: No such file or directory (os error 2)" "$1/nowhere" list
    mkdir -p "$folder/db/compacted"
    put_byte 26 062 >"$file"
    for mode in check state script; do
        tells_of_tables 12 "$file, block 0 at byte 0: ChecksumMismatch 3827995144 2743789784" "$folder" "$mode"
    done
    tells_of_tables 7 "$file is no folder" "$file" check
    tells_of_tables 2 "behind the folder stands a mode: list, check, rows, state, get or script" "$folder" see
    tells_of_tables 2 "'a isn't known: expected a bound, as i'key, e'key or *" "$folder" state asc "'a" '*'
    tells_of_tables 2 "behind get stands a key, as 'text or 0x74657874" "$folder" get
}

# Words that aren't known, and a folder that isn't there.
check_table_words() {
    local words
    for words in '' "$1" "$1 gen" "$1 List" "$1 list 1" "$1 check x" "$1 rows 1 2 3" "$1 rows 01" "$1 list seq=x" "$1 list xor=256"; do
        # shellcheck disable=SC2086
        ./slate_tables $words >/dev/null
        [[ $? -eq 2 ]] || fail "./slate_tables $words doesn't end with status 2"
    done
    [[ $(./slate_tables --help) == *"slate_tables FOLDER list"* ]] || fail "./slate_tables --help prints no text"
    ! ./slate_tables --help | grep -E '.{81}' || fail "./slate_tables --help has lines of more than 80 columns"
    reads 7 "$1/nowhere" list ''
    if [[ -c /dev/full ]]; then
        ./slate_tables "$1" list >/dev/full
        [[ $? -eq 6 ]] || fail "./slate_tables doesn't end with status 6 on a full device"
    fi
}

check_table_folders() {
    local folder
    has_proved "folders of tables" || return
    choose_program tables
    if has_proved "the program that reads tables"; then
        choose_program slate
        folder=$(mktemp -d) || { fail "no folder for tables"; return; }
        check_known_table "$folder"
        check_stored_rows "$folder"
        check_example_folders "$folder"
        check_exports "$folder"
        check_table_words "$folder"
        check_told_tables "$folder"
        rm -rf "$folder"
        say "folders of tables: checked"
    fi
    choose_program slate
}
