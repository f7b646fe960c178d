# shellcheck shell=bash disable=SC2154
# A check of ./test: what a user meets who calls the programs for the first time. Source this file behind program.sh, with `say`, `fail`,
# `has_proved` and `choose_program` set.

# The files that start programs, each with its program's crate.
starters=(slate:slate slate_stock:stock slate_index:index slate_queue:queue)

# ends_with STATUS WORDS..: the program of `starter`, called in the folder `room` with nothing to read, ends so, and writes nothing.
ends_with() {
    local got
    got=$(cd "$room" && "$top/$starter" "${@:2}" </dev/null; printf '%s' "$?")
    [[ $got == "$1" ]] || fail "./$starter ${*:2} doesn't end with status $1 alone: ${got:0:80}"
}

# No first word that can't be meant as a folder makes one.
check_first_words() {
    local word made
    printf "write put 'a '1\n" >"$room/script"
    for word in --verison -x --help=x op=concat a=b/c help script ''; do
        ends_with 2 "$word"
    done
    ends_with 2 unmade blck=3
    ends_with 2 unmade more words
    made=$(cd "$room" && printf '%s ' *)
    [[ $made == 'script ' ]] || fail "./$starter makes folders of words that aren't known: $made"
    for word in ./--verison ./op=concat ./help "$room/a=b"; do
        ends_with 0 "$word"
    done
    ends_with 7 script/below
    ends_with 7 /proc/slate
    rm -rf "${room:?}"/*
}

# While a run lives its folder is refused to others, and after its end, by a kill too, it is free.
check_one_run() {
    local first words=() line
    mkfifo "$room/lines"
    [[ $starter != slate ]] || words=(format=v1)
    "$top/$starter" "$room/store" "${words[@]}" <"$room/lines" >"$room/replies" &
    first=$!
    exec 7>"$room/lines"
    for ((line = 0; line < 100; line++)); do
        [[ ! -d $room/store/db/compacted ]] || break
        sleep 0.05
    done
    sleep 0.2
    ends_with 2 store
    ends_with 2 store/.
    got=$(cd "$room" && "$top/$starter" tell store </dev/null 2>&1)
    [[ $got == *"the folder store is in use by another run"* ]] || fail "./$starter doesn't say that a folder is in use: $got"
    kill -9 "$first"
    wait "$first" 2>/dev/null
    exec 7>&-
    ends_with 0 store
    rm -rf "${room:?}"/*
}

# A page of help, and a version.
check_pages() {
    local page
    page=$("$top/$starter" --help </dev/null) || fail "./$starter --help doesn't end with status 0"
    [[ $page == *"Usage: $starter"* ]] || fail "./$starter --help has no usage"
    ! grep -qE '.{81}' <<<"$page" || fail "./$starter --help has lines of more than 80 columns"
    [[ $("$top/$starter" -h </dev/null) == "$page" ]] || fail "./$starter -h prints another page than --help"
    [[ $("$top/$starter" --version </dev/null) == "$starter "[0-9]* ]] || fail "./$starter --version says no version"
}

# says STATUS TEXT LINES WORDS..: with the word `tell` the program ends so on these lines, and the text stands on standard error; without
# it nothing does. Lines and text are taken with printf's escapes.
says() {
    local got status
    got=$(cd "$room" && printf '%b' "$3" | "$top/$starter" tell "${@:4}" 2>&1 >/dev/null)
    status=$?
    [[ $status == "$1" && $got == *"$2"* ]] || fail "./$starter tell ${*:4} doesn't say '$2' at status $1: $status, $got"
    got=$(cd "$room" && printf '%b' "$3" | "$top/$starter" "${@:4}" 2>&1 >/dev/null)
    [[ -z $got ]] || fail "./$starter ${*:4} writes to standard error: $got"
}

# What is wrong is said by each program in the same way: which word, which line and which token.
check_causes() {
    local known wrong expected got
    case $starter in
    slate) known="begin t si" wrong="begin u sy" expected='at sy: expected si or ssi' ;;
    slate_stock) known="issue money bank 5" wrong="pay money bank Ann 1" expected='at Ann: expected a name' ;;
    slate_index) known="put ann 'york" wrong="find 2 'york" expected='at 2: expected the number of an index' ;;
    slate_queue) known="add 'letter" wrong="claim 10" expected='expected a number below 2^64' ;;
    esac
    says 3 "line 3 is no line of the language: $wrong" "$known\n\n$wrong\n" -
    says 3 "$expected" "$known\n\n$wrong\n" -
    says 3 "one space between two tokens" "$known \n" -
    says 3 "not with CR LF" "$known\r\n" -
    says 2 "--verison isn't known; a folder of that name is ./--verison" '' --verison
    says 2 "help isn't known, --help is; a folder of that name is ./help" '' help
    says 2 "op=concat stands before - or the name of a folder" '' op=concat
    says 2 "blck=3 isn't known behind the first word" '' - blck=3
    says 2 "more isn't known behind the first word" '' - blck=3 more
    printf 'text' >"$room/notes"
    says 2 "notes is a file and no folder" '' notes
    says 7 "notes is no folder" '' notes/below
    got=$(cd "$room" && "$top/$starter" tell notes/below </dev/null 2>&1)
    [[ $got == "$program_name: status 7: notes/below couldn't be looked at: Not a directory (os error 20)"$'\n'* ]] || fail "./$starter doesn't say why a folder can't be made: $got"
    says 7 "/proc: " '' /proc/slate
    rm -f "$room/notes"
}

# begin_told WORDS..: a run over the folder `store` that tells what its status means, of lines that are written to 7. `told` is its process.
begin_told() {
    mkfifo "$room/lines"
    (cd "$room" && exec "$top/$starter" tell store format=v1 filter=none "$@" <lines >replies 2>told) &
    told=$!
    exec 7>"$room/lines"
}

# has_replied TEXT: the run has written this, within some seconds.
has_replied() {
    local turn
    for ((turn = 0; turn < 200; turn++)); do
        [[ $(<"$room/replies") != "$1" ]] || return 0
        sleep 0.05
    done 2>/dev/null
    fail "a run that is to fail doesn't begin: $(<"$room/replies"), $(<"$room/told")"
}

# ended_told STATUS TEXT..: the run ends so, and each of the texts stands in a line on standard error.
ended_told() {
    local status text
    exec 7>&-
    wait "$told"
    status=$?
    ((status == $1)) || fail "a run that is to end with status $1 ends with $status: $(<"$room/told")"
    for text in "${@:2}"; do
        grep -qxF "$program_name: status $1: $text" "$room/told" || fail "a run that ends with status $1 doesn't say '$text': $(<"$room/told")"
    done
    rm -rf "${room:?}"/*
}

# What ends a run over a folder is told with its path: the error of the system at 7, the part of the table at 12 and 16.
check_failures() {
    local table=store/db/compacted/${first##*/} told text
    begin_told
    printf "write put 'a '1\n" >&7
    has_replied 'written 1'
    mv "$room/store/db" "$room/store/was"
    printf 'text' >"$room/store/db"
    echo flush >&7
    ended_told 7 "$table couldn't be written: Not a directory (os error 20)" "store/db is no folder"
    # What failed is told also where it doesn't fail any more.
    begin_told
    printf "write put 'a '1\n" >&7
    has_replied 'written 1'
    mkdir "$room/$table"
    echo flush >&7
    ended_told 7 "$table couldn't be written: Is a directory (os error 21)"
    for text in 12 16; do
        begin_told
        printf "write put 'a '1\nflush\n" >&7
        has_replied $'written 1\nflushed 1'
        case $text in
        12) printf 2 | dd of="$room/$table" bs=1 seek=26 conv=notrunc status=none ;;
        16) rm "$room/$table" ;;
        esac
        printf "begin t si\nget t 'a\n" >&7
        case $text in
        12) ended_told 12 "a table in the folder store is damaged: a checksum isn't that of its section" \
            "$table, block 0 at byte 0: ChecksumMismatch 3827995144 2743789784" ;;
        16) ended_told 16 "$table isn't there, or has no 19 bytes from 35 on" "each table that is in the folder store now is whole" ;;
        esac
    done
    # A line that is typed, or behind what another program read.
    printf 'notes\nbegin t si\nget t\n' >"$room/script"
    text=$(cd "$room" && { read -r _ && "$top/$starter" tell - 2>&1 >/dev/null; } <script)
    [[ $text == *"line 2 is no line of the language: get t"*"expected a key"* ]] || fail "./$starter doesn't tell a wrong line behind a file's front: $text"
    if command -v script >/dev/null; then
        text=$(cd "$room" && sleep 1 | cat - script | sed 1d | script -qec "$top/$starter tell -" /dev/null | tr -d '\r')
        [[ $text == *"line 2 is no line of the language: get t"* ]] || fail "./$starter doesn't tell a wrong line that is typed: $text"
    fi
    rm -rf "${room:?}"/*
}

# A call of a program that is there starts one process before it, which looks at the times of files: it asks the toolchain nothing, and
# computes no sum.
check_calls() {
    local name real
    mkdir "$room/bin" || return
    for name in rt find sha256sum awk cat dirname grep mkdir mktemp mv readlink rm sed tee tr; do
        real=$(type -P "$name")
        printf '#!/bin/sh\necho %s >>"%s/asked"\nexec "%s" "$@"\n' "$name" "$room" "$real" >"$room/bin/$name"
    done
    chmod +x "$room"/bin/*
    (PATH=$room/bin:$PATH && "$top/$starter" --version </dev/null) >/dev/null
    : >"$room/asked"
    (PATH=$room/bin:$PATH && "$top/$starter" --version </dev/null) >/dev/null
    [[ $(<"$room/asked") == find ]] || fail "./$starter starts other processes than one find: $(tr '\n' ' ' <"$room/asked")"
    rm -rf "${room:?}"/*
}

# A line of a crate that a program doesn't stand on changes no sum, and one of its own does.
check_sum() {
    local sum name
    mkdir "$room/other" && ln -s "$top/crates" "$top/HANDLES" "$room/other/" || return
    sum=$(source_sum)
    printf 'mine: slatedb\n' | cat crates.txt - >"$room/other/crates.txt"
    [[ $(top=$room/other && source_sum) == "$sum" ]] || fail "a line in crates.txt of another crate makes $program_name count as unproved"
    for name in "$program_name" slate_types; do
        sed "s/^$name:.*/& memchr/" crates.txt >"$room/other/crates.txt"
        [[ $(top=$room/other && source_sum) != "$sum" ]] || fail "the line of $name in crates.txt enters no sum of $program_name"
    done
    rm -rf "${room:?}"/*
}

# What was built unproved is kept: a call starts it, and builds nothing. It is tried on a copy without a proved program, where a script
# stands for the program.
check_kept() {
    local crate copy=$room/copy
    mkdir -p "$room/bin" "$copy/crates/slate/out" || return
    cp -r slate .ci crates.txt HANDLES "$copy" || return
    for crate in $(crates_of_program); do
        mkdir -p "$copy/crates/$crate" && cp -r "crates/$crate/src" "$copy/crates/$crate" || return
    done
    printf '#!/bin/sh\necho "$1" >>"%s/asked"\n[ "$1" = version ] && echo kit\n' "$room" >"$room/bin/rt"
    printf '#!/bin/sh\ncat\n' >"$copy/crates/slate/out/unproved"
    chmod +x "$room/bin/rt" "$copy/crates/slate/out/unproved"
    (
        PATH=$room/bin:$PATH top=$copy
        choose_program slate && choose_unproved && stamp "$(source_sum)"
    )
    : >"$room/asked"
    (PATH=$room/bin:$PATH && echo one | "$copy/slate" - 2>/dev/null) >"$room/got"
    (PATH=$room/bin:$PATH && echo two | "$copy/slate" - 2>/dev/null) >>"$room/got"
    [[ $(<"$room/got") == $'one\ntwo' ]] || fail "an unproved program that was built isn't used: $(<"$room/got")"
    [[ $(<"$room/asked") == version ]] || fail "a call of an unproved program that is there asks rt: $(tr '\n' ' ' <"$room/asked")"
    touch "$copy/crates/slate_types/src/lib.rt"
    (PATH=$room/bin:$PATH && echo three | "$copy/slate" - 2>/dev/null) >>"$room/got"
    printf '\n' >>"$copy/crates/slate_types/src/lib.rt"
    (PATH=$room/bin:$PATH && echo four | "$copy/slate" - 2>/dev/null) >>"$room/got"
    [[ $(<"$room/got") == $'one\ntwo\nthree' ]] || fail "an unproved program of other source is used, or one of the same isn't: $(<"$room/got")"
    rm -rf "${room:?}"/*
}

# A session of a shell with wrong lines gives the replies that are stored beside it, byte for byte, and goes on to its end.
check_shell() {
    local got
    choose_program shell
    if has_proved "a shell's session"; then
        got=$(./slate shell <examples/typed.shell | sha256sum; printf '%s' "${PIPESTATUS[0]}")
        [[ ${got%$'\n'*} == "$(sha256sum <examples/typed.replies)" ]] || fail "examples/typed.shell doesn't give examples/typed.replies"
        [[ ${got##*$'\n'} == 0 ]] || fail "examples/typed.shell ends with status ${got##*$'\n'}"
        starter=slate
        for got in op=concat help '- blck=3' '- --help' '--version x'; do
            # shellcheck disable=SC2086
            ends_with 2 shell $got
        done
        ends_with 0 shell - op=concat
        say "a shell's session: checked"
    fi
    choose_program slate
}

check_first_hour() {
    local room starter got
    room=$(mktemp -d) || { fail "no folder for runs"; return; }
    for got in "${starters[@]}"; do
        starter=${got%:*}
        choose_program "${got#*:}"
        has_proved "first calls of $starter" || continue
        check_first_words
        check_one_run
        check_pages
        check_causes
        [[ $starter != slate ]] || check_failures
        check_calls
        check_sum
        say "first calls of $starter: checked"
    done
    check_shell
    choose_program slate
    check_kept
    say "a program that is kept unproved: checked"
    rm -rf "$room"
}
