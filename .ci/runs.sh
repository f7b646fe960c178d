# shellcheck shell=bash disable=SC2154
# Functions of ./slate and the other programs: how their program is run where a person is told what its status means. Source this file behind
# program.sh, with `call` set, and `editor`, the words that start a line editor. The program says its status, and with a name in SLATE_TELL,
# behind that name, which path failed and why, or which table was read last. The rest of what is told is found out by looking again.
. "$top/.ci/lines.sh"

# The words of a run behind the first one, an expression.
settings() {
    local text
    text="block=$(below 65535)|table=$(below 18446744073709551615)|ttl=$(below 18446744073709551615)|seq=$(below 18446744073709551614)"
    text+="|xor=$(below 255)|min=$(below 4294967295)|format=(v1|v2|v3|latest)|op=(none|concat|max)"
    text+="|seg=(none|fixed$(below 65535)|colon|lastcolon)|filter=(none|_bf|_bf:p=colon|_bf:p=colon:wh=0|_bf:p=fixed4:wh=0)"
    printf '%s' "$text"
}

# why_first WORD: why the first word asks for nothing, where that is so.
why_first() {
    local named=${1%%[=/]*}
    case $1 in
    --help | -h | --version | -) return 1 ;;
    '') echo "an empty word names no folder" ;;
    help) echo "help isn't known, --help is; a folder of that name is ./help" ;;
    shell | tell) echo "$1 is a word of ./slate alone, and stands first; a folder of that name is ./$1" ;;
    -*) echo "$1 isn't known; a folder of that name is ./$1" ;;
    *)
        if [[ ${1:${#named}:1} == = ]]; then
            echo "$1 stands before - or the name of a folder, and belongs behind it; a folder of that name is ./$1"
        elif [[ -e $1 && ! -d $1 ]]; then
            echo "$1 is a file and no folder; a script comes on standard input, as by ./$call - < $1"
        else
            return 1
        fi
        ;;
    esac
}

# why_word WORDS..: which words behind the first aren't known, each in a line, where there are such.
why_word() {
    local word name setting='' filters='' found=1
    local -A seen=()
    if [[ $program_name == slate && ${1-} == gen ]]; then
        if [[ ! ${2-} =~ ^$(below 100000)$ || ! ${3-} =~ ^$(below 18446744073709551615)$ ]]; then
            echo "gen wants a number of rounds up to 100000 and a number below 2^64 behind it"
            return
        fi
        shift 3
    fi
    [[ $program_name != slate && $program_name != tables && $program_name != shell ]] || setting=$(settings)
    for word; do
        name=${word%%=*}
        [[ $name != filter ]] || filters+=" ${word#*=} "
        if [[ ! $word =~ ^($setting)$ || $word =~ ^(block=|table=|seg=fixed)0$ ]]; then
            echo "$word isn't known behind the first word; --help has the words and their values"
        elif [[ -n ${seen[$name]-} && $name != filter || -n ${seen[$word]-} ]]; then
            echo "$word comes behind another word $name="
        elif [[ $name == filter && ($filters == *' none '?* || $filters == ?*' none ') ]]; then
            echo "$word stands beside another word filter="
        else
            seen[$name]=1 seen[$word]=1
            continue
        fi
        found=0
    done
    return "$found"
}

# why_not WORDS..: why nothing was run.
why_not() {
    if (($# == 0)); then
        echo "no word says where the store is to be: - is memory, and another word a folder; --help has the words"
    elif why_first "$1" || why_word "${@:2}"; then
        return
    elif [[ $1 == -?* ]]; then
        echo "$1 takes no word behind it"
    elif compgen -G "${1%/}/db/compacted/*.sst" >/dev/null; then
        echo "the folder $1 has tables, and nothing was run: a store begins empty"
    elif [[ -d $1 ]] && command -v flock >/dev/null && ! flock -n "$1" true; then
        echo "the folder $1 is in use by another run; it is free when that ends"
    else
        echo "nothing was run; --help has the words"
    fi
}

# why_failed FOLDER: what can't be read or written there, and the system's reason.
why_failed() {
    local at=${1%/}/db/compacted said
    while [[ ! -e $at && $at == */* ]]; do
        at=${at%/*}
    done
    [[ -e $at ]] || at=.
    if [[ ! -d $at ]]; then
        echo "$at is no folder"
    elif ! said=$({ echo trial >"$at/told.tmp"; } 2>&1); then
        echo "$at: ${said##*: }"
    elif ! said=$(ls "$1" 2>&1 >/dev/null); then
        echo "$1: ${said##*: }"
    else
        echo "the folder $1 couldn't be read or written, and can be now, with $(df -k --output=avail "$at" | tail -n 1 | tr -d ' ') KiB free"
    fi
    rm -f "$at/told.tmp" 2>/dev/null
}

# damage STATUS: which error ends a run with it.
damage() {
    case $1 in
    12) echo "a checksum isn't that of its section" ;;
    14) echo "a row has flags that aren't known" ;;
    15) echo "the filters can't be read" ;;
    16) echo "a table is missing, short or not as it was put" ;;
    18) echo "an operand has a lesser sequence than another row of its key" ;;
    19) echo "an operand stands where there is no operator" ;;
    esac
}

# show_damage FLUSH PLACE PART BLOCK OFFSET ERROR..: of a line of damage which table it is, which part of it, and what is wrong there.
show_damage() {
    local part=$3
    [[ $4 == - ]] || part+=" $4"
    [[ $5 == - ]] || part+=" at byte $5"
    printf '%s/db/compacted/%016x%016x.sst, %s: %s\n' "$folder" "$1" "$2" "$part" "${*:6}"
}

# check_tables WORDS..: what ./slate_tables finds, which tells a person nothing of its own here.
check_tables() {
    if [[ $program_name == tables ]]; then
        "$program" "$@"
    else
        "$top/slate_tables" "$@" 2> >(cat >&2)
    fi
}

# where_damaged FOLDER WORDS..: the first damaged table of the folder, as `./slate_tables FOLDER check` finds it by those of the words that
# set something.
where_damaged() {
    local folder=${1%/} word words=() line
    for word in "${@:2}"; do
        [[ ! $word =~ ^[a-z]+= ]] || words+=("$word")
    done
    while read -ra line; do
        [[ ${line[0]} == damaged ]] || continue
        show_damage "${line[@]:1}"
        return
    done < <(check_tables "$1" check "${words[@]}")
    echo "each table that is in the folder $1 now is whole"
}

# why_not_read WORDS..: why no table was looked at.
why_not_read() {
    local word words=()
    if (($# == 0)); then
        echo "no word says in which folder the tables are; --help has the words"
    elif why_first "$1"; then
        return
    elif [[ $1 == -?* ]]; then
        echo "$1 takes no word behind it"
    elif [[ $1 == - ]]; then
        echo "a store in memory leaves no tables; the first word is a folder"
    elif [[ ! ${2-} =~ ^(list|check|rows|state|get|script)$ ]]; then
        echo "behind the folder stands a mode: list, check, rows, state, get or script"
    else
        for word in "${@:3}"; do
            [[ $word == filter=* ]] || words+=("$word")
        done
        read_kinds
        case $2 in
        rows)
            for word in 1 2; do
                ! fits "${words-}" number || words=("${words[@]:1}")
            done
            ;;
        get)
            if ! fits "${words-}" key; then
                echo "behind get stands ${token_name[key]}"
                return
            fi
            words=("${words[@]:1}")
            ;;
        state)
            if fits "${words-}" order; then
                for word in "${words[1]-}" "${words[2]-}"; do
                    fits "$word" bound || {
                        echo "${word:-the word behind $words} isn't known: expected ${token_name[bound]}"
                        return
                    }
                done
                words=("${words[@]:3}")
            fi
            ;;
        esac
        why_word "${words[@]}" || echo "no key is between the bounds, or nothing was read; --help has the words"
    fi
}

# meaning_of_reading STATUS WORDS..: what a status other than 0 says of a call of ./slate_tables.
meaning_of_reading() {
    case $1 in
    2) why_not_read "${@:2}" ;;
    6) echo "standard output couldn't be written" ;;
    7) echo "the folder $2 couldn't be read" ;;
    12 | 14 | 15 | 16 | 18 | 19)
        echo "a table in the folder $2 is damaged, or a word isn't that of its run: $(damage "$1")"
        where_damaged "$2" "${@:4}"
        ;;
    20) echo "there is no more memory" ;;
    *) return 1 ;;
    esac
}

# meaning_of STATUS WORDS..: what a status other than 0 says of a run by these words.
meaning_of() {
    [[ $program_name != tables ]] || {
        meaning_of_reading "$@"
        return
    }
    case $1 in
    2) why_not "${@:2}" ;;
    3) tell_line <"${kept:-/dev/null}" ;;
    4) echo "the script has 4294967295 bytes or more" ;;
    5) echo "standard input couldn't be read" ;;
    6) echo "standard output couldn't be written" ;;
    7) why_failed "$2" ;;
    12 | 14 | 15 | 16 | 18 | 19)
        echo "a table in the folder $2 is damaged: $(damage "$1")"
        where_damaged "${@:2}"
        ;;
    20) echo "there is no more memory" ;;
    *) return 1 ;;
    esac
}

# run_watched WORDS..: runs the program, tells a person what its status means, and ends with it. What comes by a pipe, or is typed, is kept
# besides, so that the line at 3 is known.
run_watched() {
    local status text
    kept=''
    if [[ $program_name != @(shell|tables) && ${2-} != gen ]] && is_spent_once && kept=$(mktemp); then
        trap 'rm -f "$kept"' EXIT
        exec 6< <(exec 5>&1 >"$kept" && exec tee /dev/fd/5)
        SLATE_TELL=$program_name "$program" "$@" <&6
        status=$?
        kill "$!" 2>/dev/null
    else
        # A file is read anew, where the script was all of it.
        [[ ! -f /dev/stdin ]] || kept=/dev/stdin
        SLATE_TELL=$program_name "${editor[@]}" "$program" "$@"
        status=$?
    fi
    if text=$(meaning_of "$status" "$@"); then
        while IFS= read -r text; do
            say "status $status: $text"
        done <<<"$text"
    fi
    exit "$status"
}

# is_spent_once: standard input can't be read again from where it stands: it is a pipe, a terminal, or a file from its middle on.
is_spent_once() {
    [[ -p /dev/stdin || -t 0 ]] || { [[ -f /dev/stdin ]] && ! grep -qx 'pos:[[:space:]]*0' /proc/self/fdinfo/0; }
}
