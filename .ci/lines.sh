# shellcheck shell=bash disable=SC2034
# Functions of ./slate and the other programs: which line of a script is none of the program's, and which token of it. What they say is for a
# person: it is the program that takes or refuses a line.

# below NUMBER: an expression for the decimal numbers without leading zeros up to this one.
below() {
    local most=$1 len=${#1} at digit text="0|[1-9][0-9]{0,$((${#1} - 2))}"
    for ((at = 0; at < len; at++)); do
        digit=${most:at:1}
        ((digit > (at == 0))) || continue
        text+="|${most:0:at}[$((at == 0))-$((digit - 1))][0-9]{$((len - at - 1))}"
    done
    printf '(%s|%s)' "$text" "$most"
}

# Each kind of token: its expression, and what it is called.
declare -A token_form=() token_name=()
kind() {
    token_form[$1]=$2
    token_name[$1]=$3
}

read_kinds() {
    local bytes="('[!-~]*|0x([0-9a-f]{2})*)" number least
    number=$(below 18446744073709551615)
    least=$(below 9223372036854775808)
    kind name '[A-Za-z0-9]{1,64}' 'a name, 1 to 64 letters and digits'
    kind key "$bytes" "a key, as 'text or 0x74657874"
    kind value "$bytes" "a value, as 'text or 0x74657874"
    kind number "$number" 'a number below 2^64 without leading zeros'
    kind moment "($(below 9223372036854775807)|-(${least#(0|})" 'a moment in milliseconds without leading zeros'
    kind level '(si|ssi)' 'si or ssi'
    kind order '(asc|desc)' 'asc or desc'
    kind bound "(\\*|[ie]$bytes)" "a bound, as i'key, e'key or *"
    kind time "t($number|-)" 'a time to live, as t1000 or t-'
    kind step "(n$number|s$bytes)" "a step, as n10 or s'key"
    kind holder '[a-z0-9]{1,32}' 'a name, 1 to 32 of the letters a to z and the digits'
    kind index '[01]' 'the number of an index, 0 or 1'
}

# The lines of each program, a word and the kinds of tokens behind it. A kind may end with ? where it may be missing, with * where there may
# be any number, and with + where there is one or more. `operations` stands for those of a batch.
lines_of() {
    case $1 in
    slate) printf '%s\n' 'now moment' 'begin name level' 'snapshot name' 'get name key' 'scan name order bound bound step*' \
        'prefix name order key bound bound step*' 'put name key value time?' 'merge name key value time?' 'delete name key' \
        'mark name key+' 'unmark name key+' 'commit name' 'rollback name' 'write operations' freeze flush journal ;;
    stock) printf '%s\n' 'issue holder holder number' 'pay holder holder holder number' 'trade holder holder holder number number' \
        'total holder' ;;
    index) printf '%s\n' 'put holder value' 'del holder' 'find index value' ;;
    queue) printf '%s\n' 'add value' 'claim moment number' 'finish number number' 'feed number' ;;
    esac
}

# expression KINDS..: one for the tokens behind a word.
expression() {
    local kind text=''
    for kind; do
        case $kind in
        operations)
            text+="( (put|merge) ${token_form[key]} ${token_form[value]}( ${token_form[time]})?| delete ${token_form[key]})*"
            ;;
        *[?*+]) text+="( ${token_form[${kind%?}]})${kind: -1}" ;;
        *) text+=" ${token_form[$kind]}" ;;
        esac
    done
    printf '%s' "$text"
}

# find_wrong < SCRIPT: sets `wrong` to the number of the first line that is none of the program's and its text, as NUMBER:TEXT, with a ? for
# each byte that isn't visible.
find_wrong() {
    local line form text=''
    while read -ra line; do
        form=$(expression "${line[@]:1}")
        text+="|${line[0]}$form"
    done < <(lines_of "$program_name")
    wrong=$(LC_ALL=C grep -anvE -m 1 "^(|#.*$text)\$" | head -c 200 | LC_ALL=C tr -c '\n -~' '?')
}

# fits TOKEN KIND
fits() { [[ $1 =~ ^${token_form[$2]}$ ]]; }

# test_token KIND: sets `expected` where the next of `tokens` isn't of the kind, and else goes past it.
test_token() {
    if ((at < ${#tokens[@]})) && fits "${tokens[at]}" "$1"; then
        at=$((at + 1))
    else
        expected=${token_name[$1]}
        return 1
    fi
}

test_operations() {
    while ((at < ${#tokens[@]})); do
        case ${tokens[at]} in
        put | merge)
            at=$((at + 1))
            test_token key && test_token value || return
            test_token time || expected='put, merge or delete'
            ;;
        delete)
            at=$((at + 1))
            test_token key || return
            ;;
        *)
            expected=${expected:-put, merge or delete}
            return 1
            ;;
        esac
    done
}

test_kinds() {
    local kind
    for kind; do
        case $kind in
        operations) test_operations || return ;;
        *'?') test_token "${kind%?}" || true ;;
        *'*') while test_token "${kind%?}"; do :; done ;;
        *+)
            test_token "${kind%?}" || return
            while test_token "${kind%?}"; do :; done
            ;;
        *) test_token "$kind" || return ;;
        esac
    done
    ((at == ${#tokens[@]})) || expected=${expected:-the end of the line}
}

# what_was_expected LINE: sets `expected`, what stands in the line's place of its first wrong token, and `token`, this.
what_was_expected() {
    local text=$1 form words=() tokens=() at=0
    expected='' token=''
    case $text in
    ' '* | *' ' | *'  '*)
        expected='one space between two tokens, and none at an end'
        return
        ;;
    esac
    read -ra tokens <<<"$text"
    while read -ra form; do
        words+=("${form[0]}")
        [[ ${form[0]} == "${tokens[0]}" ]] || continue
        at=1
        test_kinds "${form[@]:1}"
        token=${tokens[at]-}
        return
    done < <(lines_of "$program_name")
    token=${tokens[0]-}
    expected="one of ${words[*]}"
}

# tell_line < SCRIPT: what is wrong with the script's first line that is none.
tell_line() {
    local wrong expected token text
    read_kinds
    find_wrong
    if [[ -z $wrong ]]; then
        echo "the line after those that were answered is no line of the language; --help has the lines"
        return
    fi
    text=${wrong#*:}
    what_was_expected "$text"
    printf 'line %s is no line of the language: %s\n' "${wrong%%:*}" "$text"
    if [[ $text == *'?' ]]; then
        echo "its last byte isn't visible: a line ends with LF alone, not with CR LF"
    elif [[ -n $token ]]; then
        printf 'at %s: expected %s\n' "$token" "$expected"
    else
        printf 'expected %s\n' "$expected"
    fi
}
