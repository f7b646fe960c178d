# shellcheck shell=bash disable=SC2154
# ./test hostile [SLATE HOSTILE]: runs of ./slate and of slate_hostile over what fails and what lies; the paths name other builds of both.
# Source this file behind program.sh, with `say` and `fail` set.
#
# Each growth of the buffers of worked scripts is refused in turn: a program behind `.ci/refuse.c`, which cc builds, meets none at the
# number that it is told. A run then ends with status 20 behind the first of its replies, or with all of them. slate_hostile answers the
# refused line again, and goes on as a core does that was as before.
# slate_hostile changes bytes of tables and answers of reads; what it tries and what it takes for right stands in its source.

# day: the script of the fourth worked day, 216 lines.
day() {
    local i
    for i in {1..200}; do
        ((i % 50 != 1)) || echo 'begin t ssi'
        printf "put t 'order:%03d 'open\n" "$i"
        ((i % 50 == 0)) || continue
        printf "get t 'order:%03d\ncommit t\n" $((i - 49))
        ((i % 100 != 0)) || echo flush
    done
    printf "begin r si\nprefix r asc 'order:19 * * n3\n"
}

# scripts: makes the worked scripts in $hostile, each a file NAME.script beside NAME.words.
scripts() {
    printf '%b' 'begin t ssi\nscan t asc * *\nwrite put '"'c '1"'\nfreeze\nflush\nscan t asc * *\ncommit t\n' >"$hostile/phantom.script"
    : >"$hostile/phantom.words"
    printf '%b' "write merge 'k 'a\nwrite merge 'k 'b\nbegin t si\nwrite merge 'k 'c\nflush\nget t 'k\nbegin u si\nget u 'k\n" >"$hostile/operands.script"
    echo op=concat >"$hostile/operands.words"
    printf '%b' "write put 'a:x '1\nwrite put 'a:b:x '1\nwrite put 'ab '1\nwrite put 'c:x '1 put 'c:d:x '2\nwrite put 'c:d:x '3\nflush\nbegin t si\nscan t asc * *\n" >"$hostile/segments.script"
    echo seg=lastcolon >"$hostile/segments.words"
    day >"$hostile/day.script"
    : >"$hostile/day.words"
}

# refuse NUMBER NAME COMMAND..: runs the command by the script and its words, where the growth with this number is refused. Sets `status`.
refuse() {
    # shellcheck disable=SC2046
    REFUSED=$1 LD_PRELOAD=$hostile/refuse.so "${@:3}" $(<"$hostile/$2.words") <"$hostile/$2.script" >"$hostile/replies" 2>"$hostile/said"
    status=$?
}

# is_front FILE WHOLE: the file's bytes are whole lines at the front of the other's.
is_front() {
    local len
    len=$(wc -c <"$1")
    cmp -s -n "$len" "$1" "$2" && { ((len == 0)) || [[ -z $(tail -c 1 "$1") ]]; }
}

# is_refused: the growth was refused.
is_refused() { grep -qx refused "$hostile/said"; }

# is_whole: the run has ended with status 0 and all replies.
is_whole() { ((status == 0)) && cmp -s "$hostile/replies" "$hostile/whole"; }

# refuse_each NAME: refuses each growth of the script's run in turn, up to a run that meets none.
refuse_each() {
    local number wanting=0 whole=0 status
    refuse 0 "$1" "$slate" -
    cp "$hostile/replies" "$hostile/whole"
    for ((number = 1; ; number++)); do
        refuse "$number" "$1" "$slate" -
        is_refused || break
        if ((status == 20)) && is_front "$hostile/replies" "$hostile/whole"; then
            wanting=$((wanting + 1))
        elif is_whole; then
            whole=$((whole + 1))
        else
            fail "the script $1 ends with status $status where growth $number is refused"
        fi
    done
    is_whole || fail "the script $1 ends with status $status where no growth is refused"
    say "growths refused in turn, $1: $((number - 1)) runs, $wanting with status 20, $whole with all replies"
}

# answer_again NAME: the same of a core whose lines are answered again where memory was wanting.
answer_again() {
    local number wanting=0 same=0 status
    for ((number = 1; ; number++)); do
        refuse "$number" "$1" "$hostile_program" again
        is_refused || break
        case $status in
        0) same=$((same + 1)) ;;
        20) wanting=$((wanting + 1)) ;;
        *) fail "a core isn't as it was, script $1, where growth $number is refused: status $status" ;;
        esac
    done
    ((status == 0 && same > 0)) || fail "the script $1 isn't answered again: status $status"
    say "lines answered again, $1: $((number - 1)) runs, $same with the same replies, $wanting without memory for the script"
}

refuse_growths() {
    local name
    if ! command -v cc >/dev/null || ! cc -O1 -shared -fPIC -o "$hostile/refuse.so" .ci/refuse.c; then
        fail "cc doesn't build .ci/refuse.c, so that no growth was refused"
        return
    fi
    scripts
    for name in phantom operands segments day; do
        refuse_each "$name"
        answer_again "$name"
    done
}

# lie WORD: what slate_hostile says of its runs, which ended as they must.
lie() {
    local line status
    "$hostile_program" "$1" </dev/null >"$hostile/lies"
    status=$?
    while IFS= read -r line; do
        say "$1: $line"
    done <"$hostile/lies"
    ((status == 0)) || fail "slate_hostile $1 ends with status $status"
}

# try_hostile [SLATE HOSTILE]
try_hostile() {
    hostile=$(mktemp -d) || { fail "no folder for scripts"; return; }
    trap 'rm -rf "$hostile"' EXIT
    if (($# == 2)); then
        slate=$1 hostile_program=$2
    else
        choose_program slate_hostile && prepare
        hostile_program=$program
        choose_program slate && prepare
        slate=$program
    fi
    refuse_growths
    lie turned
    lie answered
}
