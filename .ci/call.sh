# shellcheck shell=bash
# What ./slate, ./slate_stock, ./slate_index and ./slate_queue do. Source this file with `top` set to the repository's folder and `call` to the
# file's name, behind the name of the program's crate and then the words. `./slate shell` is the program of the crate `shell`.
#
# Where the program is proved and built for this source it starts at once. Else it is built unproved, once for each source, in some minutes,
# and from then on starts at once too. Standard output is the program's alone. Where standard error is a terminal, or the first word is `tell`,
# lines there say what a status other than 0 means.
. "$top/.ci/program.sh"

crate=$1 telling=''
shift
[[ ! -t 2 ]] || telling=1
if [[ ${1-} == tell ]]; then
    telling=1
    shift
fi
if [[ $crate == slate && ${1-} == shell ]]; then
    crate=shell call+=' shell'
    shift
fi
choose_program "$crate"
if [[ ${1-} == --prove && $# -eq 1 ]]; then
    prepare
    say "the proved program is there"
    exit
fi
if ! is_current; then
    choose_unproved
    . "$top/.ci/unproved.sh"
    prepare_unproved
    say "this program is unproved; ./$call --prove proves and builds it, once"
fi
# Line editing at a terminal is that of rlwrap, where it is there.
editor=()
if [[ $program_name == shell && -t 0 && -t 1 ]] && type -P rlwrap >/dev/null; then
    editor=(rlwrap)
fi
[[ -n $telling ]] || exec "${editor[@]}" "$program" "$@"
. "$top/.ci/runs.sh"
run_watched "$@"
