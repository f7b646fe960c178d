# shellcheck shell=bash disable=SC2154
# Functions of ./slate and the other programs, bench/run and ./test: which program is the proved one, and how it is proved and built. Source
# this file with `top` set to the repository's folder, and name the program by `choose_program`.
#
# crates/NAME/out/proved-source has one line: a sum over the source that the program was proved and built from,
# and a sum over the program. Where both fit, the program is used as it is and nothing is proved again.
# Beside it proved-seen has the paths of that source, of the program and of rt, and is as old as the last comparison: where no file there is
# newer, the sums fit still, and aren't computed.
# unproved-source and unproved-seen say the same of the program `unproved`, for which the source is that of src/ alone.

choose_program() {
    program_name=$1
    out="$top/crates/$program_name/out"
    choose_proof proved "$out/$program_name" src specs proofs
}

# choose_proof WORD PROGRAM PART..: the program that is proved, or not, and the folders of its source.
choose_proof() {
    program=$2
    stamp_file="$out/$1-source"
    seen_file="$out/$1-seen"
    source_parts=("${@:3}")
}

choose_unproved() { choose_proof unproved "$out/unproved" src; }

# Sets `crates`, those of crates.txt in its order, the lowest first, and `needs`, what each stands on.
read_crates() {
    local line crate
    declare -gA needs=()
    crates=()
    while IFS= read -r line || [[ -n $line ]]; do
        line=${line%%#*}
        [[ $line == *:* ]] || continue
        read -r crate _ <<<"${line%%:*}"
        crates+=("$crate")
        needs[$crate]=${line#*:}
    done <"$top/crates.txt"
}

# The crates that the program stands on, and its own, the lowest first.
crates_of_program() {
    local -A seen=()
    local crate word left=("$program_name")
    read_crates
    while ((${#left[@]})); do
        crate=${left[0]}
        left=("${left[@]:1}")
        [[ -z ${seen[$crate]-} ]] || continue
        seen[$crate]=1
        for word in ${needs[$crate]-}; do
            [[ ! -v needs[$word] ]] || left+=("$word")
        done
    done
    for crate in "${crates[@]}"; do
        [[ -z ${seen[$crate]-} ]] || printf '%s\n' "$crate"
    done
}

# Sets `source_files`, HANDLES and the source of these crates, and `source_lines`, what crates.txt says of them.
read_files() {
    local crate part file
    source_files=(HANDLES) source_lines=()
    read_crates
    for crate in $(crates_of_program); do
        source_lines+=("$crate:${needs[$crate]}")
        for part in "${source_parts[@]}"; do
            for file in crates/"$crate/$part"/**; do
                [[ ! -f $file ]] || source_files+=("$file")
            done
        done
    done
}

# A sum over the toolchain's name and the source of the program. Fails where a part is missing.
source_sum() (
    cd "$top" || exit 1
    shopt -s globstar nullglob dotglob
    LC_ALL=C
    read_files
    kit=$(rt version 2>/dev/null </dev/null) || exit 1
    sums=$(sha256sum -- "${source_files[@]}") || exit 1
    sum=$(printf '%s\n' "$kit" "${source_lines[@]}" "$sums" | sha256sum) || exit 1
    printf '%s\n' "${sum%% *}"
)

# What the stamp's line must be for a source sum and the program that stands there.
stamp_line() {
    local sum
    sum=$(sha256sum <"$program" 2>/dev/null) || return 1
    printf '%s %s\n' "$1" "${sum%% *}"
}

# is_proved SUM: the program that stands there was proved and built from the source with this sum.
is_proved() {
    local kept
    [[ -x $program && -r $stamp_file ]] || return 1
    kept=$(<"$stamp_file")
    [[ $kept == "$(stamp_line "$1")" ]]
}

# stamp SUM: says so of the program that stands there.
stamp() {
    local line
    line=$(stamp_line "$1") || return 1
    printf '%s\n' "$line" >"$stamp_file.$$" && mv -f "$stamp_file.$$" "$stamp_file"
}

# is_unchanged: the program that stands there fitted its source, and no file of these was changed since. One process is started.
is_unchanged() {
    local paths below newer
    [[ -x $program && -r $seen_file ]] || return 1
    mapfile -t paths <"$seen_file"
    below=("${paths[@]:1}")
    newer=$(find -H "${paths[0]}" "${below[@]/#/$top/}" \( -name out -o -name edits \) -prune -o -cnewer "$seen_file" -print -quit 2>&1)
    [[ -z $newer ]]
}

# begin_comparison: what is changed from here on is newer than `seen_file` will be. Its first line is the path of rt, and the others go from
# the repository's folder.
begin_comparison() {
    mkdir -p "$out" && {
        type -P rt
        printf '%s\n' crates.txt HANDLES "${program#"$top/"}"
        crates_of_program | sed 's:^:crates/:'
    } >"$seen_file.$$"
}

say() { printf '%s: %s\n' "$program_name" "$*" >&2; }

give_up() {
    say "$*"
    exit 1
}

# wait_for PID TEXT [FOLDER]: until this job ends, with a line every half minute. It ends with this shell too, and the folder goes.
wait_for() {
    local next=$((SECONDS + 30))
    # shellcheck disable=SC2064
    trap "kill $1 2>/dev/null; rm -rf '${3-}'" EXIT
    while kill -0 "$1" 2>/dev/null; do
        sleep 0.2
        ((SECONDS < next)) || {
            say "$2, ${SECONDS} s"
            next=$((SECONDS + 30))
        }
    done
    trap - EXIT
    wait "$1"
}

# Proves the crates of the program, lowest first, each on as many processors as rt chooses, with a line for each and every half minute.
prove_crates() {
    local crate found done_so_far=0
    mapfile -t found < <(crates_of_program)
    for crate in "${found[@]}"; do
        (cd "$top/crates/$crate" && exec rt check) </dev/null >&4 2>&1 &
        wait_for "$!" "proving $crate, $((done_so_far + 1)) of ${#found[@]}"
        done_so_far=$((done_so_far + 1))
        say "checked $crate ($done_so_far of ${#found[@]}, ${SECONDS} s)"
    done
}

# The lines of the log that say what isn't proved.
show_failures() {
    local line
    while IFS= read -r line; do
        case $line in
        *": error: "* | *": not proved" | *"NOT PROVED"* | *"isn't proved"* | "rt: "*"did not build"*) printf '%s\n' "$line" ;;
        esac
    done <"$1" | tail -n 12 >&2
}

build() {
    local log="$out/build.log"
    mkdir -p "$out" || give_up "cannot make crates/$program_name/out"
    exec 4>"$log" || give_up "cannot write crates/$program_name/out/build.log"
    say "the proved program isn't built for this source yet; proving and building it takes an hour and more of processor time, once"
    prove_crates
    # The last word is here: rt builds the program only over proved crates, and --version alone ends with status 0.
    if ! (cd "$top/crates/$program_name" && rt run -- --version) </dev/null >&4 2>&1; then
        show_failures "$log"
        give_up "the program isn't proved, so nothing is run; all that was said is in crates/$program_name/out/build.log"
    fi
    exec 4>&-
    [[ $(source_sum) == "$1" ]] || give_up "the source was changed while it was proved; call this again"
    stamp "$1" || give_up "cannot write crates/$program_name/out"
    say "proved and built in ${SECONDS} s"
}

# Sets `sum` to that of the source.
read_source() {
    type -P rt >/dev/null || give_up "rt, the command of the Rattle toolchain, isn't there: the program can't be built"
    sum=$(source_sum) || give_up "the source of the program can't be read"
}

# is_current: the program that stands there was made from this source.
is_current() {
    local fits=1
    [[ -x $program && -r $stamp_file ]] || return
    ! is_unchanged || return 0
    begin_comparison || give_up "cannot write crates/$program_name/out"
    read_source
    if is_proved "$sum"; then
        mv -f "$seen_file.$$" "$seen_file" && fits=0
    fi
    rm -f "$seen_file.$$"
    return "$fits"
}

# Proves and builds the program where it isn't built for this source.
prepare() {
    is_current || { read_source && build "$sum"; }
}
