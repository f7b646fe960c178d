# shellcheck shell=bash
# Functions of ./test and ./check: how rt's checks share a machine, and what a person sees of them. Source this file in a script that has say.

# How many checks run side by side: as many as there are processors and as 5.5 GB hold, of what is free or what a control group may take.
lanes() {
    local file name amount number most=''
    number=$(nproc)
    while read -r name amount _; do
        [[ $name != MemAvailable: ]] || most=$((amount * 1024))
    done </proc/meminfo
    for file in /sys/fs/cgroup/memory.max /sys/fs/cgroup/memory/memory.limit_in_bytes; do
        [[ -r $file ]] || continue
        read -r amount <"$file"
        [[ $amount == max || ${#amount} -gt 15 || amount -gt most ]] || most=$amount
    done
    ((most / 5500000000 >= number)) || number=$((most / 5500000000))
    echo $((number > 0 ? number : 1))
}

# rt counts up to three times the memory that a check takes, and would leave processors idle (docs/GATE.md).
share_processors() {
    [[ -n ${RT_JOBS-} || ! -r /proc/meminfo ]] || RT_JOBS=$(lanes)
    [[ -z ${RT_JOBS-} ]] || export RT_JOBS
}

# begin_log NAME: `log` is a new file for all that rt says.
begin_log() {
    log=out/$1.log
    mkdir -p out && : >"$log" || { say "out/ can't be written"; exit 1; }
    say "all that rt says is in $log"
}

# tell_time TEXT: the text, behind the minutes since the start.
tell_time() { say "$(printf '%3d' $((SECONDS / 60))) min: $*"; }

# Of what rt ci says: each crate as it is done, with the minutes since the start, what isn't proved, and the verdict as it is.
show_progress() {
    local line
    while IFS= read -r line; do
        case $line in
        'rt: '*': begins with '* | 'rt: must-fail '*': refused, as it must be'*) ;;
        'rt: '*) tell_time "${line#rt: }" ;;
        *' passed, '*' failed' | *': error'*) printf '%s\n' "$line" ;;
        esac
    done
}
