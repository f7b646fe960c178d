#!/usr/bin/env bash
# columns.sh: in the top folder of a tree, after all merges: no clause line past 120 columns. Blanks alone change (and what rt fmt makes of records).
set -e
here=$(dirname "$(readlink -f "$0")")
for i in 1 2 3; do
    python3 "$here/break.py" crates/*/src/*.rt crates/*/src/*/*.rt
    for c in crates/*/; do [[ ! -d $c/src ]] || (cd "$c" && rt fmt >/dev/null); done
done
git apply "$here/check.patch"
.ci/contracts --write
