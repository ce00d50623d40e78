#!/usr/bin/env bash
# count.sh [FOLDER]: the lines of code, of definitions and of proofs of each crate, how many must-fail edits the gate makes of it, and how many
# more are in tools/edits, in the order of crates.txt, and their sums; FOLDER is the top of a checkout, or this one.
set -euo pipefail
cd "${1:-$(dirname "$0")/..}"
# lines FOLDER PATTERN: how many lines the files of that name in a folder have
lines() {
    { [ ! -d "$1" ] || find "$1" -name "$2" -type f -exec cat {} +; } | wc -l
}
# files FOLDER: how many edits a folder has
files() {
    { [ ! -d "$1" ] || find "$1" -name '*.edit' -type f; } | wc -l
}
row='%-15s %7s %7s %7s %7s %7s\n'
# shellcheck disable=SC2059 # the format is that of each row
printf "$row" crate code specs proofs edits more
sums=(0 0 0 0 0)
while IFS=' :' read -r name _; do
    [ -n "$name" ] && [ -d "crates/$name" ] || continue
    counts=("$(lines "crates/$name/src" '*.rt')" "$(lines "crates/$name/specs" '*.antt')" "$(lines "crates/$name/proofs" '*.antt')"
        "$(files "crates/$name/must-fail")" "$(files "tools/edits/$name")")
    # shellcheck disable=SC2059
    printf "$row" "$name" "${counts[@]}"
    for n in 0 1 2 3 4; do sums[n]=$((sums[n] + counts[n])); done
done <crates.txt
# shellcheck disable=SC2059
printf "$row" 'in all' "${sums[@]}"
