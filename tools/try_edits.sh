#!/usr/bin/env bash
# try_edits.sh [CRATE..]: tries the must-fail edits of tools/edits, of these crates or of all. The gate leaves them out, since the first edit of a
# crate proves all of it once more. They are tried in a clone of the last commit, beside those of the gate, by `rt ci CRATE..`.
set -euo pipefail
top=$(cd "$(dirname "$0")/.." && pwd)
if [ $# -eq 0 ]; then
    mapfile -t crates < <(ls "$top/tools/edits")
    set -- "${crates[@]}"
fi
room=$(mktemp -d)
trap 'rm -rf "$room"' EXIT
git clone -q "$top" "$room/copy"
for crate in "$@"; do
    mkdir -p "$room/copy/crates/$crate/must-fail"
    cp "$top/tools/edits/$crate/"*.edit "$room/copy/crates/$crate/must-fail"
done
cd "$room/copy"
rt ci "$@"
