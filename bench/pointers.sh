#!/bin/sh
# Times DisposePtr and NewPtr in turn at random places, with 2,000 and with 20,000 live pointers of 8 bytes in a zone of
# 1,048,576 bytes: 40,000 calls, the time per call, and how it grows. Build the program first by `rt run` in
# crates/macheap. Each time is the best of three runs, without that of the script that only makes the pointers.
set -e
cd "$(dirname "$0")"
program=${1:-../crates/macheap/out/macheap}
folder=$(mktemp -d)
trap 'rm -rf "$folder"' EXIT
. ./best.sh

printf '%13s %16s %12s %10s\n' 'live pointers' 'making them, ms' 'ns per call' growth
first=
for live in 2000 20000; do
    ./make_script.py pointers "$live" 0 > "$folder/making"
    ./make_script.py pointers "$live" 40000 > "$folder/script"
    making=$(best 3 "$folder/making" "$folder/output" "$program" --zone 1048576)
    taken=$(best 3 "$folder/script" "$folder/output" "$program" --zone 1048576)
    if grep -qv ' 0$' "$folder/output"; then
        echo "a call was refused" >&2
        exit 1
    fi
    each=$(((taken - making) / 40000))
    first=${first:-$each}
    printf '%13d %16d %12d %9d%%\n' "$live" $((making / 1000000)) "$each" $((100 * each / first))
done
