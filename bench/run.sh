#!/bin/sh
# Times the program on scripts of 4,096, 16,384 and 65,536 lines, and prints the time per line and how it grows.
# Build it first by `rt run` in crates/macheap. Each time is the best of five runs.
set -e
cd "$(dirname "$0")"
program=${1:-../crates/macheap/out/macheap}
folder=$(mktemp -d)
trap 'rm -rf "$folder"' EXIT
. ./best.sh

printf '%-10s %8s %12s %14s %10s\n' script lines milliseconds 'ns per line' growth
for kind in handles bytes pokes comments; do
    first=
    for lines in 4096 16384 65536; do
        if [ "$kind" = pokes ] && [ "$lines" -gt 16384 ]; then
            continue
        fi
        ./make_script.py "$kind" "$lines" > "$folder/script"
        taken=$(best 5 "$folder/script" "$folder/output" "$program")
        each=$((taken / lines))
        first=${first:-$each}
        printf '%-10s %8d %12d %14d %9d%%\n' "$kind" "$lines" $((taken / 1000000)) "$each" $((100 * each / first))
    done
done
