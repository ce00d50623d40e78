#!/bin/sh
# Times two builds of the program side by side on 60 live handles: compare.sh OLD [NEW]. Each time is the best of five
# runs, in turn, and both must write the same.
set -e
cd "$(dirname "$0")"
old=$1
new=${2:-../crates/macheap/out/macheap}
folder=$(mktemp -d)
trap 'rm -rf "$folder"' EXIT

# the nanoseconds that a program takes on a script
time_of() {
    before=$(date +%s%N)
    "$1" --zone 262144 < "$2" > "$3"
    echo $(($(date +%s%N) - before))
}

printf '%8s %16s %16s %12s\n' lines 'old ns per line' 'new ns per line' new/old
for lines in 4096 16384 32768; do
    ./make_script.py sixty "$lines" > "$folder/script"
    least_old=
    least_new=
    for _ in 1 2 3 4 5; do
        taken=$(time_of "$old" "$folder/script" "$folder/old")
        if [ -z "$least_old" ] || [ "$taken" -lt "$least_old" ]; then least_old=$taken; fi
        taken=$(time_of "$new" "$folder/script" "$folder/new")
        if [ -z "$least_new" ] || [ "$taken" -lt "$least_new" ]; then least_new=$taken; fi
        cmp "$folder/old" "$folder/new"
    done
    printf '%8d %16d %16d %11d%%\n' "$lines" $((least_old / lines)) $((least_new / lines)) $((100 * least_new / least_old))
done
