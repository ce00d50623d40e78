# Read by the other scripts here.

# The least time of so many runs of a program on a script, in nanoseconds, and what it wrote last in a file:
# best RUNS SCRIPT OUTPUT PROGRAM [WORD..]
best() {
    left=$1
    script=$2
    output=$3
    shift 3
    least=
    while [ "$left" -gt 0 ]; do
        before=$(date +%s%N)
        "$@" < "$script" > "$output"
        taken=$(($(date +%s%N) - before))
        if [ -z "$least" ] || [ "$taken" -lt "$least" ]; then
            least=$taken
        fi
        left=$((left - 1))
    done
    echo "$least"
}
