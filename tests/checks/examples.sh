#!/usr/bin/env bash
# Runs each script of examples/ by a macheap program, and compares what it prints, and its exit status, with the file
# beside it: examples/NAME.script with examples/NAME.output. With --write it writes these files instead.
#
#     tests/checks/examples.sh [--write] PROGRAM
#
# The comment lines at the head of a script may have a line '# macheap WORDS' with the options that the program is to
# be given (none: no options), and a line '# exit status N' (none: 0).
#
# A file that two words '--fork FILE' name is in a folder of the run's own: as a copy of examples/FILE, if there is one, and else it
# is missing. What the files are then is compared with examples/NAME.forks: a file is as it was, or it is shown by
# tests/show_forks.py. A comment line '# FILE becomes OTHER' says that FILE has the bytes of examples/OTHER then.
set -uo pipefail

usage='usage: tests/checks/examples.sh [--write] PROGRAM'
write=no
if [ "${1-}" = --write ]; then
    write=yes
    shift
fi
if [ $# -ne 1 ] || [ -z "$1" ]; then
    echo "$usage" >&2
    exit 2
fi
program=$(realpath -- "$1") || exit 2
if [ ! -f "$program" ] || [ ! -x "$program" ]; then
    echo "tests/checks/examples.sh: $1 is no program" >&2
    exit 2
fi
cd "$(dirname "$0")/../../examples" || exit 2
examples=$PWD

folder=$(mktemp -d) || exit 2
trap 'rm -rf "$folder"' EXIT
passed=0
failed=0

fail() {
    echo "examples/$1: $2"
    failed=$((failed + 1))
}

# left_forks FILE..: what the files of the run's folder are now
left_forks() {
    for fork in "$@"; do
        if [ -f "$fork" ] && cmp -s "$fork" "$examples/$fork"; then
            echo "$fork: as it was"
        else
            "$examples/../tests/show_forks.py" "$fork" || return
        fi
    done
}

# is_wanted SCRIPT FILE MADE: whether examples/FILE is what the run of the script made; or writes it
is_wanted() {
    if [ "$write" = yes ]; then
        cp "$3" "$2" || exit 2
    elif [ ! -f "$2" ]; then
        fail "$1" "there is no $2: write it by tests/checks/examples.sh --write PROGRAM"
        return 1
    elif ! diff -u --label "$2" --label "what $1 makes" "$2" "$3"; then
        fail "$1" "it makes something else than $2"
        return 1
    fi
}

# check_script SCRIPT: runs it, and compares all that it makes
check_script() {
    local script=$1 name=${1%.script} head wanted status becomes
    # the comment lines before the first other line
    head=$(sed -n '/^#/!q;p' "$script")
    case $head in
        '# '*) ;;
        *)
            fail "$script" 'it does not begin with a comment that says what it shows'
            return 1
            ;;
    esac
    local words=() forks=() given=() word before=
    read -r -a words <<<"$(printf '%s\n' "$head" | sed -n 's/^# macheap //p')"
    for word in ${words[@]+"${words[@]}"}; do
        if [ "$before" = --fork ]; then
            forks+=("$word")
            given+=("$folder/run/$word")
        else
            given+=("$word")
        fi
        before=$word
    done
    wanted=$(printf '%s\n' "$head" | sed -n 's/^# exit status //p')
    wanted=${wanted:-0}

    rm -rf "$folder/run"
    mkdir "$folder/run" || exit 2
    for fork in ${forks[@]+"${forks[@]}"}; do
        if [ -f "$fork" ]; then
            cp "$fork" "$folder/run" || exit 2
        fi
    done
    "$program" ${given[@]+"${given[@]}"} <"$script" >"$folder/output" 2>"$folder/messages"
    status=$?
    if [ "$status" != "$wanted" ]; then
        fail "$script" "the exit status is $status, and not $wanted"
        cat "$folder/messages"
        return 1
    fi
    is_wanted "$script" "$name.output" "$folder/output" || return 1
    if [ "${#forks[@]}" -eq 0 ]; then
        if [ -f "$name.forks" ]; then
            fail "$script" "there is a $name.forks, and it names no file"
            return 1
        fi
        return 0
    fi
    if ! (cd "$folder/run" && left_forks "${forks[@]}") >"$folder/forks"; then
        fail "$script" 'its files cannot be shown'
        return 1
    fi
    is_wanted "$script" "$name.forks" "$folder/forks" || return 1
    while read -r _ fork _ becomes; do
        if ! cmp "$folder/run/$fork" "$becomes"; then
            fail "$script" "$fork does not become $becomes"
            return 1
        fi
    done < <(printf '%s\n' "$head" | grep -E '^# [^ ]+ becomes [^ ]+$')
}

for script in *.script; do
    if [ ! -f "$script" ]; then
        fail "$script" 'there are no examples'
        break
    fi
    if check_script "$script"; then
        passed=$((passed + 1))
    fi
done

for made in *.output *.forks; do
    if [ -f "$made" ] && [ ! -f "${made%.*}.script" ]; then
        fail "$made" 'there is no such script'
    fi
done
for fork in *.rsrc; do
    if [ -f "$fork" ] && ! grep -Eq "^# macheap (.* )?--fork $fork( |$)" ./*.script; then
        fail "$fork" 'no script is run on it'
    fi
done

if [ "$write" = no ]; then
    echo "examples: $passed as they should be, $failed not"
fi
[ "$failed" -eq 0 ]
