#!/usr/bin/env bash
# Checks that tools/pictures.py reads what the program prints: that it draws each block of each example's output once,
# refuses what it can't read, and that the pictures in docs/ are those that it draws: zone.svg of examples/kinds.output,
# moves.svg of examples/compaction.output, and fork.svg of the sample, with each byte. (That the outputs of the examples are what the program prints is checked by
# tests/checks/examples.sh.) With --write it writes the pictures.
#
#     tests/checks/picture.sh [--write]
#
# shellcheck disable=SC2016 # addresses begin with a $
set -uo pipefail
cd "$(dirname "$0")/../.." || exit 2

folder=$(mktemp -d) || exit 2
trap 'rm -rf "$folder"' EXIT
failed=0

fail() {
    echo "tests/checks/picture.sh: $1"
    failed=1
}

sample=crates/resfork/data/sample.rsrc

# draw NAME: the picture docs/NAME.svg
draw() {
    case $1 in
        zone) tools/pictures.py zone --script examples/kinds.script examples/kinds.output ;;
        moves) tools/pictures.py moves --script examples/compaction.script examples/compaction.output ;;
        fork) tools/pictures.py fork "$sample" ;;
        *) tools/pictures.py "$1" ;;
    esac
}

# refuses NAME TEXT: the tool must draw nothing of this text
refuses() {
    printf '%b' "$2" >"$folder/output"
    if tools/pictures.py zone "$folder/output" >"$folder/picture" 2>"$folder/messages"; then
        fail "the tool draws $1"
    elif [ -s "$folder/picture" ] || [ ! -s "$folder/messages" ]; then
        fail "the tool does not say why it refuses $1, or has drawn something"
    fi
}

for name in zone moves fork block update; do
    if ! draw "$name" >"$folder/$name"; then
        fail "docs/$name.svg can't be drawn"
    elif [ "${1-}" = --write ]; then
        cp "$folder/$name" "docs/$name.svg"
    elif ! cmp -s "$folder/$name" "docs/$name.svg"; then
        fail "docs/$name.svg is not what tools/pictures.py draws: write it anew by tests/checks/picture.sh --write"
    fi
done
if [ "${1-}" = --write ]; then
    exit "$failed"
fi

maps=0
for output in examples/*.output; do
    printed=$(grep -c '^  \$' "$output")
    if [ "$printed" -eq 0 ]; then
        continue
    fi
    maps=$((maps + 1))
    if ! tools/pictures.py zone "$output" >"$folder/picture"; then
        fail "$output is not drawn"
        continue
    fi
    drawn=$(grep -c 'class="block"' "$folder/picture")
    if [ "$drawn" -ne "$printed" ]; then
        fail "$output has $printed lines of blocks, and $drawn blocks are drawn"
    fi
    if ! tools/pictures.py zone --script "${output%.output}.script" "$output" >"$folder/picture"; then
        fail "$output is not drawn with its script"
    fi
done
if [ "$maps" -eq 0 ]; then
    fail 'no example prints a map'
fi

master='  $00100034 264 master\n'
refuses 'an output without a map' '1 NewHandle $0010003C 0\n'
refuses 'a block of no map' "$master"
refuses 'a map that lacks a block' "1 ZoneMap 2 0\\n$master"
refuses 'a map with a block too many' "1 ZoneMap 1 0\\n$master$master"
refuses 'a block of another kind' "1 ZoneMap 2 0\\n$master"'  $0010013C 3780 lost\n'
refuses 'a block with another flag' "1 ZoneMap 2 0\\n$master"'  $0010013C 3780 rel $0010003C 3772 X--\n'
refuses 'a block after a gap' "1 ZoneMap 2 0\\n$master"'  $00100140 3776 free\n'
refuses 'a line that is none' "1 ZoneMap 1 0\\n${master}hello\\n"

# refuses_fork FILE: the tool must draw nothing of these bytes
refuses_fork() {
    if tools/pictures.py fork "$1" >"$folder/picture" 2>"$folder/messages"; then
        fail "tools/pictures.py draws $1"
    elif [ -s "$folder/picture" ] || [ ! -s "$folder/messages" ]; then
        fail "tools/pictures.py does not say why it refuses $1, or has drawn something"
    fi
}

# all bytes but the 240 extra ones, which are zeros and left out
if [ "$(grep -c 'height="22.0" class="byte"' docs/fork.svg)" -ne $(($(wc -c <"$sample") - 240)) ]; then
    fail 'docs/fork.svg has not just the bytes of its fork'
fi
refuses_fork examples/damaged.rsrc
refuses_fork examples/short.rsrc
head -c 400 "$sample" >"$folder/cut"
refuses_fork "$folder/cut"
if [ "$failed" -eq 0 ]; then
    echo "picture: $maps outputs, blocks that move, a fork, a block and an update drawn"
fi
exit "$failed"
