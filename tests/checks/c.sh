#!/bin/sh
# Runs the C programs of tests/c/ over the library as it is installed. These are: the calls, whose answers are compared with what is there, over
# the shared library, and over the other with the sanitizers over the C side; the same of a zone in memory that a guest writes, with 40,000
# random calls, as many where the host says what was written, and 600 zones that are damaged; of zones made of bytes that others wrote:
# 100,000 of random bytes, 1,200 with a byte that was changed, and 40,000 random calls on zones that are made anew of their bytes; each
# byte of a zone that is damaged, named and mended; a look at zones of its own, and at 20,000 that others made; bytes from outside the zone, with 40,000 random calls on each of two zones; handles
# that are purged, and calls that are held before they purge, with 80,000 random calls on each of two zones; 175,000 random calls, 100,000 of them on a zone that a guest writes, of which macheap prints the same; and 100,000 on resource files; resources
# by their names, and other names for them; what all open resource files have together, after 4,000 random calls; 20,000 random reads and
# writes of some of a resource's bytes; resource files that are saved and loaded amid 20,000 random calls, and each byte of such changed; 100,000 random calls on resource files over
# three zones;
# 255 resource files at a time; all traps, by their table; a zone and files that four threads use in
# turn; a zone that the host has no memory for, over c/src/heap.c, too; a fork, of which resfork prints the same; and forks whose bytes are
# known, written anew. Next the examples in C, C++ and Rust (tests/c/examples.sh). Then that the library is small, shows the names of its headers and
# no other, asks for nothing but the C library's memory, and is installed below DESTDIR as in its place; that each function has a man page;
# and that the crate in Rust declares what the header does, and the table of traps what the calls are.
# Words: the programs macheap and resfork, and the folder of what build_c.sh built. It needs make, a C compiler, Python, and the kit's C
# code for the heap (RATTLE_KIT: the kit's folder).
set -e
program=$(realpath "$1")
lister=$(realpath "$2")
folder=$(realpath "$3")
top=$(cd "$(dirname "$0")/../.." && pwd)
room=$(mktemp -d)
trap 'rm -rf "$room"' EXIT
tree=$room/tree/usr
made() {
    make -s -C "$top/c" OUT="$room/out" LIBRARIES="$folder" "$@"
}
# built NAME FLAG..: the program of tests/c/NAME.c
built() {
    name=$1
    shift
    ${CC:-cc} -std=c11 -Wall -Wextra -Werror "$@" -I"$tree/include" "$top/tests/c/$name.c" "$library" -o "$room/$name"
}
# same WHAT ONE OTHER
same() {
    [ "$2" = "$3" ] || { printf 'c.sh: %s:\n%s\nand not\n%s\n' "$@" && exit 1; }
}
made install PREFIX="$tree"
library=$tree/lib/libmacheap.so
built calls -O2 "-Wl,-rpath,$tree/lib"
"$room/calls"
built guest -O2 "-Wl,-rpath,$tree/lib"
"$room/guest"
built attach -O2 "-Wl,-rpath,$tree/lib"
"$room/attach"
built damage -O2 "-Wl,-rpath,$tree/lib"
"$room/damage"
built look -O2 "-Wl,-rpath,$tree/lib"
"$room/look"
"$top/tests/checks/looked.py" "$library"
library=$tree/lib/libmacheap.a
built look -O1 -fsanitize=address,undefined
"$room/look"
built calls -O1 -fsanitize=address,undefined
"$room/calls"
built guest -O1 -fsanitize=address,undefined
"$room/guest"
built attach -O1 -fsanitize=address,undefined
"$room/attach"
built brought -O1 -fsanitize=address,undefined
"$room/brought"
built purges -O1 -fsanitize=address,undefined
"$room/purges"
built damage -O1 -fsanitize=address,undefined
"$room/damage"
built random -O1 -fsanitize=address,undefined
for seed in 1 2 4 3 7 11 15; do
    "$room/random" "$room/script" "$room/replies" $seed 25000
    "$program" --limit 8192 < "$room/script" | cmp - "$room/replies"
done
built resources -O1 -fsanitize=address,undefined
for seed in 1 2 3 4; do
    "$room/resources" "$room/script" "$room/replies" $seed 25000 "$room/one" "$room/two"
    "$program" --zone 2048 --limit 4096 --fork "$room/one" --fork "$room/two" < "$room/script" | cmp - "$room/replies"
    cmp "$room/one" "$room/one.new" && cmp "$room/two" "$room/two.new"
done
built named -O1 -fsanitize=address,undefined
"$room/named" "$top/crates/resfork/data/sample.rsrc" > "$room/names"
built all_files -O1 -fsanitize=address,undefined
"$room/all_files"
built partial -O1 -fsanitize=address,undefined
"$room/partial"
built saved_state -O1 -fsanitize=address,undefined
"$room/saved_state"
built zones -O1 -fsanitize=address,undefined
"$room/zones"
built many_files -O1 -fsanitize=address,undefined
"$room/many_files"
built limits -O1 -fsanitize=address,undefined
"$room/limits"
built traps -O1 -fsanitize=address,undefined
"$room/traps"
built threads -O1 -fsanitize=address,undefined -pthread
"$room/threads"
built no_memory -O1 -fsanitize=address,undefined -Wl,--wrap=malloc
"$room/no_memory"
made all OUT="$room/other" HEAP="$room/other/heap.o"
library=$room/other/libmacheap.a
built no_memory -O1 -fsanitize=address,undefined -Wl,--wrap=malloc
"$room/no_memory"
library=$tree/lib/libmacheap.a
built forks -O1 -fsanitize=address,undefined
"$room/forks" "$top/crates/resfork/data/sample.rsrc" > "$room/list"
"$lister" ls --raw "$top/crates/resfork/data/sample.rsrc" | cmp - "$room/list"
"$top/tests/run" --forks "$room/forks" written
"$top/tests/c/examples.sh" "$tree"

"$top/tests/checks/declared.py"
"$top/tests/run" traps
declared=$(cd "$tree/include" && grep -oh '\bm[hfr]_[a-z0-9_]*(' macheap.h macheap_fork.h resman.h | tr -d '(' | sort -u)
same 'the names of libmacheap.a' "$(nm -g --defined-only "$library" | awk 'NF == 3 { print $3 }' | sort)" "$declared"
same 'the names of libmacheap.so' "$(nm -D --defined-only "$tree/lib/libmacheap.so" | awk '{ print $3 }' | sort)" "$declared"
asked=$(nm -u "$library" | awk 'NF == 2 { print $2 }' | sort -u | grep -vxE 'malloc|realloc|free|memcpy|memmove|memset|memcmp|bcmp' || true)
same 'what libmacheap.a asks for' "$asked" ''
pages=$(printf '%s\n' "$declared" macheap macheap_fork macheap_traps mh_find_trap resman | sort)
same 'the man pages' "$(cd "$tree/share/man/man3" && for page in *.3; do echo "${page%.3}"; done | sort)" "$pages"
for page in $pages; do
    [ "$page" = macheap ] || same "what the page $page links to" "$(cat "$tree/share/man/man3/$page.3")" '.so man3/macheap.3'
    grep -qF "$page" "$tree/share/man/man3/macheap.3" || { echo "c.sh: macheap(3) doesn't have $page" && exit 1; }
done
if command -v man > /dev/null; then
    MANROFFOPT=-Tutf8 man -M "$tree/share/man" -P cat mh_wake 2> /dev/null | grep -q 'mh_wake' || { echo 'c.sh: man finds no mh_wake' && exit 1; }
fi
size=$(wc -c < "$library")
[ "$size" -lt 500000 ] || { echo "c.sh: libmacheap.a has $size bytes" && exit 1; }
made install PREFIX=/usr DESTDIR="$room/below"
same 'what is installed below DESTDIR' "$(cd "$room/below/usr" && find . | sort)" "$(cd "$tree" && find . | sort)"
echo "libmacheap.a has $size bytes and $(echo "$declared" | wc -l) functions"
