#!/bin/sh
# Measures whole calls from C that do little in the zone (`border.c`), three times: the least is printed. Next come whole traps on a
# zone in memory of the host (`trap.c`), calls on a zone of up to a million blocks (`large.c`), and openings of forks (`open.c`). It fails
# where mh_first_block, which only goes to the Memory Manager and back, takes more than 20 nanoseconds: on 25 November 2026, with twice as
# much work as processors, it took 2. The first two count processor time, the others the time that passes.
# It needs `rt`, a C compiler and the kit's C code for the heap (RATTLE_KIT: the kit's folder).
set -e
top=$(cd "$(dirname "$0")/.." && pwd)
kit=${RATTLE_KIT:-/opt/rattle}
room=$(mktemp -d)
trap 'rm -rf "$room"' EXIT
(cd "$top/crates/macheap_c" && rt lib) > /dev/null
${CC:-cc} -std=c11 -O2 -I"$top/c/include" "$top/bench/border.c" "$top/crates/macheap_c/out/libmacheap_c.a" \
    "$kit/c/liblibc_c.a" -o "$room/border"
for _ in 1 2 3; do
    "$room/border"
done > "$room/taken"
awk '!($1 in least) { least[$1] = $2; name[++count] = $1 }
    $2 < least[$1] { least[$1] = $2 }
    END { for (n = 1; n <= count; n++) printf "%-19s %5.1f ns\n", name[n], least[name[n]] }' "$room/taken"
for name in trap large open; do
    ${CC:-cc} -std=c11 -O2 -I"$top/c/include" "$top/bench/$name.c" "$top/crates/macheap_c/out/libmacheap_c.a" \
        "$kit/c/liblibc_c.a" -o "$room/$name"
    "$room/$name"
done
