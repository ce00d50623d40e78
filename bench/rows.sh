#!/bin/sh
# Measures `mf_rows` of the library for C beside a plain loop in C that fills the same lists, on forks of 1,282 and 5,458 resources.
# It needs `rt`, a C compiler and the kit's C code for the heap (RATTLE_KIT: the kit's folder).
set -e
top=$(cd "$(dirname "$0")/.." && pwd)
kit=${RATTLE_KIT:-/opt/rattle}
forks="$top/crates/fork_c/out"
(cd "$top/crates/fork_c" && rt lib) > /dev/null
cc -O2 -I "$top/c/include" -o "$forks/bench_rows" "$top/bench/rows.c" "$forks/libfork_c.a" "$kit/c/liblibc_c.a"
"$forks/bench_rows"
