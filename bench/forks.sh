#!/bin/sh
# Measures reading of forks of 1 KB to 4 MB with 1 to 8,192 rows, and writing of those with up to 5,458, through the library for C, beside a
# copy of the bytes into new memory (`to_vec`) and one in place (`copy_within`). It fails where reading takes more than three copies into new
# memory and a microsecond for each row; and, of a fork of 700 KB with 500 rows, where it takes more than three in place and a microsecond
# for each row.
# It needs `rt`, `rustc` and the kit's C code for the heap (RATTLE_KIT: the kit's folder).
set -e
top=$(cd "$(dirname "$0")/.." && pwd)
kit=${RATTLE_KIT:-/opt/rattle}
forks="$top/crates/fork_c/out"
(cd "$top/crates/fork_c" && rt lib) > /dev/null
rustc -O "$top/bench/forks.rs" -o "$forks/bench_forks" -L "$forks" -l static=fork_c -L "$kit/c" -l static=libc_c
"$forks/bench_forks"
