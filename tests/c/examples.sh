#!/bin/sh
# examples.sh PREFIX: builds the examples over the library that `make install PREFIX=..` put there, as pkg-config finds it, and compares what
# they print: in C from C99 on, below valgrind too, and in C++ from C++11 on; by CMake; in Rust, by cargo and by rustc. It says which
# tool is missing, and so what is skipped; where CI is set, a missing compiler is a failure.
set -e
tree=$(realpath "$1")
cd "$(dirname "$0")/../../examples"
export PKG_CONFIG_PATH="$tree/lib/pkgconfig" LD_LIBRARY_PATH="$tree/lib"
room=$(mktemp -d)
trap 'rm -rf "$room"' EXIT
cc=${CC:-cc}
cxx=${CXX:-c++}
strict="-Wall -Wextra -Wpedantic -Werror"
# here TOOL: whether there is one
here() {
    command -v "$1" > /dev/null && return
    echo "tests/c/examples.sh: there is no $1, so its part is skipped" >&2
    return 1
}
compiler() {
    here "$1" || [ -z "$CI" ] || exit 1
    command -v "$1" > /dev/null
}
# prints COMMAND..: it prints what the example has to print
output=c/trap_loop.output
prints() {
    "$@" > "$room/printed"
    cmp "$room/printed" "$output"
}
memcheck="valgrind -q --leak-check=full --show-leak-kinds=all --errors-for-leak-kinds=all --error-exitcode=1"
flags=-I$tree/include
shared="-L$tree/lib -lmacheap"
if here pkg-config; then
    flags=$(pkg-config --cflags macheap)
    shared=$(pkg-config --libs macheap)
fi
# shellcheck disable=SC2086 # the flags are words
{
    for standard in c99 c11 c17 c2x; do
        $cc -std=$standard $strict $flags -fsyntax-only -include macheap_fork.h -include resman.h c/trap_loop.c ../tests/c/forks.c
    done
    $cc -std=c99 $strict -O2 $flags c/trap_loop.c $shared -o "$room/loop"
    readelf -d "$room/loop" | grep -q 'NEEDED.*\[libmacheap.so.1\]'
    prints "$room/loop"
    ! here valgrind || prints $memcheck "$room/loop"
    if compiler "$cxx"; then
        for standard in c++11 c++14 c++17 c++20; do
            $cxx -x c++ -std=$standard $strict $flags -fsyntax-only -include macheap_fork.h -include resman.h c/trap_loop.c
        done
        $cxx -x c++ -std=c++11 $strict -O2 $flags -c c/trap_loop.c -o "$room/loop.o"
        $cxx "$room/loop.o" "$tree/lib/libmacheap.a" -o "$room/loop"
        prints "$room/loop"
    fi
}
# the emulator whose guest has the zone in its own memory
guest=guest
output=$guest/guest_memory.output
# shellcheck disable=SC2086 # the flags are words
{
    $cc -std=c99 $strict -O2 $flags "$guest/guest_memory.c" "$guest/m68k.c" $shared -o "$room/guest"
    prints "$room/guest"
    ! here valgrind || prints $memcheck "$room/guest"
    if compiler "$cxx"; then
        $cxx -x c++ -std=c++11 $strict -O2 $flags "$guest/guest_memory.c" "$guest/m68k.c" -x none "$tree/lib/libmacheap.a" -o "$room/guest"
        prints "$room/guest"
    fi
}
! here m68k-linux-gnu-as || "$guest/assemble.sh" | cmp - "$guest/guest.h"
output=c/trap_loop.output
if here cmake && here pkg-config; then
    cmake -S c -B "$room/cmake" > "$room/log" || { cat "$room/log" && exit 1; }
    cmake --build "$room/cmake" > "$room/log" || { cat "$room/log" && exit 1; }
    prints "$room/cmake/trap_loop"
fi
if here cargo && here pkg-config; then
    (cd ../c/rust && CARGO_TARGET_DIR=$room/cargo cargo test --quiet --offline --locked)
fi
# over the library as it is installed, without cargo; and the guest's emulator, whose processor is the one in C
if compiler rustc; then
    rustc --edition 2024 --crate-type lib --crate-name macheap ../c/rust/src/lib.rs -o "$room/libmacheap.rlib"
    rustc --edition 2024 --extern "macheap=$room/libmacheap.rlib" c/trap_loop.rs -L "$tree/lib" -l static=macheap -o "$room/loop"
    prints "$room/loop"
    $cc -std=c99 -O2 -c "$guest/m68k.c" -o "$room/m68k.o"
    rustc --edition 2024 --extern "macheap=$room/libmacheap.rlib" "$guest/guest_memory.rs" -L "$tree/lib" -l static=macheap \
        -C "link-arg=$room/m68k.o" -o "$room/guest"
    output=$guest/guest_memory.output
    prints "$room/guest"
fi
