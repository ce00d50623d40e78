#!/bin/sh
# build_c.sh FOLDER [FLAG..]: proves crates/macheap_c and crates/fork_c and builds them as libmacheap_c.a and libfork_c.a in that folder,
# for every processor of x86-64, or as rattle's flags say: --cpu x86-64-v3, say. (RATTLE_KIT: the kit's folder.) Where `rt` has kept
# libraries of its own it is `rt lib` that does so; after `rt ci`, which keeps none, it is done over those that `rt ci` has proved, which
# `rt lib` would prove once more.
# shellcheck disable=SC2086 # the flags are words
set -e
top=$(cd "$(dirname "$0")/../.." && pwd)
kit=${RATTLE_KIT:-/opt/rattle}
folder=$(realpath "$1")
shift
flags=${*:---cpu x86-64}
# build CRATE: over what lies in out/rlib of the crates below it
build() {
    crate=$1
    set --
    for name in std $(sed -n "s/^$crate staticlib: //p" "$top/crates.txt"); do
        if [ -d "$top/crates/$name" ]; then
            set -- "$@" --extern "$name=$top/crates/$name/out/rlib/$name.rlib"
        else
            set -- "$@" --extern "$name=$kit/rlibs/$name.rlib"
        fi
    done
    for below in "$top"/crates/*/out/rlib "$kit/rlibs"; do
        set -- "$@" -L "dependency=$below"
    done
    (cd "$top/crates/$crate" && "$kit/bin/rattle" build --crate-name "$crate" src/lib.rt --crate-type staticlib --jobs 1 \
        --antt-project "$kit/rattle/logic/antt-project.json" --logic-built "$kit/logic_built" --toolchain "$kit/toolchain" \
        $flags "$@" -o "$folder/lib$crate.a")
}
for crate in macheap_c fork_c; do
    if cat "$top"/crates/*/out/rlib/stamp > /dev/null 2>&1; then
        (cd "$top/crates/$crate" && rt lib $flags && cp "out/lib$crate.a" "$folder")
    else
        build "$crate"
    fi
done
