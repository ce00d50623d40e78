#!/usr/bin/env bash
# run.sh FOLDER: runs the programs of programs.c on a 68000 of others, Unicorn, over the library in FOLDER, in both modes, and the same source over
# malloc: what they show has to be the same. The gate leaves it out. FOLDER has libmacheap.a, as `make -C c` leaves it. Needs Debian's
# gcc-m68k-linux-gnu and libunicorn-dev.
set -euo pipefail
library=$(realpath "$1")/libmacheap.a
cd "$(dirname "$0")"
room=$(mktemp -d)
trap 'rm -rf "$room"' EXIT
strict="-O1 -Wall -Wextra -Werror"
# shellcheck disable=SC2086 # these are words
m68k-linux-gnu-gcc -m68000 $strict -ffreestanding -fno-builtin -nostdlib -fno-pic -T guest.ld -Wl,--build-id=none,--no-warn-rwx-segments \
    programs.c -o "$room/guest.elf"
m68k-linux-gnu-objcopy -O binary "$room/guest.elf" "$room/guest.bin"
# shellcheck disable=SC2086
cc -std=c11 $strict native.c programs.c -o "$room/native"
# shellcheck disable=SC2086
cc -std=c11 $strict -I../../c/include host.c "$library" -lunicorn -o "$room/host"
# how large the zone of each program may be, and whether something has to happen in it: purges, or asks of the grow-zone procedure
limits=(0x10000 0x8000 0x8000 0xA000 0x14000 0x8000 0x8000 0x10000 0x8000 0x80000)
happens=(3 4)
wrong=0
for mode in 24 32; do
    for program in "${!limits[@]}"; do
        "$room/native" "$program" >"$room/wanted"
        if ! "$room/host" "$room/guest.bin" "$program" "$mode" "${limits[program]}" >"$room/shown" 2>"$room/happened" ||
            ! cmp "$room/wanted" "$room/shown"; then
            echo "guests: program $program with $mode bits shows another thing than over malloc:"
            diff "$room/wanted" "$room/shown" || true
            cat "$room/happened"
            wrong=$((wrong + 1))
        elif [[ " ${happens[*]} " == *" $program "* ]] && [ "$(cat "$room/happened")" -lt 10 ]; then
            echo "guests: program $program with $mode bits has too much room"
            wrong=$((wrong + 1))
        fi
    done
done
echo "guests: $((2 * ${#limits[@]} - wrong)) runs show what they show over malloc, $wrong don't"
[ "$wrong" = 0 ]
