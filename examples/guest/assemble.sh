#!/bin/sh
# assemble.sh: prints guest.h, which has the bytes of guest.s. It needs Debian's binutils-m68k-linux-gnu.
set -e
room=$(mktemp -d)
trap 'rm -rf "$room"' EXIT
tool=m68k-linux-gnu
$tool-as -m68000 "$(dirname "$0")/guest.s" -o "$room/guest.o"
$tool-ld -Ttext=0x8000 --entry=0x8000 "$room/guest.o" -o "$room/guest"
$tool-objcopy -O binary -j .text "$room/guest" "$room/bytes"
printf '/* guest.s as bytes, which assemble.sh printed */\n#include <stdint.h>\n\nstatic const uint8_t guest[] = {\n'
od -An -v -tx1 -w16 "$room/bytes" | sed 's/ \(..\)/ 0x\1,/g; s/^/   /'
echo '};'
