#!/bin/sh
# Builds target/examples/choice (examples/choice.c over the proved library) and shows a boot choice with it.
#     sh examples/choice.sh                                  a made-up flash with a half word at 0x1C000
#     sh examples/choice.sh BOOTCFG FLASH SHADOW EXTERNAL    images of your own
set -eu
root=$(CDPATH= cd "$(dirname "$0")/.." && pwd)
. "$root/examples/common.sh"
usage "$@"
if [ $# -gt 0 ]; then
    takes 'BOOTCFG FLASH SHADOW EXTERNAL' "$@"
    readable FLASH "$2"
    readable SHADOW "$3"
    readable EXTERNAL "$4"
fi
sh "$root/examples/build.sh" choice

if [ $# -eq 0 ]; then
    # zeroes up to 0x1C000; there watchdog and 16-bit bus, the boot identifier 5A, and the jump address 0x0001C010
    { head -c 114688 /dev/zero; printf '\006\132\000\000\000\001\300\020'; } >"$out/flash.bin"
    # the factory's shadow row: the password, censorship control 55AA, serial boot control 55AA
    printf '\376\355\372\316\312\376\276\357\125\252\125\252' >"$out/shadow.bin"
    head -c 8 /dev/zero >"$out/external.bin"
    set -- 0 "$out/flash.bin" "$out/shadow.bin" "$out/external.bin"
fi
exec "$out/choice" "$@"
