#!/bin/sh
# Builds target/examples/load (examples/load.c over the proved library) and loads an image with it.
#     sh examples/load.sh                      5,120 made-up bytes at 0x40000000, over CAN and over serial
#     sh examples/load.sh PORT START IMAGE     an image of your own; PORT is can or serial, START is in hex
set -eu
root=$(CDPATH= cd "$(dirname "$0")/.." && pwd)
. "$root/examples/common.sh"
usage "$@"
if [ $# -gt 0 ]; then
    takes 'PORT START IMAGE' "$@"
    readable IMAGE "$3"
fi
sh "$root/examples/build.sh" load
[ $# -eq 0 ] || exec "$out/load" "$@"
awk 'BEGIN { for (i = 0; i < 1280; i++) printf "%04d", i }' >"$out/image.bin"
"$out/load" can 40000000 "$out/image.bin"
"$out/load" serial 40000000 "$out/image.bin"
