#!/bin/sh
# Builds target/examples/head, truck and wire (their .c files over the proved library) and runs a head and a truck on a
# line.
#     sh examples/wire.sh          2,500 made-up bytes at 0x40001000, clean and with one byte damaged, over both ports
#     sh examples/wire.sh PORT START IMAGE SRAM [to|from PLACE]
#                                  an image of your own; examples/wire.c says what the arguments are
set -eu
root=$(CDPATH= cd "$(dirname "$0")/.." && pwd)
. "$root/examples/common.sh"
usage "$@"
if [ $# -gt 0 ]; then
    names='PORT START IMAGE SRAM'
    [ $# -le 4 ] || names="$names to|from PLACE"
    takes "$names" "$@"
    readable IMAGE "$3"
fi
for program in head truck wire; do
    sh "$root/examples/build.sh" "$program"
done
[ $# -eq 0 ] || exec "$out/wire" "$@"

# every byte value, no two neighbours alike; and what SRAM is to hold after the load
octal=$(awk 'BEGIN { for (i = 0; i < 2500; i++) printf "\\%03o", (i * 7 + int(i / 256)) % 256 }')
printf "$octal" >"$out/wire-image.bin"
{ head -c 4096 /dev/zero; cat "$out/wire-image.bin"; head -c 58940 /dev/zero; } >"$out/wire-expected.bin"

# One run. The head and the truck write their lines in any order, so they are sorted.
run() { # NAME PORT [to|from PLACE]
    echo "$1"
    port=$2
    shift 2
    status=0
    rm -f "$out/wire-sram.bin"
    "$out/wire" "$port" 40001000 "$out/wire-image.bin" "$out/wire-sram.bin" "$@" >"$out/wire.log" || status=$?
    LC_ALL=C sort "$out/wire.log"
    if [ -f "$out/wire-sram.bin" ]; then
        cmp "$out/wire-expected.bin" "$out/wire-sram.bin" && echo 'SRAM holds the image'
    fi
    echo "status $status"
}
run 'serial, clean' serial
run 'CAN, clean' can
run 'serial, data byte 1,000 damaged on its way to the head' serial to 1015
run 'CAN, echo of data frame 100 damaged on its way to the truck' can from 1017
