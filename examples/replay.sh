#!/bin/sh
# Builds target/bin/replay, where a source is newer than it, and replays a capture that is written as hex text.
#     sh examples/replay.sh                              examples/captures/can-load.hex
#     sh examples/replay.sh FILE.hex                     another one
# (`rt run -- --help` in crates/replay proves it, writes it to crates/replay/out and runs it for its help)
set -eu
root=$(CDPATH= cd "$(dirname "$0")/.." && pwd)
. "$root/examples/common.sh"
usage "$@"
[ $# -gt 0 ] || set -- "$root/examples/captures/can-load.hex"
takes FILE.hex "$@"
readable FILE.hex "$1"
proved "$root/target/bin/replay" 'the program' replay run -- --help
sh "$root/examples/capture.sh" "$1" >"$out/capture"
"$root/target/bin/replay" <"$out/capture"
