#!/bin/sh
# Builds target/staticlib/libboot_assist.a, the proved library for C, where a source is newer than it.
#     sh examples/library.sh
# (`rt lib` in crates/boot_assist proves it and writes it to crates/boot_assist/out)
set -eu
root=$(CDPATH= cd "$(dirname "$0")/.." && pwd)
. "$root/examples/common.sh"
usage "$@"
takes '' "$@"
proved "$root/target/staticlib/libboot_assist.a" 'the library' boot_assist lib
