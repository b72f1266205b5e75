#!/bin/sh
# Builds the proved library, where a source is newer than it, and a program in C over it.
#     sh examples/build.sh NAME     makes target/examples/NAME of examples/NAME.c, with cc or $CC
set -eu
root=$(CDPATH= cd "$(dirname "$0")/.." && pwd)
. "$root/examples/common.sh"
usage "$@"
takes NAME "$@"
readable NAME "$root/examples/$1.c"
sh "$root/examples/library.sh"
mkdir -p "$out"
"${CC:-cc}" -std=c11 -Wall -Wextra -Werror -O2 -I"$root/include" -o "$out/$1" "$root/examples/$1.c" \
    "$root/target/staticlib/libboot_assist.a"
