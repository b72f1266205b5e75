#!/bin/sh
# Times the program and the library, by hand: sh bench/run.sh [replay|calls|count]
#     replay   the program beside the second program, on the same captures
#     calls    the library's calls beside the same calls in plain C, after a comparison of what they answer
#     count    the instructions of those calls, by valgrind
# With no argument replay and calls. REPLAY and LIBRARY may name another program and another library. All that is made is
# below target/bench.
set -eu
cd "$(dirname "$0")/.."
out=target/bench
replay=${REPLAY:-target/bin/replay}
library=${LIBRARY:-target/staticlib/libboot_assist.a}

case $#:${1-} in
0:) parts='replay calls' ;;
1:replay | 1:calls | 1:count) parts=$1 ;;
*) echo 'usage: sh bench/run.sh [replay|calls|count]' >&2; exit 2 ;;
esac

# All that is missing is named before anything is built.
missing=0
want() { # HOW-TO-GET-IT TEST..
    how=$1
    shift
    "$@" >/dev/null 2>&1 || { echo "bench: $how" >&2; missing=1; }
}
for part in $parts; do
    case $part in
    replay)
        want "$replay is wanted: sh examples/replay.sh builds target/bin/replay" test -x "$replay"
        want 'rustc is wanted' command -v rustc
        ;;
    *)
        want "$library is wanted: sh examples/library.sh builds target/staticlib/libboot_assist.a" test -f "$library"
        want 'cc, a C compiler, is wanted' command -v cc
        ;;
    esac
done
[ "$parts" != count ] || want 'valgrind is wanted' command -v valgrind
[ "$missing" -eq 0 ] || exit 2
mkdir -p "$out"

rust() { rustc --edition 2021 -O -D warnings "$@"; }

time_replay() {
    rust --crate-type rlib --crate-name reference -o "$out/libreference.rlib" reference/lib.rs
    rust --extern reference="$out/libreference.rlib" -o "$out/second" reference/main.rs
    rust -o "$out/make" bench/make.rs
    rust -o "$out/measure" bench/measure.rs
    : >"$out/empty.capture"
    set -- "$out/empty.capture"
    for ports in serial CAN mixed; do
        for size in 1 10; do
            capture=$out/$ports-${size}MB.capture
            "$out/make" "$ports" "${size}000000" >"$capture"
            set -- "$@" "$capture"
        done
    done
    "$out/measure" "$replay" "$out/second" "$@"
}

# Each file is a translation unit of its own, so that no call is inlined.
build_calls() {
    set --
    for unit in plain direct agree calls; do
        cc -std=c11 -Wall -Wextra -Werror -O3 -Iinclude -c -o "$out/$unit.o" "bench/$unit.c"
        set -- "$@" "$out/$unit.o"
    done
    cc -o "$out/calls" "$@" "$library"
}

# The instructions that the calls of a load take, shared among them.
count_calls() {
    echo '| 64 KiB by | ours | plain | direct |'
    echo '|---|--:|--:|--:|'
    for call in byte frame list; do
        items=65552
        [ "$call" != frame ] || items=8194
        printf '| `boot_assist_%s` |' "$call"
        for program in ours plain direct; do
            case $program in
            ours) name=boot_assist_flat_$call ;;
            plain) name=plain_flat_$call ;;
            direct) name=direct_$call ;;
            esac
            valgrind --tool=callgrind --callgrind-out-file=/dev/null --toggle-collect="$name" \
                "$out/calls" "$program" "$call" >"$out/callgrind.log" 2>&1 || { cat "$out/callgrind.log" >&2; exit 1; }
            count=$(sed -n 's/^.* Collected : //p' "$out/callgrind.log")
            printf ' %d |' $(((count + items / 2) / items))
        done
        echo
    done
}

for part in $parts; do
    case $part in
    replay)
        time_replay
        ;;
    calls)
        build_calls
        "$out/calls"
        ;;
    count)
        build_calls
        count_calls
        ;;
    esac
done
