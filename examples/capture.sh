#!/bin/sh
# Makes a capture from hex text: two digits a byte, spaces and lines as you like, and '#' begins a comment.
#     sh examples/capture.sh FILE.hex > FILE
# (where xxd is installed: sed 's/#.*//' FILE.hex | xxd -r -p)
set -eu
export LC_ALL=C
root=$(CDPATH= cd "$(dirname "$0")/.." && pwd)
. "$root/examples/common.sh"
usage "$@"
takes FILE.hex "$@"
readable FILE.hex "$1"
# A shell drops a zero byte, and a '?' is no hex digit either.
hex=$(tr '\000' '?' <"$1" | sed 's/#.*//' | tr -d ' \t\r\n')
case $hex in
*[!0-9A-Fa-f]*) bad "$1 has something that is no hex digit" ;;
esac
[ $((${#hex} % 2)) -eq 0 ] || bad "$1 has an odd number of hex digits"
# As octal escapes, 512 bytes a line, each of which printf turns into its bytes.
octal=$(printf '%s\n' "$hex" | fold -w 1024 | awk '
    function digit(at) { return index("0123456789ABCDEF", toupper(substr($0, at, 1))) - 1 }
    { for (at = 1; at < length($0); at += 2) printf "\\%03o", 16 * digit(at) + digit(at + 1); print "" }')
set -f
for line in $octal; do printf "$line"; done
