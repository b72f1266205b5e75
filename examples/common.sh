# What the scripts share; each sets root, the repository's directory, and sources this.
script=${0##*/}
out=$root/target/examples

bad() { # WHAT
    printf '%s: %s\n' "$script" "$1" >&2
    exit 2
}

# Prints the comment that the script begins with, where its first argument asks for help.
usage() { # ARGUMENTS..
    case ${1-} in
    -h | -help | --help) sed -n '2,/^[^#]/s/^# \{0,1\}//p' "$0"; exit 0 ;;
    esac
}

# Names an argument that is missing, or the first that is too many.
takes() { # NAMES ARGUMENTS..
    names=$1
    shift
    for name in $names; do
        [ $# -gt 0 ] || bad "$name is missing (sh $0 --help says what it takes)"
        shift
    done
    [ $# -eq 0 ] || bad "superfluous argument: $1 (sh $0 --help says what it takes)"
}

readable() { # NAME FILE
    [ -e "$2" ] || bad "$1: there is no file $2"
    [ ! -d "$2" ] || bad "$1: $2 is a directory"
    [ -r "$2" ] || bad "$1: $2 cannot be read"
}

# Has rt prove a crate and build it, and puts a copy of what it made below target/, where there is none or a source is newer.
proved() { # COPY WHAT CRATE RT-ARGUMENTS..
    made=$1 what=$2 crate=$root/crates/$3
    shift 3
    mkdir -p "$out" "${made%/*}"
    if [ -f "$made" ] && [ -z "$(find "$root/crates.txt" "$root"/crates/*/* -name out -prune -o -newer "$made" -print)" ]; then
        return
    fi
    command -v rt >/dev/null || bad "rt, which proves and builds $what, is not on the path"
    echo "$script: proving and building $what; this takes minutes the first time" >&2
    (cd "$crate" && rt "$@") </dev/null >"$out/rt.log" 2>&1 || { cat "$out/rt.log" >&2; bad "rt $1 failed in $crate"; }
    cp -f "$crate/out/${made##*/}" "$made"
}
