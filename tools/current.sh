# Parts of the scripts that run what was built. They want $top, the repository's folder.

# Ends a script with what is wrong, in one line.
refuse() {
    echo "${0##*/}: $1" >&2
    exit 2
}

# Prints what stands at the head of this script, where its one word asks for that, and ends it.
tell_usage() {
    case $#:${1-} in
    1:--help | 1:-h)
        sed -n '2,/^set/{/^#/s/^# \{0,1\}//p;}' "$0"
        exit 0
        ;;
    esac
}

# Refuses where one of these isn't on the path.
want_on_path() {
    for needed; do
        command -v "$needed" > /dev/null || refuse "there is no '$needed' on the path"
    done
}

# Whether a program or an archive was built of the sources as they stand: a mark beside it is as old as the beginning of its build.
is_current() {
    [ -e "$1" ] && [ -e "$1.built" ] &&
        [ -z "$(find "$top/crates.txt" "$top"/crates/*/src "$top"/crates/*/specs "$top"/crates/*/proofs -newer "$1.built" 2>/dev/null | head -n 1)" ]
}

# Builds the program of a crate in out/, with checks in place of a proof, unless the one that is there is current.
build_checked() {
    ! is_current "$top/out/$1" || return 0
    want_on_path rt python3
    mkdir -p "$top/out" 2> /dev/null && [ -w "$top/out" ] || { echo "$1: $top/out can not be written" >&2; return 2; }
    (
        started=$(mktemp "$top/out/$1.XXXXXX") || exit 2
        trap 'rm -f "$started"' EXIT
        trap 'exit 130' INT TERM HUP
        "$top/tools/checked" "$top/out/$1" "$1" || exit 2
        mv "$started" "$top/out/$1.built"
    )
}
