# Holding a script to the answers that it states. Sourced by ./pd3120.

check() {
    [ $# -eq 1 ] || refuse check 'takes one file'
    find_script "$1"
    player
    work=$(mktemp -d)
    trap 'rm -rf "$work"' EXIT
    cat ${script:+"$script"} >"$work/calls"
    "$PLAYER" <"$work/calls" >"$work/answers" || stop "$1: the player ended too soon"
    NAME=$1 ANSWERS=$work/answers LC_ALL=C awk -f tools/cli/check.awk "$work/calls"
}
