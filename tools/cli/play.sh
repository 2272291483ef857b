# Playing scripts of calls. Sourced by ./pd3120.

# The script that a word names, for the folder of the caller; empty for standard input.
find_script() { # WORD
    case $1 in
    - | /dev/stdin)
        script=
        return
        ;;
    /*) script=$1 ;;
    *) script=$called_from/$1 ;;
    esac
    [ -e "$script" ] || stop "$1: there is no such file"
    [ ! -d "$script" ] || stop "$1: this is a folder"
    [ -r "$script" ] || stop "$1: this file may not be read"
}

# Plays standard input. The answers go to descriptor 3 and, with what went wrong beside them, to descriptor 4, where the
# last answer may be cut.
watched() {
    { "$PLAYER" 2>/dev/null || printf '\nended\n' >&4; } |
        { tee /dev/fd/4 >&3 2>/dev/null || printf '\nunwritten %s\n' "$?" >&4; }
}

# Says in one line what was wrong, where something was. 141 is the status of a program whose reader has gone.
judged() { # NAME
    NAME=$1 awk '
        /^error / { if (!wrong++) first = substr($0, 7) }
        /^unwritten / { unwritten = $2 }
        /^ended/ { ended = 1 }
        function say(text) { print "pd3120: " ENVIRON["NAME"] ":" text }
        END {
            if (unwritten && unwritten != 141) say(" the answers could not be written")
            else if (ended && !unwritten) say(" the player ended too soon")
            else if (wrong == 1) say(first)
            else if (wrong && !unwritten) say(first "; " wrong " lines are no calls")
            exit wrong || unwritten || ended
        }
    ' >&2
}

play() {
    [ $# -le 1 ] || refuse play 'takes one file at most'
    find_script "${1:--}"
    player
    [ -z "$script" ] || exec <"$script"
    exec 3>&1
    watched 4>&1 >/dev/null | judged "${1:-standard input}"
}

# Plays a script with its comments. The answers that the file itself states are left out.
demo() {
    no_words demo "$@"
    player
    work=$(mktemp -d)
    trap 'rm -rf "$work"' EXIT
    "$PLAYER" <examples/wellhead.calls >"$work/answers"
    awk -v answers="$work/answers" '
        function short(text) { return length(text) > 48 ? substr(text, 1, 45) "..." : text }
        /^# ->/ { next }
        /^(#|[ \t]*$)/ { print; next }
        { sub(/[ \t]*#.*/, ""); getline answer <answers; printf "%-48s -> %s\n", short($0), short(answer) }
    ' examples/wellhead.calls
}
