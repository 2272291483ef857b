# The proved library beside the independent model. Sourced by ./pd3120.

# Scripts that showed a difference.
KEPT=target/differences

# A decimal number without its leading zeros, which the shell would take for an octal one's.
decimal() { # NAME WORD DIGITS
    case $2 in
    '' | *[!0-9]*) refuse compare "asks for a decimal number as $1, and not '$2'" ;;
    esac
    number=${2#"${2%%[!0]*}"}
    number=${number:-0}
    [ ${#number} -le "$3" ] || refuse compare "takes at most $3 digits as $1"
}

compare() {
    if [ "${1:-}" = --script ]; then
        shift
        compare_script "$@"
        return
    fi
    [ $# -le 2 ] || refuse compare 'takes a seed and a number of calls'
    decimal SEED "${1-$(od -An -N4 -tu4 /dev/urandom | tr -d ' ')}" 18
    seed=$number
    decimal CALLS "${2-200000}" 9
    calls=$number
    [ "$calls" -gt 0 ] || refuse compare 'asks for a number of CALLS that is not 0'
    sides
    kinds=$("$built/generate" --kinds)
    played=0
    for kind in $kinds; do
        "$built/generate" "$seed" $((calls / $(count $kinds) + 1)) "$kind" >"$work/calls"
        both
        same || keep "seed $seed, kind $kind" "$KEPT/$kind-$seed.calls"
        played=$((played + $(wc -l <"$work/model")))
    done
    printf 'compare: seed %s, %s calls of %s kinds: no difference\n' "$seed" "$played" "$(count $kinds)"
    two_lists
    mkdir -p "$KEPT"
    "$built/compare" "$seed" "$calls" "$KEPT/boundary-$seed.calls" || again "$KEPT/boundary-$seed.calls"
}

# Everything that is compared, and a folder for the work.
sides() {
    player
    library
    rust reference/box
    rust tests/rust
    work=$(mktemp -d)
    trap 'rm -rf "$work"' EXIT
}

# Plays $work/calls through the model and through the library's player.
both() {
    "$built/play" <"$work/calls" >"$work/model"
    "$PLAYER" <"$work/calls" >"$work/library"
}

same() {
    cmp -s "$work/model" "$work/library"
}

# A script of any maker, through the player, the C boundary and the model.
compare_script() {
    [ $# -eq 1 ] || refuse compare 'takes one file after --script'
    find_script "$1"
    sides
    cat ${script:+"$script"} >"$work/calls"
    both
    if ! same; then
        differ "$1"
        exit 1
    fi
    "$built/compare" --script "$work/calls" || exit 1
    printf 'compare: %s, %s answers: no difference\n' "$1" "$(wc -l <"$work/model")"
}

# Says on which answer the two first differ, and gives its number in $at.
differ() { # WHERE
    at=$(awk -v other="$work/library" '(getline answer <other) <= 0 || answer != $0 { print NR; exit }' "$work/model")
    at=${at:-$(($(wc -l <"$work/model") + 1))}
    line=$(awk -v at="$at" '{ text = $0; sub(/#.*/, "", text) } text ~ /[^ \t\r]/ && ++calls == at { print NR; exit }' "$work/calls")
    line=${line:-1}
    {
        printf 'compare: %s, line %s differs:\n' "$1" "$line"
        printf '  call    %s\n' "$(sed -n "${line}p" "$work/calls" | cut -c 1-200)"
        printf '  model   %s\n' "$(sed -n "${at}p" "$work/model" | cut -c 1-200)"
        printf '  library %s\n' "$(sed -n "${at}p" "$work/library" | cut -c 1-200)"
    } >&2
}

# Keeps the script up to the call that differs: no shorter prefix shows it, since the answers before are the same.
keep() { # WHERE FILE
    differ "$1"
    mkdir -p "$KEPT"
    sed "${line}q" "$work/calls" >"$2"
    again "$2"
}

# Says how a kept script is played again.
again() { # FILE
    printf 'compare: the script up to there is kept; to play it again: ./pd3120 compare --script %s\n' "$1" >&2
    exit 1
}

# Demand 3 by running: pairs of lists that are equal once the calls for strangers are struck.
two_lists() {
    "$built/lists" make "$seed" 500 "$work/lists" >/dev/null
    for list in first second; do
        "$PLAYER" <"$work/lists/$list.calls" >"$work/lists/$list.answers"
    done
    "$built/lists" check "$work/lists" || {
        mkdir -p "$KEPT"
        rm -rf "$KEPT/lists-$seed"
        cp -R "$work/lists" "$KEPT/lists-$seed"
        printf 'compare: both lists are kept in %s; to play them again: ./pd3120 compare %s %s\n' "$KEPT/lists-$seed" "$seed" "$calls" >&2
        exit 1
    }
}
