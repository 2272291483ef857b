# Proving and building what a command needs, once for each change of its sources. Sourced by ./pd3120.

# The player, where rt builds it. An archive is built by rt as crates/NAME/out/libNAME.a, and copied to one folder, where
# the headers' users, tests and bindings/rust find both.
PLAYER=crates/play/out/play
ARCHIVE=target/staticlib/libpd3120_c.a
CHARGE=target/staticlib/libcharge_c.a

# For each good build a file, as old as the build's start: what is newer has changed since.
BUILT=target/pd3120

# The named crates and all that they rest on, without those of the kit; of $changed, and of what rests on these, alone
# where that is set.
crates() { # NAME..
    awk -v names="$*" -v changed="${changed-all}" '
        function visit(name,    rests, count, k, due) {
            if (name in seen) return seen[name]
            due = changed == "all" || index(" " changed " ", " " name " ")
            count = split(rests_on[name], rests, " ")
            for (k = 1; k <= count; k++) if (rests[k] in rests_on && visit(rests[k])) due = 1
            if (due) print name
            return seen[name] = due
        }
        { sub(/#.*/, "") }
        split($0, part, ":") == 2 { split(part[1], head, " "); rests_on[head[1]] = part[2] }
        END { count = split(names, name, " "); for (k = 1; k <= count; k++) visit(name[k]) }
    ' crates.txt
}

# Whether something that a crate is built from is newer than a file. Its must-fail edits and what its program is tried on are
# no part of that.
newer() { # FILE NAME..
    since=$1 folders=
    shift
    for name; do
        for part in src specs proofs; do
            [ ! -d "crates/$name/$part" ] || folders="$folders crates/$name/$part"
        done
    done
    # shellcheck disable=SC2086
    [ -n "$folders" ] && [ -n "$(find $folders -newer "$since" -print | head -n 1)" ]
}

# The later of the file that a build made and of its mark here. A build that finds nothing to do makes the mark alone.
latest() { # FILE MARK
    if [ "$2" -nt "$1" ]; then echo "$2"; else echo "$1"; fi
}

# Whether a built file is there and none of its crates has changed since.
fresh() { # FILE NAME..
    file=$1
    shift
    [ -e "$file" ] || return 1
    since=$(latest "$file" "$BUILT/${file##*/}")
    ! [ crates.txt -nt "$since" ] && ! newer "$since" $(crates "$@")
}

# What a build leaves of a crate: of the player the program, of a C boundary the archive, of a library the stamp.
left_of() { # NAME
    case $1 in
    play) echo "$PLAYER" ;;
    *_c) echo "crates/$1/out/lib$1.a" ;;
    *) echo "crates/$1/out/rlib/stamp" ;;
    esac
}

# The crates among all that the named ones rest on that are to be proved, or may be: rt looks at the content.
due() { # NAME..
    changed=
    for crate in $(crates_all "$@"); do
        left=$(left_of "$crate")
        if [ ! -e "$left" ] || newer "$(latest "$left" "$BUILT/$crate")" "$crate"; then
            changed="$changed $crate"
        fi
    done
    crates "$@"
    unset changed
}

crates_all() { # NAME..
    (
        unset changed
        crates "$@"
    )
}

count() { # WORD..
    echo $#
}

# So many seconds in words.
lasting() { # SECONDS
    if [ "$1" -lt 60 ]; then echo "$1 s"; else echo "$(($1 / 60)) min $(($1 % 60)) s"; fi
}

# Says on standard error, as long as it runs, which crate is being proved: rt takes one after the other, and says in its log
# which one begins.
progress() { # NAME..
    began=$(date +%s) said=
    while sleep 1; do
        proved=$(grep -c '^logic=proved ' target/pd3120.log || :)
        now=$(sed -n 's/^rt: chose --jobs [0-9]* for //p' target/pd3120.log | tail -n 1)
        line="pd3120: ${archive:+$archive: }$proved of $# crates proved${now:+, now $now}; $(lasting $(($(date +%s) - began))) so far"
        if [ -t 2 ]; then
            printf '\r\033[K%s' "$line" >&2
        elif [ "$now" != "$said" ]; then
            printf '%s\n' "$line" >&2
            said=$now
        fi
    done
}

# The first errors of a log, with file and line, which rt gives from the crate's folder. What only rests on something that
# was refused is left out.
errors() { # LOG
    awk '
        /^rt: chose --jobs / { at = "crates/" $NF "/"; next }
        /so this cannot be checked/ { next }
        /: error(\[[^]]*\])?: / || /: it is not proved that / {
            sub(/^note: /, "")
            sub(/^\.\//, "")
            print substr(($0 ~ /^(src|specs|proofs)\// ? at : "") $0, 1, 300)
            if (++found == 5) exit
        }
    ' "$1"
}

# Runs a command of the kit in a crate's folder, with its progress, and keeps what it says in a log.
prove() { # WHAT CRATE COMMAND..
    what=$1 of=$2
    shift 2
    : >target/pd3120.log
    # shellcheck disable=SC2086
    progress $due &
    watching=$!
    status=0
    (cd "crates/$of" && "$@") >>target/pd3120.log 2>&1 </dev/null || status=$?
    kill "$watching" 2>/dev/null
    wait "$watching" 2>/dev/null || :
    [ ! -t 2 ] || printf '\r\033[K' >&2
    [ "$status" -eq 0 ] || {
        found=$(errors target/pd3120.log)
        printf '%s\n' "${found:-$(tail -n 5 target/pd3120.log)}" >&2
        stop "$what could not be built; target/pd3120.log has all of it"
    }
}

# Begins a build: says what is due.
begin() { # WHAT NAME..
    command -v rt >/dev/null || stop "rt, the command of the Rattle kit, is not on the PATH"
    what=$1
    shift
    due=$(due "$@")
    total=$(count $(crates "$@"))
    many=$(count $due)
    case $many in
    "$total") printf 'pd3120: %s: all %s crates are to be proved, which takes long the first time\n' "$what" "$total" >&2 ;;
    0) ;;
    *) printf 'pd3120: %s: of %s crates at most %s are to be proved\n' "$what" "$total" "$many" >&2 ;;
    esac
    mkdir -p "$BUILT"
    : >"$BUILT/began"
}

# Marks what was built, and the crates that it rests on.
built() { # FILE NAME..
    touch -r "$BUILT/began" "$BUILT/${1##*/}"
    shift
    for crate in $(crates "$@"); do
        touch -r "$BUILT/began" "$BUILT/$crate"
    done
}

# rt runs what it has built: a player without input, which answers nothing.
player() {
    fresh "$PLAYER" play && return
    begin 'the player' play
    prove 'the player' play rt run
    built "$PLAYER" play
}

# Puts an archive where its users find it, at once or not at all.
place() { # NAME
    mkdir -p target/staticlib
    cp "crates/$1/out/lib$1.a" "target/staticlib/lib$1.new"
    mv "target/staticlib/lib$1.new" "target/staticlib/lib$1.a"
}

# An archive, in its place.
archive() { # FILE NAME
    fresh "$1" "$2" && return
    archive=${1##*/}
    prove "$archive" "$2" rt lib
    archive=
    place "$2"
    built "$1" "$2"
}

# The archives of the box and of the charge.
library() {
    if fresh "$ARCHIVE" pd3120_c && fresh "$CHARGE" charge_c; then return; fi
    begin 'the C libraries' pd3120_c charge_c
    archive "$ARCHIVE" pd3120_c
    archive "$CHARGE" charge_c
}

# A program in Rust, released: the independent model's own, and those that put the library beside it.
rust() { # PACKAGE [OPTION..]
    command -v cargo >/dev/null || stop "cargo, which builds $1, is not on the PATH"
    CARGO_TARGET_DIR=${CARGO_TARGET_DIR:-$PWD/target/cargo}
    export CARGO_TARGET_DIR
    package=$1
    shift
    cargo build --quiet --release --locked --offline --manifest-path "$package/Cargo.toml" "$@" ||
        stop "$package could not be built"
    built=$CARGO_TARGET_DIR/release
}

lib() {
    no_words lib "$@"
    library
    cat <<'TOLD'
target/staticlib/libpd3120_c.a is the library of the box, include/pd3120.h its header, and include/pd3120_registers.h
has the registers by name. libcharge_c.a beside it is the library of the charge, include/pd3120_charge.h its header. To
build a program with both, or with one of them:
    cc -Iinclude PROGRAM.c target/staticlib/libpd3120_c.a target/staticlib/libcharge_c.a -o PROGRAM
examples/c has a program that reads a counter, one that turns a float's position into litres, one that charges the
water between two readings (charge.c), and one that closes a standpipe by its timetable (standpipe.c); examples/rust has
one in Rust, over bindings/rust.
TOLD
}
