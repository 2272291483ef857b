# Measuring the C libraries. Sourced by ./pd3120.

# Every function of the program begins at a multiple of 64 bytes: the model's time depends on where its own do, and would
# else go with the library's size.
PLACED="build.rustflags = ['-C', 'llvm-args=-align-all-functions=6']"

bench() {
    case $#${1:-} in
    0 | 1--quick) ;;
    *) refuse bench 'takes --quick or nothing' ;;
    esac
    library
    rust tests/rust --config "$PLACED"
    "$built/bench" "$@"
    if command -v cc >/dev/null; then
        echo
        cc -O2 -Iinclude tests/c/stack*.c "$ARCHIVE" "$CHARGE" -o target/stack
        target/stack
    fi
    if command -v size >/dev/null; then
        echo
        code box "$ARCHIVE"
        code charge "$CHARGE"
    fi
}

code() { # LIBRARY ARCHIVE
    size "$2" | awk -v library="$1" 'NR > 1 { text += $1 } END { print "code: " text " bytes of text in the archive of the " library }'
}
