# Building, in a copy of the command with a stand-in for rt, in a folder with blanks. Sourced by tests/cli/run.

copy="$work/a copy of it"
mkdir -p "$copy/tools" "$work/bin" "$work/elsewhere"
cp pd3120 VERSION "$copy"
cp -R tools/cli "$copy/tools"
cp -R examples "$copy"
printf 'low:\nmiddle: low\nplay: middle\npd3120_c staticlib: middle\ncharge_c staticlib: low\n' >"$copy/crates.txt"
for crate in low middle play pd3120_c charge_c; do
    mkdir -p "$copy/crates/$crate/src"
    : >"$copy/crates/$crate/src/lib.rt"
done

# Builds the libraries that have no stamp, as rt does in the folder of a crate that rests on them, and then what the crate is.
# With the file "refused" at the top, the crate "low" is refused.
cat >"$work/bin/rt" <<'RT'
#!/bin/sh
echo "$*" >>../../../rt.calls
if [ -e ../../refused ]; then
    printf '%s\n' 'rt: chose --jobs 2 for low' '1/2' "./proofs/f/Answers.antt:18:19: error: \`returns\`: no proof" \
        "./proofs/g/Answers.antt:5:1: error: \`returns\`: \`f\` was not admitted, so this cannot be checked" \
        'note: src/lib.rt:19:9: it is not proved that what the function ensures holds when it returns (`returns`)' \
        'logic=not-proved functions=1' 'rt: the library low did not build, so nothing above it was checked'
    exit 1
fi
name=${PWD##*/}
mkdir -p out
for crate in low middle ${slow:+"$name"}; do
    [ -e "../$crate/out/rlib/stamp" ] && continue
    echo "rt: chose --jobs 2 for $crate"
    [ -z "${slow:-}" ] || sleep 3
    echo 'logic=proved functions=1'
    mkdir -p "../$crate/out/rlib"
    : >"../$crate/out/rlib/stamp"
done
case $1 in
run) cp "$REAL_PLAYER" out/new && mv out/new "out/$name" && "out/$name" ;;
lib) : >"out/lib$name.a" ;;
esac
RT
printf '#!/bin/sh\n' >"$work/bin/cargo"
chmod +x "$work/bin/rt" "$work/bin/cargo"

# Runs the copy, and says how often it called rt.
copied() { # STATUS COMMAND..
    expected=$1
    shift
    : >"$work/rt.calls"
    run "$expected" env REAL_PLAYER="$root/crates/play/out/play" PATH="$work/bin:$PATH" "$copy/pd3120" "$@"
    calls=$(wc -l <"$work/rt.calls")
}

# The first time all is due; then nothing, from wherever it is called.
copied 0 play "$work/right.calls"
err_has 'the player: all 3 crates are to be proved'
out_is 'read 0 2 0 1 013f' 'tick 0'
copied 0 play "$work/right.calls"
[ "$calls" -eq 0 ] || fail 'a fresh player is built again'
quiet
ln -s "../a copy of it/pd3120" "$work/bin/boxed"
ln -s "$work/bin/boxed" "$work/elsewhere/twice"
cp "$work/right.calls" "$work/elsewhere/here.calls"
for way in "$work/bin/boxed" "$work/elsewhere/twice" boxed './twice'; do
    run 0 env PATH="$work/bin:$PATH" CDPATH="$copy:$work" sh -c 'cd "$1" >/dev/null && "$2" play here.calls' sh "$work/elsewhere" "$way"
    out_is 'read 0 2 0 1 013f' 'tick 0'
    quiet
done
run 0 sh -c 'cd "$1" && sh pd3120 play "$2"' sh "$copy" "$work/right.calls"
quiet

# After a source is touched, one build and no more.
sleep 1
touch "$copy/crates/middle/src/lib.rt"
copied 0 play "$work/right.calls"
[ "$calls" -eq 1 ] || fail 'a touched source is not looked at'
err_has 'the player: of 3 crates at most 2 are to be proved'
copied 0 play "$work/right.calls"
[ "$calls" -eq 0 ] || fail 'after a good build, it is built again'
quiet

# The libraries after the player: only their own crates are due.
copied 0 lib
err_has 'the C libraries: of 4 crates at most 2 are to be proved'
[ "$calls" -eq 2 ] || fail "lib calls rt $calls times"
[ -e "$copy/target/staticlib/libpd3120_c.a" ] && [ -e "$copy/target/staticlib/libcharge_c.a" ] || fail 'the archives are not in one folder'
copied 0 lib
[ "$calls" -eq 0 ] || fail 'fresh libraries are built again'

# Progress, crate by crate.
rm -rf "$copy/target" "$copy"/crates/*/out
slow=1
export slow
copied 0 play "$work/right.calls"
unset slow
err_has '0 of 3 crates proved, now low; '
err_has '1 of 3 crates proved, now middle; '
err_has ' s so far'

# A proof that fails: what is wrong, first, and nothing of what only rests on it.
touch "$copy/crates/low/src/lib.rt" "$copy/refused"
copied 2 play "$work/right.calls"
grep -v '^pd3120: the player: ' "$work/err" | head -n 1 | grep -qx 'crates/low/proofs/f/Answers.antt:18:19: error: `returns`: no proof' ||
    fail 'the first error does not come first'
err_has 'crates/low/src/lib.rt:19:9: it is not proved that'
err_has 'target/pd3120.log has all of it'
! grep -q 'cannot be checked' "$work/err" || fail 'an error that only follows is shown'
rm "$copy/refused"
copied 0 play "$work/right.calls"
