# The words of a command. Sourced by tests/cli/run.

run 0 ./pd3120
grep -q '^usage: ' "$work/out" || fail 'no usage'
run 0 ./pd3120 help
cp "$work/out" "$work/page"
run 0 ./pd3120 --help
cmp -s "$work/page" "$work/out" || fail '--help is not help'
for text in 16384 4096 'Before the first power' 'error LINE: WHY' 'not 0 or 1' 'UTF-8'; do
    grep -qF -- "$text" "$work/page" || fail "help does not have: $text"
done
for command in play check demo lib compare bench; do
    run 0 ./pd3120 "$command" --help
    grep -q "^usage: ./pd3120 $command" "$work/out" || fail "$command --help has no usage of it"
    grep -qF "./pd3120 $command" "$work/page" || fail "help does not name $command"
    cp "$work/out" "$work/own"
    run 0 ./pd3120 help "$command"
    cmp -s "$work/own" "$work/out" || fail "help $command is not $command --help"
done
run 2 ./pd3120 paly
err_has "there is no command 'paly'"
run 2 ./pd3120 help paly
for words in 'play a b' 'demo a' 'lib a' 'bench a' 'bench --quick a' 'compare 1 2 3' 'compare --script' '--version a'; do
    # shellcheck disable=SC2086
    run 2 ./pd3120 $words
    one_line
done

# Numbers of compare.
run 2 ./pd3120 compare ''
err_has "asks for a decimal number as SEED, and not ''"
run 2 ./pd3120 compare 1 ''
err_has "asks for a decimal number as CALLS, and not ''"
run 2 ./pd3120 compare x
run 2 ./pd3120 compare 1 -5
run 2 ./pd3120 compare 1 00
err_has 'a number of CALLS that is not 0'
run 2 ./pd3120 compare 1234567890123456789
err_has 'takes at most 18 digits as SEED'
run 2 ./pd3120 compare 1 1234567890
err_has 'takes at most 9 digits as CALLS'

run 0 ./pd3120 --version
out_is "pd3120 $(cat VERSION)" "$(rt version)"

# A reader that has gone.
run 0 sh -c './pd3120 bench --quick | head -n 1'
quiet
