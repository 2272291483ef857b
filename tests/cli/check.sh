# Holding a script to the answers that it states. Sourced by tests/cli/run.

printf '%s\n' 'read 0 0000 # -> read 0 2 0 1 013f' 'tick' '# -> tick 0' 'read 0 000000 # -> read 0 2...' 'tick' >"$work/stated.calls"
run 0 ./pd3120 check "$work/stated.calls"
out_is "check: $work/stated.calls: 3 stated answers, 0 differences, 1 calls that state none"
quiet
run 0 ./pd3120 check - <"$work/stated.calls"

printf '%s\r\n' '# a comment' 'read 0 0000 # -> read 0 2 0 1 013e' 'tikc' 'tick # -> tick 0' '# -> tick 1' >"$work/differs.calls"
run 1 ./pd3120 check "$work/differs.calls"
out_is "$work/differs.calls:2: read 0 0000" '  stated  read 0 2 0 1 013e' '  came    read 0 2 0 1 013f' \
    "$work/differs.calls:3: tikc" '  stated  nothing' '  came    error 3: unknown call' \
    "$work/differs.calls:5: this answer is stated for no call" '  stated  tick 1' '  came    nothing' \
    "check: $work/differs.calls: 2 stated answers, 3 differences, 1 calls that state none"

# A wrong line may be what a script means to show.
printf 'tick x # -> error 1: not a decimal number\n' >"$work/error.calls"
run 0 ./pd3120 check "$work/error.calls"

run 2 ./pd3120 check "$work/none.calls"
run 2 ./pd3120 check
run 2 ./pd3120 check "$work/stated.calls" "$work/stated.calls"
