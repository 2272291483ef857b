# Playing: statuses, where a script comes from, what a line may be. Sourced by tests/cli/run.

printf 'read 0 0000\ntick\n' >"$work/right.calls"
printf 'read 0 0000\nraed 0 0000\ntick x\ntick\n' >"$work/wrong.calls"

run 0 ./pd3120 play "$work/right.calls"
out_is 'read 0 2 0 1 013f' 'tick 0'
quiet

# A wrong line: the others are played, and one line says so.
run 1 ./pd3120 play "$work/wrong.calls"
out_is 'read 0 2 0 1 013f' 'error 2: unknown call' 'error 3: not a decimal number' 'tick 0'
one_line
err_has "$work/wrong.calls:2: unknown call; 2 lines are no calls"
printf 'raed 0 0000' >"$work/one.calls"
run 1 ./pd3120 play "$work/one.calls"
one_line
err_has "$work/one.calls:1: unknown call"

# Output that can't be written, and a reader that has gone.
if [ -w /dev/full ]; then
    run 1 sh -c './pd3120 play "$1" >/dev/full' sh "$work/right.calls"
    one_line
    err_has 'the answers could not be written'
fi
awk 'BEGIN { for (i = 0; i < 50000; i++) print "read 0 0000" }' >"$work/long.calls"
run 0 sh -c './pd3120 play "$1" | head -n 1' sh "$work/long.calls"
out_is 'read 0 2 0 1 013f'
quiet

# Where a script comes from.
for way in 'play' 'play -' 'play /dev/stdin' 'play /dev/fd/0'; do
    # shellcheck disable=SC2086
    run 0 ./pd3120 $way <"$work/right.calls"
    out_is 'read 0 2 0 1 013f' 'tick 0'
done
mkfifo "$work/pipe"
cat "$work/right.calls" >"$work/pipe" &
run 0 ./pd3120 play "$work/pipe"
out_is 'read 0 2 0 1 013f' 'tick 0'
run 0 sh -c './pd3120 play /dev/fd/9 9<"$1"' sh "$work/right.calls"
out_is 'read 0 2 0 1 013f' 'tick 0'
run 0 sh -c 'cat "$1" | ./pd3120 play' sh "$work/right.calls"
out_is 'read 0 2 0 1 013f' 'tick 0'

run 2 ./pd3120 play "$work"
err_has 'this is a folder'
one_line
run 2 ./pd3120 play "$work/none.calls"
err_has 'there is no such file'
one_line
# Root may read every file, so that another user has to try.
cp "$work/right.calls" "$work/closed.calls"
chmod 0 "$work/closed.calls"
if [ "$(id -u)" -ne 0 ]; then
    run 2 ./pd3120 play "$work/closed.calls"
    err_has 'this file may not be read'
elif command -v setpriv >/dev/null && setpriv --reuid=65534 --clear-groups sh -c 'cd "$1" && [ -r pd3120 ]' sh "$root" 2>/dev/null; then
    chmod go+x "$work"
    run 2 setpriv --reuid=65534 --clear-groups ./pd3120 play "$work/closed.calls"
    err_has 'this file may not be read'
fi

# A UTF-8 mark at the start, and marks of hexadecimal numbers.
printf '\357\273\277read 0 0000\n' >"$work/marked.calls"
run 0 ./pd3120 play "$work/marked.calls"
out_is 'read 0 2 0 1 013f'
printf 'read $0 0000\nread 0x00 0000\nwrite 0Xd 01\n' >"$work/marks.calls"
run 0 ./pd3120 play "$work/marks.calls"
out_is 'read 0 2 0 1 013f' 'read 0 2 0 1 013f' 'write 0 0 0 1'

# The terminals, looked at without a wire call.
printf 'write d 01\nwrite 29 00100000\nwrite 20 80\noutputs\noutputs 1\n' >"$work/outputs.calls"
run 1 ./pd3120 play "$work/outputs.calls"
out_is 'write 0 0 0 1' 'write 0 0 0 1' 'write 0 0 0 1' 'outputs 0002' 'error 5: wrong number of words'

# An answer comes as soon as it can.
mkfifo "$work/asked" "$work/answered"
./pd3120 play "$work/asked" >"$work/answered" 2>"$work/err" &
exec 8<"$work/answered" 7>"$work/asked"
echo 'read 0 0000' >&7
read -r answer <&8
[ "$answer" = 'read 0 2 0 1 013f' ] || fail "the first answer to a waiting script is '$answer'"
exec 7>&- 8<&-
wait
