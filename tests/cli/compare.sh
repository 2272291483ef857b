# A library that differs from the model: the copy of the command plays with a player that answers ticks wrongly, and
# stand-ins take the place of building. Sourced by tests/cli/run.

printf '#!/bin/sh\n"%s" | sed "s/^tick 0/tick 1/"\n' "$root/crates/play/out/play" >"$copy/crates/play/out/play"
copied 1 compare 007 0200
kept=$(sed -n 's/.*to play it again: .\/pd3120 compare --script //p' "$work/err")
[ -s "$copy/$kept" ] || fail 'no script is kept'
case $(sed -n '$p' "$copy/$kept") in
tick*) ;;
*) fail 'the kept script does not end with the call that differs' ;;
esac
[ "$(grep -c '^tick' "$copy/$kept")" -eq 1 ] || fail 'the kept script is not the shortest'
err_has 'seed 7, kind '
copied 1 compare --script "$copy/$kept"
err_has '  model   tick 0'
err_has '  library tick 1'
cp crates/play/out/play "$copy/crates/play/out/play"
copied 0 compare --script "$copy/$kept"
