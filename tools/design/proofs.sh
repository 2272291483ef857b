# a row for each crate: folders' Answers.antt, Invariants.antt, pub answers, pub invariants/measures, other proof files, lines in proofs/, must-fail edits
for c in crates/*/; do n=$(basename $c)
  A=$(find $c/proofs -name Answers.antt 2>/dev/null); I=$(find $c/proofs -name Invariants.antt 2>/dev/null)
  echo "$n $(echo $A | wc -w) $(echo $I | wc -w) $(cat $A /dev/null | grep -cE '^(abbrev )?pub ') $(cat $I /dev/null | grep -cE '^(abbrev )?pub ') $(find $c/proofs -name '*.antt' 2>/dev/null | grep -vcE '/(Answers|Invariants).antt$') $(find $c/proofs -name '*.antt' -exec cat {} + 2>/dev/null | wc -l) $(ls $c/must-fail/*.edit 2>/dev/null | wc -l)"
done
