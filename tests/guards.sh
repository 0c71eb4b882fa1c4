#!/usr/bin/env bash
# The longer list of edits that the prover must refuse: crates/NAME/guards/*.edit, tried and judged as must-fail edits are in a copy of the
# repository (tests/edits.sh), and tests/knots/guards/*.edit, tried by tests/knots.sh. The gate tries crates/NAME/must-fail and tests/knots
# alone, since each edit rechecks its crate. Each of the files must be tried and refused: a crate that fails its own check, an edit that is
# not refused or cannot be applied, and an rt that is missing or killed leave files that are not, and each counts as a failure. Ends in 'N
# passed, M failed': N files refused, names judged and wrong machines.
set -u
cd "$(dirname "$0")/.." || exit 1
copy=$(mktemp -d)
trap 'rm -rf "$copy"' EXIT
tar -c --exclude=out --exclude=must-fail crates crates.txt | tar -x -C "$copy" || exit 1
count=0
for guards in "$copy"/crates/*/guards; do
  [ -d "$guards" ] || continue
  mv "$guards" "$(dirname "$guards")/must-fail"
  count=$((count + $(find "$(dirname "$guards")/must-fail" -name '*.edit' | wc -l)))
done
if [ "$count" -eq 0 ]; then
  echo "there is no guard"
  echo "0 passed, 1 failed"
  exit 1
fi
passed=0
failed=0

# add STATUS: adds the last count in the log; a part that counted nothing, or failed and counted no failure, is one failure
add() {
  local p f
  read -r p f < <(sed -nE 's/^([0-9]+) passed, ([0-9]+) failed$/\1 \2/p' "$copy/log" | tail -n 1)
  if [ "$1" -ne 0 ] && [ "${f:-0}" -eq 0 ]; then f=1; fi
  passed=$((passed + ${p:-0}))
  failed=$((failed + ${f:-1}))
}

tests/edits.sh "$copy" 2>&1 | tee "$copy/log"
add "${PIPESTATUS[0]}"
refused=$(sed -nE 's/^([0-9]+) of [0-9]+ edits refused$/\1/p' "$copy/log")
echo "guards: ${refused:-0} of $count files refused" | tee "$copy/log"
echo "${refused:-0} passed, $((count - ${refused:-0})) failed" >>"$copy/log"
add 0
EDITS=tests/knots/guards tests/knots.sh 2>&1 | tee "$copy/log"
add "${PIPESTATUS[0]}"
echo "$passed passed, $failed failed"
[ "$failed" -eq 0 ]
