#!/usr/bin/env bash
# The whole test. Each part ends in a count of what passed and failed; a part that exits non-zero, or prints no count,
# has failed, whatever it counted. The last line is the sum, 'N passed, M failed', and the exit status is 0 only with M = 0.
set -u
cd "$(dirname "$0")/.."
tests/tool.sh rt cargo gcc make || { echo "0 passed, 1 failed"; exit 1; }

passed=0
failed=0
log=$(mktemp)
said=$(mktemp)
trap 'rm -f "$log" "$said"' EXIT

# part NAME COMMAND..: runs the command, shows what it prints and adds its counts. Counts are lines of the form
# 'N passed, M failed' (rt, our scripts) or 'test result: .. N passed; M failed' (cargo).
part() {
  local name=$1 status p f
  shift
  echo "== $name"
  "$@" 2>&1 | tee "$log"
  status=${PIPESTATUS[0]}
  read -r p f < <(sed -nE 's/^(test result: [A-Za-z]+\. )?([0-9]+) passed[,;] ([0-9]+) failed.*/\2 \3/p' "$log" |
    awk '{ p += $1; f += $2 } END { print p + 0, f + 0 }')
  if [ "$status" -ne 0 ] && [ "$f" -eq 0 ]; then f=1; fi
  if [ "$p" -eq 0 ] && [ "$f" -eq 0 ]; then f=1; echo "$name: nothing was counted"; fi
  passed=$((passed + p))
  failed=$((failed + f))
}

# counted COMMAND..: one check whose exit status is all it says
counted() {
  if "$@"; then echo "1 passed, 0 failed"; else echo "0 passed, 1 failed"; return 1; fi
}

# proved: rt ci. It passes over an edit that cannot be applied, compiled or read; here that is a failure
proved() {
  rt ci 2>&1 | tee "$said"
  [ "${PIPESTATUS[0]}" -eq 0 ] && grep -q '^rt: ok;' "$said" && ! grep -qE '^rt: ok;.*, [0-9]+ bad' "$said"
}

part "proofs, layout, must-fail edits and programs (rt ci)" proved
# nothing that an earlier run has built is trusted; rt ci does the same with what stands in crates/*/out
rm -rf build
part "the programs that rt ci has built" counted tests/build.sh proved
part "each edit fits its files" tests/applies.sh
part "what each edit makes wrong, judged by its log" tests/edits.sh
part "edits across crates" tests/knots.sh
part "names" tests/names.sh
part "no table of marks" tests/marks.sh
part "documents (docs/TRACE.md)" tests/trace.sh
part "second implementation (reference/)" cargo test --quiet --release --offline --manifest-path reference/Cargo.toml
part "comparisons" tests/compare.sh
part "sheets" tests/sheets.sh
part "timelines" tests/timeline.sh
part "sheets and the pictures of their groups" tests/groups.sh
part "README's C program, the header" tests/readme.sh
part "what is said to who uses it wrongly" tests/usage.sh

echo "$passed passed, $failed failed"
[ "$failed" -eq 0 ]
