#!/usr/bin/env bash
# Whether each edit, of the gate and of `make guards`, still fits the files that it changes: every text that it replaces stands there once.
# It proves nothing and takes seconds: a text that has come twice or gone is told before anything is proved. Ends in 'N passed, M failed'.
set -u
cd "$(dirname "$0")/.." || exit 1
. tests/apply.sh || exit 1
work=$(mktemp -d)
trap 'rm -rf "$work"' EXIT
passed=0
failed=0

# try EDIT FOLDER: applies the edit to copies of the files that it names, whose paths start at the folder
try() {
  rm -rf "$work/copy"
  mkdir "$work/copy"
  sed -n 's/^file: //p' "$1" | sort -u | (cd "$2" && xargs -d '\n' cp --parents -t "$work/copy") 2>/dev/null
  if apply "$1" "$work/copy" >"$work/said" 2>&1; then passed=$((passed + 1)); return; fi
  failed=$((failed + 1))
  echo "$1: $(cat "$work/said")"
}

for edit in crates/*/must-fail/*.edit crates/*/guards/*.edit; do try "$edit" "$(dirname "$(dirname "$edit")")"; done
for edit in tests/knots/*.edit tests/knots/guards/*.edit; do try "$edit" crates; done
echo "$passed passed, $failed failed"
[ "$failed" -eq 0 ] && [ "$passed" -gt 0 ]
