# Read by the tests that count what they check: a folder that goes at the end, `check`, and the last line.
work=$(mktemp -d)
trap 'rm -rf "$work"' EXIT
passed=0
failed=0

# check NAME COMMAND..: counts the command's exit status
check() {
  local name=$1
  shift
  if "$@"; then passed=$((passed + 1)); else failed=$((failed + 1)); echo "failed: $name"; fi
}

# counts: the last line, 'N passed, M failed', and whether all passed
counts() {
  echo "$passed passed, $failed failed"
  [ "$failed" -eq 0 ]
}
