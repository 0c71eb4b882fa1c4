#!/usr/bin/env bash
# Marks by formula (document 02, paper 3): no table of the sixty-four marks is left in crates/, in code, a definition or a proof. A table is
# four numbers beside each other, each twice the one before; entries that are a shift or a power by a written number; or an array with a
# word of 64 digits for each card. The search must first find tables written in eight ways. Ends in 'N passed, M failed': the eight, and the
# search through crates/.
# Usage: tests/marks.sh [DIR], where DIR holds crates/
set -u
cd "${1:-$(dirname "$0")/..}" || exit 1
work=$(mktemp -d)
trap 'rm -rf "$work"' EXIT
passed=0
failed=0

# tables FILE: where a table stands in it
tables() {
  LC_ALL=C awk '
    # number WORD: what it spells, 64 digits or fewer, or -1
    function number(word,    value, i, digit) {
      sub(/_?u64$/, "", word)
      gsub(/_/, "", word)
      if (word ~ /^[0-9]+$/) return word + 0
      if (word !~ /^0x[0-9a-fA-F]+$/) return -1
      for (i = 3; i <= length(word); i++) value = value * 16 + index("0123456789abcdef", tolower(substr(word, i, 1))) - 1
      return value
    }
    /(<<|\^) *[0-9]+ *(,|]|∷)/ { print FILENAME ":" FNR ": an entry is a power by a written number" }
    /\[u64; *(OBJECTS|64) *]/ { print FILENAME ":" FNR ": a word of 64 digits for each card" }
    {
      gsub(/[^A-Za-z0-9_]/, " ")
      words = split($0, word, " ")
      for (w = 1; w <= words; w++) {
        value = number(word[w])
        if (value < 1) { run = 0; continue }
        run = run && value == 2 * last ? run + 1 : 1
        last = value
        if (run == 4) print FILENAME ":" FNR ": four numbers, each twice the one before"
      }
    }
  ' "$1"
}

# found WAY TEXT: the search finds the table TEXT, written in the way WAY
found() {
  printf '%b\n' "$2" >"$work/planted"
  if [ -n "$(tables "$work/planted")" ]; then passed=$((passed + 1)); return; fi
  failed=$((failed + 1))
  echo "a table is not found: $1"
}

found "a const, an entry a line" 'const MASKS: [u64; N] = [\n    1,\n    2,\n    4,\n    8,\n    16,\n];'
found "a local table in one line" '    let marks = [1u64, 2, 4, 8, 16];'
found "in hexadecimal" '    0x1000, 0x2000, 0x4000, 0x8000,'
found "its last entries" '1_152_921_504_606_846_976, 2305843009213693952, 4611686018427387904, 9223372036854775808_u64'
found "a list of a proof" 'masks = 1 ∷ 2 ∷ 4 ∷ 8 ∷ 16 ∷ []'
found "shifts by written numbers" '    1 << 0,\n    1 << 1,'
found "powers by written numbers" 'masks = 2 ^ 0 ∷ 2 ^ 1 ∷ 2 ^ 2 ∷ []'
found "filled by a loop" '    let mut marks: [u64; OBJECTS] = [0; OBJECTS];'

find crates -path 'crates/*/out' -prune -o \( -name '*.rt' -o -name '*.antt' \) -print >"$work/files"
while read -r file; do tables "$file"; done <"$work/files" >"$work/left"
if [ -s "$work/files" ] && [ ! -s "$work/left" ]; then
  passed=$((passed + 1))
else
  failed=$((failed + 1))
  [ -s "$work/files" ] || echo "there is no file to search"
  cat "$work/left"
fi
echo "$passed passed, $failed failed"
[ "$failed" -eq 0 ]
