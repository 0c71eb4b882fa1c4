#!/usr/bin/env bash
# Names. No name is defined twice in crates/*/specs: a definition, a record or a case of a data type. Each file of laws (crates/*/proofs,
# but for the functions' own Proof.antt, Invariants.antt and Answers.antt, and the lists Lib.antt) is named in docs/ARCHITECTURE.md. A public
# function asks nothing: one with a `requires` stands in a module `inside`, or is the crate's own. Ends in 'N passed, M failed': N names, files and public functions, M faults.
# Usage: tests/names.sh [DIR], where DIR holds crates/ and docs/
set -u
cd "${1:-$(dirname "$0")/..}" || exit 1
work=$(mktemp -d)
trap 'rm -rf "$work"' EXIT
awk '
  /^pub (record|data) / { print $3, FILENAME; inside = $2; next }
  /^(unfoldable |abbrev )?(pub )?[^ :()-]+ :/ { n = 1; while ($n ~ /^(unfoldable|abbrev|pub)$/) n++; print $n, FILENAME; inside = ""; next }
  /^[^ ]/ { inside = "" }
  # the cases of a data type, several of which may stand before one colon
  inside == "data" && /^  [A-Za-z]/ { for (n = 1; n <= NF && $n != ":"; n++) print $n, FILENAME }
' crates/*/specs/*.antt >"$work/names"
passed=0
failed=0
while read -r count name; do
  if [ "$count" -eq 1 ]; then passed=$((passed + 1)); continue; fi
  failed=$((failed + 1))
  echo "$name is defined $count times in specs: $(awk -v name="$name" '$1 == name { print $2 }' "$work/names" | sort -u | tr '\n' ' ')"
done < <(cut -d' ' -f1 "$work/names" | sort | uniq -c)
while read -r file; do
  name=$(basename "$file" .antt)
  if grep -qE "(\`|[ ,/])$name(\`|[ ,/.;])" docs/ARCHITECTURE.md; then passed=$((passed + 1)); continue; fi
  failed=$((failed + 1))
  echo "$file is not named in docs/ARCHITECTURE.md"
done < <(find crates/*/proofs -name '*.antt' ! -name Proof.antt ! -name Invariants.antt ! -name Answers.antt ! -name Lib.antt | sort)
# a function's signature and contract end where its body begins, a brace alone on its line or at the end of its first
find crates/*/src -name '*.rt' ! -path '*/inside/*' ! -name inside.rt -exec awk '
  /^ *pub (extern "C" )?fn / { name = $0; sub(/^.*fn /, "", name); sub(/\(.*/, "", name); open = 1; asks = 0 }
  open && /^ *requires / { asks = 1 }
  open && /^ *\{|\{$/ { print asks, name, FILENAME; open = 0 }
' {} + | sort >"$work/functions"
while read -r asks name file; do
  if [ "$asks" -eq 0 ]; then passed=$((passed + 1)); continue; fi
  failed=$((failed + 1))
  echo "$file: $name is public and has a requires"
done <"$work/functions"
echo "$passed passed, $failed failed"
[ "$failed" -eq 0 ] && [ "$passed" -gt 0 ]
