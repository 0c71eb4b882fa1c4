#!/usr/bin/env bash
# soak.sh [SEED]: a longer look at the built programs, outside the gate: seeded scripts through `cards` and the C entry, and seeded sheets
# through `levels` and the C functions, beside the reference; the claims of demands 2 and 3 on listings of `cards`, the C host under
# sanitizers on damaged scripts, and `cards`, `levels` and the C functions on sheets under valgrind. Stops at the first fault.
# docs/TESTING.md has figures.
set -eu
cd "$(dirname "$0")/.."
tests/tool.sh rt cargo gcc make valgrind
seed=${1:-1000}
bin=reference/target/release
work=$(mktemp -d)
trap 'rm -rf "$work"' EXIT
cargo build --quiet --release --offline --manifest-path reference/Cargo.toml
tests/build.sh cards levels lib host
tests/linked.sh sheets build/libcards.a
lists=reference/target/sheets/release/compare-sheets

echo "== scripts of any length, and quick ones: cards"
"$bin/compare" --limit 60 --seed "$seed" --count 2000 build/cards
"$bin/compare" --quick --seed "$((seed + 100000))" --count 100000 build/cards
echo "== the same through the C entry"
"$bin/compare" --frames --limit 60 --seed "$seed" --count 2000 build/cards_host frames
"$bin/compare" --frames --quick --seed "$((seed + 100000))" --count 100000 build/cards_host frames
echo "== input in pieces"
"$bin/compare" --pieces --seed "$seed" --count 500 build/cards
echo "== sheets: levels, whole and in pieces"
"$bin/compare" --sheets --seed "$seed" --count 20000 build/levels
"$bin/compare" --sheets --pieces --seed "$seed" --count 200 build/levels
echo "== sheets through the C functions, lists of several lengths"
"$lists" --seed "$seed" --count 1000000
echo "== claims of demands 2 and 3 on listings of cards, 1 to 16 cores"
for cores in 1 2 3 5 8 12 16; do
  "$bin/make-script" "$((seed + cores))" "$cores" 64 60000 > "$work/script"
  build/cards < "$work/script" > "$work/listing"
  "$bin/check-run" "$work/listing" < "$work/script"
done
if [ -x build/cards_host_checked ]; then
  echo "== the C host with sanitizers, damaged scripts"
  "$bin/compare" --frames --quick --seed "$((seed + 300000))" --count 20000 build/cards_host_checked frames
fi
echo "== cards under valgrind"
"$bin/make-script" "$seed" 16 64 20000 > "$work/script"
head -c 65536 /dev/urandom > "$work/garbage"
for input in "$work/script" "$work/garbage" examples/every-answer.script /dev/null; do
  valgrind --quiet --error-exitcode=9 build/cards < "$input" > "$work/listing"
  "$bin/cards-reference" < "$input" | cmp - "$work/listing"
done
echo "== levels under valgrind"
for input in 1 2 3 4 5 6 7 8; do "$bin/make-sheet" "$((seed + input))" > "$work/sheet.$input"; done
for input in "$work"/sheet.* "$work/garbage" "$work/script" /dev/null; do
  valgrind --quiet --error-exitcode=9 build/levels < "$input" > "$work/levels"
  "$bin/levels-reference" < "$input" | cmp - "$work/levels"
done
echo "== the C functions on sheets under valgrind"
valgrind --quiet --error-exitcode=9 "$lists" --seed "$seed" --count 20000
echo "no fault"
