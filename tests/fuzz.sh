#!/usr/bin/env bash
# fuzz.sh [SEED [COUNT]]: the comparisons of `cards` and of the C entry with the reference on COUNT scripts of any length, COUNT
# quick ones and COUNT / 100 in pieces, and of `levels` and of the C functions on COUNT sheets and COUNT / 100 in pieces, from the seed SEED
# on, fewest lines first. Stops at the first difference and prints the shortest script or sheet that shows it: a choice of its lines such
# that every smaller choice was tried. Where that takes long, the shortest so far is printed first.
set -eu
cd "$(dirname "$0")/.."
seed=${1:-$(date +%s)}
count=${2:-20000}
usage="usage: make fuzz SEED=NUMBER COUNT=NUMBER"
[[ $seed =~ ^(0|[1-9][0-9]{0,17})$ ]] || { echo "SEED is a number of at most 18 digits, not '$seed'; $usage" >&2; exit 2; }
[[ $count =~ ^[1-9][0-9]{0,8}$ ]] || { echo "COUNT is a number of at most 9 digits, from 1, not '$count'; $usage" >&2; exit 2; }
tests/tool.sh rt cargo gcc make
compare=reference/target/release/compare
tests/build.sh cards levels lib host
cargo build --quiet --release --offline --manifest-path reference/Cargo.toml
tests/linked.sh sheets build/libcards.a

# compares WHAT OPTIONS.. PROGRAM..: what is compared, then how it went
compares() {
  echo "$1:"
  shift
  "$compare" --seed "$seed" "$@"
}

echo "seed $seed, count $count; all that is printed is compared with what the second implementation (reference/) prints"
few=$((count / 100 + 1))
enough=$((count < 20000 ? 20000 : count))
compares "build/levels, $count sheets" --sheets --count "$count" build/levels
compares "build/levels, $few sheets, read in pieces of several sizes" --sheets --pieces --count "$few" build/levels
echo "the C functions, $enough sheets and all one byte from two of them, each with lists of several lengths:"
reference/target/sheets/release/compare-sheets --seed "$seed" --count "$enough"
compares "build/cards, $count scripts, most of them short" --quick --count "$count" build/cards
compares "the C entry, the same scripts" --frames --quick --count "$count" build/cards_host frames
compares "build/cards, $few short scripts, read in pieces of 1, 2, 3, .. 66 bytes" --pieces --count "$few" build/cards
compares "build/cards, $count scripts of any length" --limit 60 --count "$count" build/cards
compares "the C entry, the same scripts" --frames --limit 60 --count "$count" build/cards_host frames
