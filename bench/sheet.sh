#!/usr/bin/env bash
# Reading a sheet and working out its levels, by the C function, by the reference, and as programs: instructions counted by callgrind.
# Prints tables of docs/BENCHMARKS.md. The same numbers on every run.
set -eu
shopt -s inherit_errexit
cd "$(dirname "$0")/.."
tests/tool.sh rt cargo gcc make valgrind

out=build/bench
valgrind=$(command -v valgrind)
few=10
many=110
mkdir -p "$out"
tests/build.sh levels lib
# the whole program at once, and no checks that a release does not need
export CARGO_PROFILE_RELEASE_LTO=fat CARGO_PROFILE_RELEASE_CODEGEN_UNITS=1 CARGO_PROFILE_RELEASE_PANIC=abort
export CARGO_PROFILE_RELEASE_OVERFLOW_CHECKS=false CARGO_PROFILE_RELEASE_DEBUG_ASSERTIONS=false
cargo build --quiet --release --offline --manifest-path reference/Cargo.toml --target-dir "$out/programs"
cargo build --quiet --release --offline --manifest-path bench/reference/Cargo.toml --target-dir "$out/reference"
gcc -O2 -Iinclude -o "$out/sheet" bench/sheet.c build/libcards.a "$out/reference/release/libbench_reference.a" -lpthread -ldl -lm

# task N PLACE CARDS: the task in line N; every place has another deadline
task() { echo "$((65535 - $1)) $(($1 % 16)) $((4294967295 - 7 * $2)) $3"; }

# chain ORDER: 32 tasks in one group by a chain, with all 64 cards. ORDER is the place in the chain of the task in line n
chain() {
  local n place
  echo "task core deadline cards"
  for n in {0..31}; do
    place=$(($1))
    task "$n" "$place" "$(seq -s, $((2 * place)) $((place < 31 ? 2 * place + 2 : 63)))"
  done
}

# all_alike CARDS: 32 tasks with the same list of cards
all_alike() {
  local n
  echo "task core deadline cards"
  for n in {0..31}; do task "$n" "$n" "$1"; done
}

# counted WORDS..: instructions of a command, callgrind's options first. With no environment: its size moves the stack
counted() {
  env -i "$valgrind" --quiet --tool=callgrind --callgrind-out-file="$out/profile" "$@" >"$out/levels"
  sed -n 's/^summary: //p' "$out/profile"
}

# turn WHICH FUNCTION SHEET: the instructions of one call
turn() {
  local long short
  long=$(counted --toggle-collect="$2" "$out/sheet" "$1" $many <"$3")
  short=$(counted --toggle-collect="$2" "$out/sheet" "$1" $few <"$3")
  cp "$out/levels" "$out/levels.$1"
  echo $(((long - short) / (many - few)))
}

# row NAME SHEET OURS THEIRS
row() {
  awk -v name="$1" -v bytes="$(wc -c <"$2")" -v ours="$3" -v theirs="$4" \
    'BEGIN { printf "| %s | %d | %d | %d | %.2f |\n", name, bytes, ours, theirs, ours / theirs }'
}

# function_row NAME SHEET: a call of the C function and of the reference, which must leave the same levels
function_row() {
  local ours theirs
  ours=$(turn cards cards_levels "$2")
  theirs=$(turn reference bench_levels_reference "$2")
  cmp -s "$out/levels.cards" "$out/levels.reference" || { echo "sheet.sh: $1: the levels differ" >&2; exit 1; }
  row "$1" "$2" "$ours" "$theirs"
}

# program_row NAME SHEET: the whole run of both programs
program_row() {
  local ours theirs
  ours=$(counted build/levels <"$2")
  cp "$out/levels" "$out/levels.cards"
  theirs=$(counted "$out/programs/release/levels-reference" <"$2")
  cmp -s "$out/levels" "$out/levels.cards" || { echo "sheet.sh: $1: the programs differ" >&2; exit 1; }
  row "$1" "$2" "$ours" "$theirs"
}

printf '%s\n' 'task core deadline cards' '1 0 50 3' '2 1 100 1' '3 2 80 1,2' '4 3 70 2' '5 4 120 3' '6 5 60 -' >"$out/sheet.shipped"
chain n >"$out/sheet.rising"
chain '31 - n' >"$out/sheet.falling"
chain 'n % 2 ? 31 - n / 2 : n / 2' >"$out/sheet.inwards"
all_alike "$(seq -s, 0 63)" >"$out/sheet.cards"
all_alike - >"$out/sheet.none"

# rows WHAT: a row for each sheet
rows() {
  "$1_row" "table 6.1, 6 tasks" "$out/sheet.shipped"
  "$1_row" "32 tasks, a chain of 2 and 3 cards each, in its order" "$out/sheet.rising"
  "$1_row" "the same, backwards" "$out/sheet.falling"
  "$1_row" "the same, from both ends inwards" "$out/sheet.inwards"
  "$1_row" "32 tasks of 64 cards each" "$out/sheet.cards"
  "$1_row" "32 tasks without cards" "$out/sheet.none"
}

for what in function program; do
  echo
  case $what in
    function) echo "### Levels of a sheet, instructions of a call" ;;
    program) echo "### Levels of a sheet, instructions of the whole program" ;;
  esac
  echo
  case $what in
    function) echo "| sheet | bytes | \`cards_levels\` | reference | cards_levels / reference |" ;;
    program) echo "| sheet | bytes | \`levels\` | reference | levels / reference |" ;;
  esac
  echo "|---|---:|---:|---:|---:|"
  rows $what
done
