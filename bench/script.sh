#!/usr/bin/env bash
# A contended script through `cards`, through the peer (bench/peer.c) and through the reference's program: instructions (callgrind,
# 100,000 lines), those inside the C entry too, time and peak memory (a million lines). Prints a table of docs/BENCHMARKS.md.
# Instructions are the same on every run; times are the best of five runs of each in turn.
set -eu
cd "$(dirname "$0")/.."
tests/tool.sh rt cargo gcc make valgrind
[ -x /usr/bin/time ] || { echo "missing tool: /usr/bin/time" >&2; exit 1; }

out=build/bench
valgrind=$(command -v valgrind)
seed=10
few=100000
many=1000000
mkdir -p "$out"
tests/build.sh cards
make --no-print-directory host peer
# the whole program at once, and no checks that a release does not need
export CARGO_PROFILE_RELEASE_LTO=fat CARGO_PROFILE_RELEASE_CODEGEN_UNITS=1 CARGO_PROFILE_RELEASE_PANIC=abort
export CARGO_PROFILE_RELEASE_OVERFLOW_CHECKS=false CARGO_PROFILE_RELEASE_DEBUG_ASSERTIONS=false
cargo build --quiet --release --offline --manifest-path reference/Cargo.toml --target-dir "$out/programs"
cards=build/cards
host=build/cards_host
peer=build/cards_peer
reference=$out/programs/release/cards-reference

# same_listings SCRIPT: all four print the reference's listing
same_listings() {
  local listing=$out/listing.reference
  "$reference" <"$1" >"$listing"
  "$cards" <"$1" | cmp -s - "$listing" || { echo "script.sh: cards lists $1 differently" >&2; exit 1; }
  "$host" run "$1" | cmp -s - "$listing" || { echo "script.sh: the C entry lists $1 differently" >&2; exit 1; }
  "$peer" <"$1" | cmp -s - "$listing" || { echo "script.sh: the peer lists $1 differently" >&2; exit 1; }
}

# counted SCRIPT WORDS..: instructions of a command that takes the script, callgrind's options first. With no environment: its size moves
# the stack
counted() {
  local script=$1
  shift
  env -i "$valgrind" --quiet --tool=callgrind --callgrind-out-file="$out/profile" "$@" <"$script" >"$out/listing"
  sed -n 's/^summary: //p' "$out/profile"
}

# microseconds PROGRAM SCRIPT: of one run
microseconds() {
  local start=${EPOCHREALTIME/[.,]/}
  "$1" <"$2" >"$out/listing"
  echo $((${EPOCHREALTIME/[.,]/} - start))
}

# peak PROGRAM SCRIPT: KiB of memory
peak() {
  /usr/bin/time -f %M -o "$out/peak" "$1" <"$2" >"$out/listing"
  cat "$out/peak"
}

# least A B: the smaller, or B if A is empty
least() {
  if [ -n "$1" ] && [ "$1" -lt "$2" ]; then echo "$1"; else echo "$2"; fi
}

# row NAME OURS PEERS THEIRS DIVISOR FORMAT: all divided, and ours in ratio to both others
row() {
  awk -v name="$1" -v ours="$2" -v peers="$3" -v theirs="$4" -v by="$5" -v as="$6" \
    'BEGIN { printf "| %s | " as " | " as " | %.2f | " as " | %.2f |\n", name, ours / by, peers / by, ours / peers, theirs / by, ours / theirs }'
}

# the table of a machine of $1 cores
table() {
  local cores=$1 turn ours="" peers="" theirs="" short=$out/script.$1.short long=$out/script.$1.long
  "$out/programs/release/make-script" $seed "$cores" 64 $few >"$short"
  "$out/programs/release/make-script" $seed "$cores" 64 $many >"$long"
  same_listings "$short"
  same_listings "$long"
  echo
  echo "### Script, cores: $cores, cards: 64, seed $seed ($(wc -c <"$long") bytes)"
  echo
  echo "| | cards | peer | cards / peer | reference | cards / reference |"
  echo "|---|---:|---:|---:|---:|---:|"
  peers=$(counted "$short" "$peer")
  theirs=$(counted "$short" "$reference")
  row "instructions a line ($few lines)" "$(counted "$short" "$cards")" "$peers" "$theirs" $few %.0f
  row "the same, inside \`cards_run\` in place of cards" \
    "$(counted "$short" --toggle-collect=cards_run "$host" run "$short")" "$peers" "$theirs" $few %.0f
  peers="" theirs=""
  for turn in 1 2 3 4 5; do
    ours=$(least "$ours" "$(microseconds "$cards" "$long")")
    peers=$(least "$peers" "$(microseconds "$peer" "$long")")
    theirs=$(least "$theirs" "$(microseconds "$reference" "$long")")
  done
  row "time, s ($many lines)" "$ours" "$peers" "$theirs" 1000000 %.3f
  row "peak memory, KiB ($many lines)" "$(peak "$cards" "$long")" "$(peak "$peer" "$long")" "$(peak "$reference" "$long")" 1 %d
}

for cores in 4 16; do table $cores; done
